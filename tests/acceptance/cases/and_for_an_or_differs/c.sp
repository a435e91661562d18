t
.subckt k x y p q
m1 xn x vdd vdd p
m2 xn x gnd gnd n
m3 p xn vdd vdd p
m4 p xn gnd gnd n
m5 r x vdd vdd p
m6 r y vdd vdd p
m7 r x s gnd n
m8 s y gnd gnd n
m9 q r vdd vdd p
m10 q r gnd gnd n
.ends
