t
.subckt ring q
m1 q r vdd vdd p
m2 q r gnd gnd n
m3 r q vdd vdd p
m4 r q gnd gnd n
.ends
