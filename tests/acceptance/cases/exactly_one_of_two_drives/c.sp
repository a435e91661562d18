t
.subckt k a b y
m1 an a vdd vdd p
m2 an a gnd gnd n
m3 vdd a y gnd n
m4 y an gnd gnd n
.ends
