t
.subckt k a b y
m1 vdd a y gnd n
m2 y b gnd gnd n
.ends
