t
.subckt k a b y
m1 vdd a m gnd n
m2 m b gnd gnd n
m3 y a vdd vdd p
m4 y a gnd gnd n
.ends
