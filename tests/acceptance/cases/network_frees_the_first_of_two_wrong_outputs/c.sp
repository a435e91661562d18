t
.subckt two a y z
m1 y a vdd vdd p
m2 y a gnd gnd n
m3 z a vdd vdd p
m4 z a gnd gnd n
.ends
