* inside x1 the outputs y and w are one part: with q fighting outside p floats late, so x1 is opened, and nothing is told of z
.subckt inv a y
m1 y a vdd vdd p
m2 y a gnd gnd n
.ends
.subckt two a y w
m1 y a vdd vdd p
m2 y a gnd gnd n
m3 y vdd w gnd n
.ends
.subckt top a b z
x1 a p q two
x2 b c inv
x3 c d inv
m5 q d vdd vdd p
m6 z p gnd gnd n
.ends
