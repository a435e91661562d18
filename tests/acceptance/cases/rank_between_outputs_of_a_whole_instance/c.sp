* inside x1 the output q hangs at the output p, so q has rank 2, and w comes before v, though v is the lesser net
.subckt inv a y
m1 y a vdd vdd p
m2 y a gnd gnd n
.ends
.subckt two a y z
x1 a y inv
x2 y z inv
.ends
.subckt top a b v w
x1 a p q two
m1 v q vdd vdd p
x2 b k inv
m2 w k vdd vdd p
.ends
