* with x1 whole p has rank 1, so that what x2 asks of it comes before z, which may float; with x1 opened z comes first
.subckt inv a y
m1 y a vdd vdd p
m2 y a gnd gnd n
.ends
.subckt buf a y
x1 a m inv
x2 m y inv
.ends
.subckt nand a b y
m1 y a vdd vdd p
m2 y b vdd vdd p
m3 y a n gnd n
m4 n b gnd gnd n
.ends
.subckt top a b y z
x1 a p buf
x2 p b y nand
x3 b k inv
m1 z k vdd vdd p
.ends
