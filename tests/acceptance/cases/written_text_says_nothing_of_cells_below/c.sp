t
.subckt inv a y
m1 y a vdd vdd p
m2 y a gnd gnd n
.ends
.subckt buf a y
x1 a w inv
x2 w y inv
.ends
