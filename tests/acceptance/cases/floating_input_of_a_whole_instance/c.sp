* p floats at a=0; it is observed as the input of x1, which is left whole
.subckt inv a y
m1 y a vdd vdd p
m2 y a gnd gnd n
.ends
.subckt fl a y
m1 p a gnd gnd n
x1 p y inv
.ends
