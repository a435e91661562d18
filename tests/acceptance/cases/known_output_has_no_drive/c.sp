* inside x1 the output y is known, and no arc leads from it to w; q fights outside, so x1 is opened, and nothing is told of z
.subckt inv a y
m1 y a vdd vdd p
m2 y a gnd gnd n
.ends
.subckt one y w
m1 y gnd vdd vdd p
x1 y w inv
.ends
.subckt top b z
x1 q p one
x2 b c inv
m5 q c gnd gnd n
m6 z p gnd gnd n
.ends
