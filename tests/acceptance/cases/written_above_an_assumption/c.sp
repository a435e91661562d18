t
.subckt inv a y
m1 y a vdd vdd p
m2 y a gnd gnd n
.ends
.subckt nd a b y
m1 y a vdd vdd p
m2 y b vdd vdd p
m3 y a k gnd n
m4 k b gnd gnd n
.ends
.subckt top a y
x1 a an inv
x2 a an y nd
.ends
