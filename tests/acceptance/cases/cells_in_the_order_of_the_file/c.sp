t
.subckt inv a y
m1 y a vdd vdd p
m2 y a gnd gnd n
.ends
.subckt split a b y
m1 y a vdd vdd p
m2 y b gnd gnd n
.ends
