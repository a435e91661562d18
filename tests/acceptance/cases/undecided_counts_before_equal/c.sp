t
.subckt tie y
m1 y gnd vdd vdd p
.ends
.subckt inv a y
m1 y a vdd vdd p
m2 y a gnd gnd n
.ends
