t
.subckt inv a y
m1 y a vdd vdd q
m2 y a gnd gnd n
.ends
