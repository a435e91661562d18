t
.subckt inv a c y
m1 y a vdd vdd p
m2 y a gnd gnd n
.ends
