* 200,001 rows
.subckt inv a y
m1 y a vdd vdd p
m2 y a gnd gnd n
.ends
