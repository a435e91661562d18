t
.subckt c i2
m1 n3 gnd vdd vdd p
m2 n3 i2 gnd gnd n
.ends
