t
.subckt c i2 i3
m1 n4 i2 vdd vdd p
m2 n4 i3 gnd gnd n
.ends
