t
.subckt c i2
m1 n3 i2 n4 gnd n
m2 n5 n3 vdd vdd p
m3 n5 n3 gnd gnd n
.ends
