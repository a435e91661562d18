t
.subckt c i2
m1 n3 i2 vdd vdd p
m2 n3 i2 gnd gnd n
m3 n4 i2 gnd gnd n
m4 n3 n4 vdd gnd n
.ends
