t
.subckt c i2
m1 n3 i2 gnd gnd n
m2 n3 i2 vdd gnd n
m3 n4 n3 vdd vdd p
m4 n4 n3 gnd gnd n
m5 n4 i2 n5 gnd n
.ends
