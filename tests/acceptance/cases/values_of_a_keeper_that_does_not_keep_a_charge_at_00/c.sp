t
.subckt c i2
m1 n3 i2 gnd gnd n
m2 n4 n3 vdd vdd p
m3 n4 n3 gnd gnd n
m4 n3 n4 vdd gnd n
.ends
