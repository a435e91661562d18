t
.subckt c i2 k3
m1 i2 k3 n5 gnd n
m2 n6 n5 vdd vdd p
m3 n6 n5 gnd gnd n
m4 n5 n6 vdd vdd p
m5 n5 n6 gnd gnd n
m6 n4 n6 vdd vdd p
m7 n4 n6 gnd gnd n
.ends
