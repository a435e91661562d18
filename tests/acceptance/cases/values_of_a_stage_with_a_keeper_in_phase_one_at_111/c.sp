t
.subckt c i2 i3 k4
m1 n5 k4 vdd vdd p
m2 n5 i2 n6 gnd n
m3 n6 i3 n7 gnd n
m4 n7 k4 gnd gnd n
m5 n8 n5 vdd vdd p
m6 n8 n5 gnd gnd n
m7 n9 n8 vdd vdd p
m8 n9 n8 gnd gnd n
m9 n5 n9 vdd gnd n
.ends
