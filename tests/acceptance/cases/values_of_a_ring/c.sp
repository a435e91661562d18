t
.subckt c
m1 n3 n2 vdd vdd p
m2 n3 n2 gnd gnd n
m3 n2 n3 vdd vdd p
m4 n2 n3 gnd gnd n
.ends
