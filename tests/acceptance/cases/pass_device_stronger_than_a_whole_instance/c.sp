* the pass device m1 is stronger than x1 drives, so x1 is opened, and z comes before y
.subckt inv a y
m1 y a vdd vdd p
m2 y a gnd gnd n
.ends
.subckt buf a y
XI0 a m / inv
XI1 m y / inv w=2u
.ends
.subckt pas a b s y z
x1 a p buf
m1 p s y gnd n
m2 z b vdd vdd p
.ends
