* g2 keeps the inverse of what g1 keeps, by the lines of good and of bad; in bad both are 1
.subckt good y
m1 g1 gnd vdd vdd p
m2 g2 vdd gnd gnd n
m3 y g2 vdd vdd p
.ends
.subckt bad y
m1 g1 gnd vdd vdd p
m2 g2 gnd vdd vdd p
m3 y g2 gnd gnd n
.ends
.subckt upper y
x1 y good
.ends
.subckt lower y
x1 y bad
.ends
