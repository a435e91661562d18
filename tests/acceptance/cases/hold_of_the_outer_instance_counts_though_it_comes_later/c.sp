* the net h keeps its charge by a line of s, two cells inside, and by one of u, one cell inside: that of u counts, and h enters as 1
.subckt s h y
m1 y h vdd vdd p
m2 y h gnd gnd n
.ends
.subckt mid h y
x1 h y s
.ends
.subckt u h z
m1 z h vdd vdd p
m2 z h gnd gnd n
.ends
.subckt top y z
x1 h y mid
x2 h z u
.ends
