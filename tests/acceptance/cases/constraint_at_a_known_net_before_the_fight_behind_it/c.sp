* k is known to be 1, which x1 must not be given; with x1 whole its output y meets m2, and would fight there, but the constraint comes first
.subckt p a y
m1 y a vdd vdd p
.ends
.subckt top y
m1 k gnd vdd vdd p
m2 y gnd vdd vdd p
x1 k y p
.ends
