* k and z have rank 1, as the constraint of x1 at k: z floats first
.subckt pull a y
m1 y a vdd vdd p
.ends
.subckt top b y z
m1 k b vdd vdd p
m2 k b gnd gnd n
x1 k y pull
m3 z b vdd vdd p
.ends
