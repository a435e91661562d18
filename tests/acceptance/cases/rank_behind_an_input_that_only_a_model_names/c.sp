* x1 is whole, and its model names the net z at its input, so y has a rank more than z, and w comes before v; x2 is opened
.subckt un a b y
m1 m a vdd vdd p
m2 m a gnd gnd n
m3 y m vdd vdd p
m4 y m gnd gnd n
.ends
.subckt top a b v w
x1 a z y un
x2 b y z un
m1 v y vdd vdd p
m2 w z vdd vdd p
.ends
