* q floats, but nothing inside x1 observes its input b
.subckt un a b y
m1 y a vdd vdd p
m2 y a gnd gnd n
.ends
.subckt top a y
m1 q a gnd gnd n
x1 a q y un
.ends
