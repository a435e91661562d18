* a and b have a line each for the latch q of their instance x1: that of a inverts it, that of b does not
.subckt lat d ck y
m1 d ck l gnd n
m2 y l vdd vdd p
m3 y l gnd gnd n
.ends
.subckt a d ck y
x1 d ck y lat
.ends
.subckt b d ck y
x1 d ck y lat
.ends
