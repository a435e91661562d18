* the latch q of x1 is p of top, that of x2 is r, which keeps the inverse
.subckt lat d ck y
m1 d ck l gnd n
m2 y l vdd vdd p
m3 y l gnd gnd n
.ends
.subckt top d e ck y z
x1 d ck y lat
x2 e ck z lat
.ends
