* no line leads the latch q of x1 and of x2 to one of top: they are two charges, which need not be the same
.subckt lat d ck y
m1 d ck l gnd n
m2 y l vdd vdd p
m3 y l gnd gnd n
.ends
.subckt top d e ck y z
x1 d ck y lat
x2 e ck z lat
.ends
