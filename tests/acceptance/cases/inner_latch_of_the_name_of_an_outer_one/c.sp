* no line of top leads the latch q of x1 to its own latch q: x1/l is a charge of its own, and y is not what the model says
.subckt lat d ck y
m1 d ck l gnd n
m2 y l vdd vdd p
m3 y l gnd gnd n
.ends
.subckt top d ck y z
x1 d ck y lat
m1 d ck k gnd n
m2 z k vdd vdd p
m3 z k gnd gnd n
.ends
