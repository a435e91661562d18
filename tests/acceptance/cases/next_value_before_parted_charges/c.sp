* l is not the next bit of q, and x1/g2 is not what x1/g1 is: the latch comes first
.subckt s y
m1 g1 gnd vdd vdd p
m2 g2 vdd gnd gnd n
m3 y g2 vdd vdd p
.ends
.subckt top d ck y
x1 y s
m1 d ck l gnd n
.ends
