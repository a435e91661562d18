* x1/g2 is not what x1/g1 is, and l is not the 1 with which it enters the phase lo: the parted charges come first
.subckt s y
m1 g1 gnd vdd vdd p
m2 g2 vdd gnd gnd n
m3 y g2 vdd vdd p
.ends
.subckt top d ck y
x1 y s
m1 d ck l gnd n
.ends
