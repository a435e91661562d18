* a is 1 in all phases, as g assumes: in the second one too
.subckt g a y
m1 y a gnd gnd n
.ends
