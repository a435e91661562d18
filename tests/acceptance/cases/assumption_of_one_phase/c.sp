* a is 1 in the phase hi alone, as g assumes: in the phase lo y floats where a is 0
.subckt g a y
m1 y a gnd gnd n
.ends
