t
.subckt low x y z o
m1 o vdd gnd gnd n
.ends
