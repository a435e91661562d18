* an output tied to supply 0
.subckt zero a y
m1 y a gnd gnd n
m2 y a gnd gnd p
.ends
