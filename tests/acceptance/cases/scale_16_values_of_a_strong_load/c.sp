t
.model p pmos
.subckt lo a y
m1 y gnd vdd vdd p
m2 y a gnd gnd n
.ends
