t
.subckt tie y
m1 y gnd vdd vdd p
.ends
