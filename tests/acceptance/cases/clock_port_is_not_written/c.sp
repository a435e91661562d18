t
.subckt cinv a clk y
m1 y a u vdd p
m2 u clk vdd vdd p
m3 y a gnd gnd n
.ends
