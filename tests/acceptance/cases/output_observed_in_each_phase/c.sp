t
.subckt k a clk y z
m1 y clk vdd vdd p
m2 y clk gnd gnd n
m3 z clk vdd vdd p
m4 z clk gnd gnd n
.ends
.subckt other z
m1 z vdd gnd gnd n
.ends
