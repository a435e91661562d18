* a domino stage with an inverter of its own kind inside
.subckt inv a y
m1 y a vdd vdd p
m2 y a gnd gnd n
.ends
.subckt dom a b clk out
m1 d clk vdd vdd p
m2 d a x gnd n
m3 x b z gnd n
m4 z clk gnd gnd n
x1 d out inv
m7 d out vdd vdd p
.ends
.subckt other a y
m1 y a gnd gnd n
.ends
