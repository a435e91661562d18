* a domino stage
.subckt dom a b clk out
m1 d clk vdd vdd p
m2 d a x gnd n
m3 x b z gnd n
m4 z clk gnd gnd n
m5 out d vdd vdd p
m6 out d gnd gnd n
m7 d out vdd vdd p
.ends
