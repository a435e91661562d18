* an inner net of the stack shares its charge with the domino net where a is 1 and b is 0
.subckt dom a b clk out
m1 d clk vdd vdd p
m2 d a y gnd n
m3 y bn x gnd n
m4 x ck gnd gnd n
m5 out d vdd vdd p
m6 out d gnd gnd n
m7 bn b vdd vdd p
m8 bn b gnd gnd n
m9 ck clk vdd vdd p
m10 ck clk gnd gnd n
.ends
