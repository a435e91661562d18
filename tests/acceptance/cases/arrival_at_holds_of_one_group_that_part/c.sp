* two nets keep one bit; on the way one of them is pulled down and back up
.subckt dom a b clk out
m1 d clk vdd vdd p
m2 d a y gnd n
m3 y bn z gnd n
m4 z clk gnd gnd n
m5 d bn vdd vdd p
m6 e clk vdd vdd p
m7 out e vdd vdd p
m8 out e gnd gnd n
m9 bn b vdd vdd p
m10 bn b gnd gnd n
.ends
