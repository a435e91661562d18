* a domino stage: d is precharged while clk is 0; out is (a or b) and c while clk is 1
.subckt stage a b c clk out
m1 d clk vdd vdd p
m2 d a u gnd n
m3 d b u gnd n
m4 u c v gnd n
m5 v clk gnd gnd n
m6 out d vdd vdd p
m7 out d gnd gnd n
m8 d out vdd vdd p
.ends
