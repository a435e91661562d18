* two domino stages, the input of the second is the output of the first
.subckt two a b c clk out
m1 d clk vdd vdd p
m2 d a x gnd n
m3 x b z gnd n
m4 z clk gnd gnd n
m5 o d vdd vdd p
m6 o d gnd gnd n
m7 d o vdd vdd p
mn1 e clk vdd vdd p
mn2 e o w gnd n
mn3 e c w gnd n
mn4 w clk gnd gnd n
mn5 out e vdd vdd p
mn6 out e gnd gnd n
mn7 e out vdd vdd p
.ends
