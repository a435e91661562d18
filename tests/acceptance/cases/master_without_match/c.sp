* a flip-flop of the rising edge: the master m takes d while clk is 0, the slave s takes mb while clk is 1
.subckt flop d clk q
m1 cb clk vdd vdd p
m2 cb clk gnd gnd n
m3 m cb d gnd n
m4 m clk d vdd p
m5 mb m vdd vdd p
m6 mb m gnd gnd n
m7 m mb vdd vdd p
m8 m mb gnd gnd n
m9 s clk mb gnd n
m10 s cb mb vdd p
m11 q s vdd vdd p
m12 q s gnd gnd n
m13 s q vdd vdd p
m14 s q gnd gnd n
.ends
