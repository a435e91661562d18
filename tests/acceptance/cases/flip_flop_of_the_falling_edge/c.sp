* the master m takes d while clk is 1, the slave s takes mb while it is 0
.subckt flop d clk q
m1 d clk m gnd n
m2 mb m vdd vdd p
m3 mb m gnd gnd n
m4 mb clk s vdd p
m5 q s vdd vdd p
m6 q s gnd gnd n
.ends
