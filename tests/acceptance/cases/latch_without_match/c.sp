* a latch: a pass gate that conducts while clk is 1, and a feedback that is on while clk is 0
.subckt latch d clk clkb q
m1 s clk d gnd n
m2 s clkb d vdd p
m3 sb s vdd vdd p
m4 sb s gnd gnd n
m5 t sb vdd vdd p
m6 s clk t vdd p
m7 s clkb w gnd n
m8 w sb gnd gnd n
m9 q sb vdd vdd p
m10 q sb gnd gnd n
.ends
