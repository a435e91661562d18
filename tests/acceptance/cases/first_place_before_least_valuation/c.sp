* y and m are one part: the fight at y comes before that at m, though m fights at a lesser valuation
.subckt k a b c y
m1 m a vdd vdd p
m2 m b gnd gnd n
m3 m c y gnd n
.ends
