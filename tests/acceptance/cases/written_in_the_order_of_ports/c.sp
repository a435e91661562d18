t
.subckt nand2 b a y
m1 y a vdd vdd p
m2 y b vdd vdd p
m3 y a x gnd n
m4 x b gnd gnd n
.ends
