t
.subckt nand2 a b y
m1 y a vdd vdd p
m2 y b vdd vdd p
m3 y a m gnd n
m4 m b gnd gnd n
.ends
.subckt inv a y
m1 y a vdd vdd p
m2 y a gnd gnd n
.ends
.subckt filler
.ends
.subckt tie y
m1 y gnd vdd vdd p
.ends
