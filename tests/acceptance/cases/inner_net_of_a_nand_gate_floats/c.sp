t
.subckt nand2 a b y
m1 y a vdd vdd p
m2 y b vdd vdd p
m3 y a m gnd n
m4 m b gnd gnd n
m5 z m vdd vdd p
m6 z m gnd gnd n
.ends
