t
.subckt nand2 a b y
m1 y c vdd vdd p
m2 y b vdd vdd p
m3 y b m gnd n
m4 m c gnd gnd n
m5 z m vdd vdd p
m6 z m gnd gnd n
m7 c b vdd vdd p
m8 c b gnd gnd n
.ends
