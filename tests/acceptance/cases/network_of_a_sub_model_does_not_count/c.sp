t
.subckt nand2 a b y
m1 y a vdd vdd p
m2 y b vdd vdd p
m3 y a m gnd n
m4 m b gnd gnd n
.ends
.subckt w a b y
x1 a b y nand2
.ends
