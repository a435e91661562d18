* x2 is whole, and is asked for what it asks itself, after q, which it names too; what x1 in it asks is not asked again, so z comes first
.subckt inv a y
m1 y a vdd vdd p
m2 y a gnd gnd n
.ends
.subckt buf a y
x1 a m inv
x2 m y inv
.ends
.subckt nand a b y
m1 y a vdd vdd p
m2 y b vdd vdd p
m3 y a n gnd n
m4 n b gnd gnd n
.ends
.subckt pair a b c y
x1 a b y nand
m1 u c vdd vdd p
m2 u c gnd gnd n
.ends
.subckt top a b y z
x3 a p inv
x4 p q inv
x2 a b q y pair
m1 z b vdd vdd p
.ends
