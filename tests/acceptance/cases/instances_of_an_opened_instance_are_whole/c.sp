* row is compared in one phase alone, so x1 is opened; the buffers in it are left whole, so that y comes before z
.subckt inv a y
m1 y a vdd vdd p
m2 y a gnd gnd n
.ends
.subckt buf a y
x1 a m inv
x2 m y inv
.ends
.subckt row a y
x1 a n buf
x2 n y buf
.ends
.subckt ord a b y z
x1 a p row
m1 y p vdd vdd p
m2 k b vdd vdd p
m3 k b gnd gnd n
m5 h k vdd vdd p
m6 h k gnd gnd n
m7 i h vdd vdd p
m8 i h gnd gnd n
m4 z i vdd vdd p
.ends
