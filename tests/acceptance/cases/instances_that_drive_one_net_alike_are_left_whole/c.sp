* the outputs of x1 and x2 meet at p, and each always drives as strongly as the other, so both are left whole, and y comes before z
.subckt inv a y
m1 y a vdd vdd p
m2 y a gnd gnd n
.ends
.subckt buf a y
x1 a m inv
x2 m y inv
.ends
.subckt ord a b y z
x1 a p buf
x2 a p buf
m1 y p vdd vdd p
m2 k b vdd vdd p
m3 k b gnd gnd n
m4 z k vdd vdd p
.ends
