* with x1 whole y has rank 2, as z, and is the lesser net; with x1 opened the fight at z comes first
.subckt inv a y
m1 y a vdd vdd p
m2 y a gnd gnd n
.ends
.subckt buf a y
x1 a m inv
x2 m y inv
.ends
.subckt top a b y z
x1 a p buf
m1 y p vdd vdd p
m2 y b gnd gnd n
x2 b k inv
m3 z k vdd vdd p
m4 z a gnd gnd n
.ends
