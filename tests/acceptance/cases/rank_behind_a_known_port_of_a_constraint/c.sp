* k is known, and x1 asks for it, so that its output y has rank 2, and w comes before v, though v is the lesser net
.subckt inv a b y
m1 y a vdd vdd p
m2 y a gnd gnd n
.ends
.subckt top a b v w
m1 k gnd vdd vdd p
x1 a k y inv
m2 v y vdd vdd p
m3 h b vdd vdd p
m4 h b gnd gnd n
m5 w h vdd vdd p
.ends
