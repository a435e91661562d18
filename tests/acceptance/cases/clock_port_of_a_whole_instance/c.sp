* the clock port of x1 has the wrong bit at p, which has rank 1 with the buffer whole; with the buffer opened z comes first
.subckt inv a y
m1 y a vdd vdd p
m2 y a gnd gnd n
.ends
.subckt buf a y
x1 a m inv
x2 m y inv
.ends
.subckt gate a clk y
m1 y a vdd vdd p
m2 y clk vdd vdd p
m3 y a n gnd n
m4 n clk gnd gnd n
.ends
.subckt top a b y z
x2 b p buf
x1 a p y gate
x3 a k inv
m1 z k vdd vdd p
.ends
