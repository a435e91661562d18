t
.subckt buf a y
x1 a p inv
x2 p y inv
.ends
.subckt inv a y
m1 y a vdd vdd p
m2 y a gnd gnd n
.ends
.subckt mux a b s0 s1 y
m1 a s0 y gnd n
m2 b s1 y gnd n
.ends
.subckt top a b s y
x0 s n buf
x1 a b n n y mux
.ends
