* t
.model n nmos
.model p pmos
.subckt inv a y
m1 y a vdd vdd p
m2 y a 0 0 n
.ends
