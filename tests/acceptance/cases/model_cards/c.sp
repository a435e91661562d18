t
.model nch nmos (level=1)
.model pch pmos
.subckt inv a y
m1 y a vdd vdd pch
m2 y a gnd gnd nch
.ends
