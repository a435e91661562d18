t
.subckt buf a y
m1 m a vdd vdd p
m2 m a gnd gnd n
m3 y m vdd vdd p
m4 y m gnd gnd n
.ends
