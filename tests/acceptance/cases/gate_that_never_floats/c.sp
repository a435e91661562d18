t
.subckt buf a y
m2 m vdd gnd gnd n
m3 y m vdd vdd p
m4 y m gnd gnd n
.ends
