t
.subckt ring y
m1 y q vdd vdd p
m2 y q gnd gnd n
m3 q y vdd vdd p
m4 q y gnd gnd n
.ends
