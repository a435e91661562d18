t
.subckt k b vdd y gnd a
m1 bn b vdd vdd p
m2 bn b gnd gnd n
m3 u bn vdd vdd p
m4 y a u vdd p
m5 y bn gnd gnd n
m6 y a gnd gnd n
.ends
