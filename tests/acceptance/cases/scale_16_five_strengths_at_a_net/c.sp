t
.subckt ladder a b c d y
m1 y gnd vdd vdd p
m2 y a gnd gnd n
m3 y b vdd vdd p
m4 y c gnd gnd n
m5 y d vdd vdd p
.ends
