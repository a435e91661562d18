* a load that is always on, and three pull-downs that are stronger
.subckt nor3 a b c y
m1 y gnd vdd vdd p
m2 y a gnd gnd n
m3 y b gnd gnd n
m4 y c gnd gnd n
.ends
