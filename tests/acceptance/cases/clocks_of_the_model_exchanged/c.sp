t
.subckt k c cn y z
m1 y c vdd vdd p
m2 y c gnd gnd n
m3 z cn vdd vdd p
m4 z cn gnd gnd n
.ends
