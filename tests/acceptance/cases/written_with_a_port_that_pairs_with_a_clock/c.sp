t
.subckt nd a c y
m1 y a vdd vdd p
m2 y c vdd vdd p
m3 y a k gnd n
m4 k c gnd gnd n
.ends
