t
.subckt cs s y
m1 p s q gnd n
m2 y p vdd vdd p
m3 y p gnd gnd n
.ends
