* and-or-invert, of a netlist of modules
.subckt inv a y
m1 y a vdd vdd p
m2 y a gnd gnd n
.ends
.subckt aoi21 a b c y
m1 p a vdd vdd p
m2 p b vdd vdd p
m3 y c p vdd p
m4 y a q gnd n
m5 q b gnd gnd n
m6 y c gnd gnd n
.ends
.subckt ao21 a b c y
x1 a b c n aoi21
x2 n y inv
.ends
