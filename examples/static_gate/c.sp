* an and-or-invert gate: y is 0 where a and b are 1, or c is
.subckt aoi21 a b c y vdd gnd
m1 u a vdd vdd p
m2 u b vdd vdd p
m3 y c u vdd p
m4 y a v gnd n
m5 v b gnd gnd n
m6 y c gnd gnd n
.ends
