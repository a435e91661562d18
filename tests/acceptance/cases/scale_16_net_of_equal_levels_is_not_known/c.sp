t
.subckt kr a y
m1 k gnd vdd vdd p
m2 k vdd gnd gnd n
m3 y q vdd vdd p
m4 y q gnd gnd n
m5 q a vdd vdd p
m6 q a gnd gnd n
m7 q k r vdd p
m8 r y vdd vdd p
m9 r y gnd gnd n
.ends
