* meant as a NOR gate: the pull-up is in parallel and the pull-down in series, which is a NAND gate
.subckt nor2 a b y vdd gnd
m1 y a vdd vdd p
m2 y b vdd vdd p
m3 y a u gnd n
m4 u b gnd gnd n
.ends
