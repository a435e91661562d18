* buf is compared in one phase alone, so x1 is opened, and z comes before y
.subckt buf a y
m1 m a vdd vdd p
m2 m a gnd gnd n
m3 y m vdd vdd p
m4 y m gnd gnd n
.ends
.subckt ord a b y z
x1 a p buf
m1 y p vdd vdd p
m2 k b vdd vdd p
m3 k b gnd gnd n
m4 z k vdd vdd p
.ends
