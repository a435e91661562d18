t
.subckt k a b y
m1 an a vdd vdd p
m2 an a gnd gnd n
m3 bn b vdd vdd p
m4 bn b gnd gnd n
m5 vdd a u gnd n
m6 u bn y gnd n
m7 y an v gnd n
m8 v b gnd gnd n
.ends
