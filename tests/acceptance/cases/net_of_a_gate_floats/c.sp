t
.subckt k a b y
m1 an a vdd vdd p
m2 an a gnd gnd n
m3 bn b vdd vdd p
m4 bn b gnd gnd n
m5 vdd a u gnd n
m6 u bn m gnd n
m7 m an v gnd n
m8 v b gnd gnd n
m9 y a vdd vdd p
m10 y a gnd gnd n
m11 w m vdd vdd p
.ends
