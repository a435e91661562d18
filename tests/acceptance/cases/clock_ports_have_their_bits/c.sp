t
.subckt k c cn d dn y0 y1 y2 y3
m1 y0 c vdd vdd p
m2 y0 c gnd gnd n
m3 y1 cn vdd vdd p
m4 y1 cn gnd gnd n
m5 y2 d vdd vdd p
m6 y2 d gnd gnd n
m7 y3 dn vdd vdd p
m8 y3 dn gnd gnd n
.ends
