* three pass transistors to one net; from outside exactly one select is 1
.subckt mux3 a b c sa sb sc y
m1 a sa y gnd n
m2 b sb y gnd n
m3 c sc y gnd n
.ends
