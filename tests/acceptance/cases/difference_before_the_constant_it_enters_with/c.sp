* y is not what the model says, and h is not the 1 with which it enters: the output comes first
.subckt e y
m1 h vdd gnd gnd n
m2 y h vdd vdd p
m3 y h gnd gnd n
.ends
