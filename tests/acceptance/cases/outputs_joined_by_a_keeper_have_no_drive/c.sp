* inside x1 the keeper m5 joins the outputs y and w, so x1 is opened: the keepers m2 and m3 fight at z
.subckt kk a y w
m1 y a vdd vdd p
m2 y a gnd gnd n
m3 w a vdd vdd p
m4 w a gnd gnd n
m5 y vdd w gnd n
.ends
.subckt top i z
x1 i p q kk
m1 z gnd vdd vdd p
m2 z vdd p gnd n
m3 q gnd vdd vdd p
.ends
