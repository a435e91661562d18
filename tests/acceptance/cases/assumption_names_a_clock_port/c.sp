* what g assumes names its clock: a is 1 while the clock is 0, and 0 while it is 1
.subckt g a ck y
m1 y a vdd vdd p
m2 y ck vdd vdd p
.ends
