* y of q has level 6 where a is 1, as q assumes, and none where a is 0: it drives with 6, x1 is whole in pas, and y comes before z
.subckt q a y
m1 m a vdd vdd p
m2 m a gnd gnd n
m3 y m vdd vdd p
.ends
.subckt pas a b s y z
x1 a p q
m1 p s y gnd n
m2 z b vdd vdd p
.ends
