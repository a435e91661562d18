* gb names the global net g, so both instances of it are opened, and g is one net in both
.global g
.subckt inv a y
m1 y a vdd vdd p
m2 y a gnd gnd n
.ends
.subckt gb a y
x1 a g inv
x2 g y inv
.ends
.subckt glo a b y z
x1 a y gb
x2 b z gb
.ends
