t
.subckt inv a y
.ends
.subckt b a y
x1 a y inv
x2 a y inv
.ends
