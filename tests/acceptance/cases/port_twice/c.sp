t
.subckt a b b
