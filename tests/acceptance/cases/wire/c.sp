t
.subckt wire a
.ends
