* one pass device: the output floats where it is off, at 00 and at 10
.subckt t a s y
m1 a s y gnd n
.ends
