* the models of x1 and x2 name an input that the circuit does not need: with both whole their models would lead around, so x2 is opened
.subckt un a b y
m1 y a vdd vdd p
m2 y a gnd gnd n
.ends
.subckt top a b y z
x1 a z y un
x2 b y z un
.ends
