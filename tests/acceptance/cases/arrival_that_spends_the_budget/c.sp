* a gate of 12 pairs of inputs, each of which pulls down, with ports in an order that makes its diagrams large
.subckt sum a1 a2 a3 a4 a5 a6 a7 a8 a9 a10 a11 a12 b1 b2 b3 b4 b5 b6 b7 b8 b9 b10 b11 b12 y
m0 y gnd vdd vdd p
ma1 y a1 x1 gnd n
mb1 x1 b1 gnd gnd n
ma2 y a2 x2 gnd n
mb2 x2 b2 gnd gnd n
ma3 y a3 x3 gnd n
mb3 x3 b3 gnd gnd n
ma4 y a4 x4 gnd n
mb4 x4 b4 gnd gnd n
ma5 y a5 x5 gnd n
mb5 x5 b5 gnd gnd n
ma6 y a6 x6 gnd n
mb6 x6 b6 gnd gnd n
ma7 y a7 x7 gnd n
mb7 x7 b7 gnd gnd n
ma8 y a8 x8 gnd n
mb8 x8 b8 gnd gnd n
ma9 y a9 x9 gnd n
mb9 x9 b9 gnd gnd n
ma10 y a10 x10 gnd n
mb10 x10 b10 gnd gnd n
ma11 y a11 x11 gnd n
mb11 x11 b11 gnd gnd n
ma12 y a12 x12 gnd n
mb12 x12 b12 gnd gnd n
.ends
