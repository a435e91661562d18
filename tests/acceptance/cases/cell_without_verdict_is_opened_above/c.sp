* the ports of andor are in a bad order, and its budget is spent, so x1 is opened, and z comes before y
.subckt andor a1 a2 a3 a4 a5 a6 a7 a8 a9 a10 a11 a12 a13 a14 a15 a16 a17 b1 b2 b3 b4 b5 b6 b7 b8 b9 b10 b11 b12 b13 b14 b15 b16 b17 y
m0 n gnd vdd vdd p
ma1 n a1 x1 gnd n
mb1 x1 b1 gnd gnd n
ma2 n a2 x2 gnd n
mb2 x2 b2 gnd gnd n
ma3 n a3 x3 gnd n
mb3 x3 b3 gnd gnd n
ma4 n a4 x4 gnd n
mb4 x4 b4 gnd gnd n
ma5 n a5 x5 gnd n
mb5 x5 b5 gnd gnd n
ma6 n a6 x6 gnd n
mb6 x6 b6 gnd gnd n
ma7 n a7 x7 gnd n
mb7 x7 b7 gnd gnd n
ma8 n a8 x8 gnd n
mb8 x8 b8 gnd gnd n
ma9 n a9 x9 gnd n
mb9 x9 b9 gnd gnd n
ma10 n a10 x10 gnd n
mb10 x10 b10 gnd gnd n
ma11 n a11 x11 gnd n
mb11 x11 b11 gnd gnd n
ma12 n a12 x12 gnd n
mb12 x12 b12 gnd gnd n
ma13 n a13 x13 gnd n
mb13 x13 b13 gnd gnd n
ma14 n a14 x14 gnd n
mb14 x14 b14 gnd gnd n
ma15 n a15 x15 gnd n
mb15 x15 b15 gnd gnd n
ma16 n a16 x16 gnd n
mb16 x16 b16 gnd gnd n
ma17 n a17 x17 gnd n
mb17 x17 b17 gnd gnd n
m1 y n vdd vdd p
m2 y n gnd gnd n
.ends
.subckt top a1 b1 a2 b2 a3 b3 a4 b4 a5 b5 a6 b6 a7 b7 a8 b8 a9 b9 a10 b10 a11 b11 a12 b12 a13 b13 a14 b14 a15 b15 a16 b16 a17 b17 y z
x1 a1 a2 a3 a4 a5 a6 a7 a8 a9 a10 a11 a12 a13 a14 a15 a16 a17 b1 b2 b3 b4 b5 b6 b7 b8 b9 b10 b11 b12 b13 b14 b15 b16 b17 p andor
m1 y p vdd vdd p
m2 k b1 vdd vdd p
m3 k b1 gnd gnd n
m4 z k vdd vdd p
.ends
