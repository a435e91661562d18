t
.subckt c s0 s1 s2 s3 d0 d1 d2 d3 d4 d5 d6 d7 d8 d9 d10 d11 d12 d13 d14 d15 y
m1 y s0 vdd vdd p
m2 y s0 gnd gnd n
.ends
.subckt top d0 d1 d2 d3 d4 d5 d6 d7 d8 d9 d10 d11 d12 d13 d14 d15 s0 s1 s2 s3 y
x1 s0 s1 s2 s3 d0 d1 d2 d3 d4 d5 d6 d7 d8 d9 d10 d11 d12 d13 d14 d15 y c
.ends
