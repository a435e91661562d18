* a gate of 20 inputs in which each pulls down
.subckt nor20 i1 i2 i3 i4 i5 i6 i7 i8 i9 i10 i11 i12 i13 i14 i15 i16 i17 i18 i19 i20 y
m0 y gnd vdd vdd p
m1 y i1 gnd gnd n
m2 y i2 gnd gnd n
m3 y i3 gnd gnd n
m4 y i4 gnd gnd n
m5 y i5 gnd gnd n
m6 y i6 gnd gnd n
m7 y i7 gnd gnd n
m8 y i8 gnd gnd n
m9 y i9 gnd gnd n
m10 y i10 gnd gnd n
m11 y i11 gnd gnd n
m12 y i12 gnd gnd n
m13 y i13 gnd gnd n
m14 y i14 gnd gnd n
m15 y i15 gnd gnd n
m16 y i16 gnd gnd n
m17 y i17 gnd gnd n
m18 y i18 gnd gnd n
m19 y i19 gnd gnd n
m20 y i20 gnd gnd n
.ends
