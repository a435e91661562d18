t
+ a
