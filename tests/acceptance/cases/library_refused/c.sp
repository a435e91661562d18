t
.lib x
