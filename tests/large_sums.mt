alone build range - none any
alone put 01 0=ffffffffffffffff
alone put 02 0=ffffffffffffffff
alone put 03 0=010203040506070809
apply 1
apply 1
apply 1
view 1 3 - 10
view 1 3 02 1
view 1 4 - 10
view 1 3 - 0
view 1 3 - 1001
