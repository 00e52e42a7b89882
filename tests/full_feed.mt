alone build range - none any
alone put 01 0=01
alone put 02 0=02
apply 1
alone put 02 0=02
view 1 2 - 10
view 1 1 - 10
drop 1
alone put 03 0=03
alone put 04 0=04
apply 1
feed 3 10
feed 4 10
