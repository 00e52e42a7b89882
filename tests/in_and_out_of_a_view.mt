alone build range - none atleast 0 5
alone put 61 0=04
apply 1
view 1 0 - 10
alone put 61 0=05
apply 1
view 1 0 - 10
alone put 61 0=04
apply 1
view 1 0 - 10
alone remove 61
apply 1
view 1 0 - 10
apply 1
