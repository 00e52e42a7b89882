alone build range - none atleast 0 5
alone put 61 0=04
apply 1
view 1 0 - 10
alone put 61 0=05
view 1 2 - 10
apply 0
view 1 2 - 10
alone remove 61
apply 0
view 1 3 - 10
