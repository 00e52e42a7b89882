alone put 61 0=01
begin 1 get 61 all
step 2
step 2
step 2
step 2
step 2
begin 2 remove 61
finish 3
begin 2 put 62 0=02
finish 4
step 2
step 2
step 2
step 2
step 2
step 2
step 2
