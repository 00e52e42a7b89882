len
alone put 61 0=01
alone put 61 0=02
len
alone remove 62
len
begin 1 put 62 -
step 4
len
step 4
len
step 4
len
step 4
len
step 4
len
step 4
len
step 4
len
step 4
len
step 4
len
step 4
len
begin 2 remove 61
step 5
len
step 5
len
step 5
len
step 5
len
step 5
len
step 5
len
step 5
len
step 5
len
step 5
len
step 5
len
step 5
len
step 5
len
len 1
