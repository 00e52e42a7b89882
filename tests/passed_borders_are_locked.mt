alone put 30313233343536374142 0=61
alone put 30313233343536375859 0=62
begin 1 put 30313233343536374142 0=63
step 3
step 3
begin 2 remove 30313233343536375859
step 4
step 4
begin 3 get 30313233343536375859 all
finish 5
begin 4 put 61 0=64
step 6
step 6
step 3
step 3
step 3
step 4
step 3
step 4
step 6
step 3
step 4
step 3
step 3
step 6
step 4
step 4
step 4
step 4
step 4
step 6
step 4
step 4
finish 3
step 6
step 6
step 6
finish 4
finish 6
alone remove 30313233343536375859
alone put 01 0=01
alone put 02 0=02
alone put 03 0=03
alone put 04 0=04
alone put 05 0=05
alone put 06 0=06
alone put 07 0=07
alone put 08 0=08
alone put 09 0=09
alone put 0a 0=0a
alone put 0b 0=0b
alone put 0c 0=0c
alone put 0d 0=0d
begin 1 put 0f 0=0f
step 21
step 21
step 21
step 21
step 21
step 21
step 21
step 21
step 21
step 21
step 21
step 21
step 21
step 21
step 21
step 21
step 21
step 21
step 21
step 21
step 21
step 21
step 21
step 21
step 21
step 21
step 21
step 21
step 21
step 21
step 21
step 21
step 21
step 21
begin 2 remove 0d
step 22
step 22
begin 3 remove 02
step 23
step 23
step 21
step 22
step 23
step 22
step 23
step 22
step 22
step 23
step 23
step 23
finish 23
step 22
finish 21
step 22
finish 22
begin 1 remove 0d
step 24
step 24
step 24
step 24
step 24
step 24
step 24
step 24
step 24
step 24
step 24
step 24
step 24
alone range - 100 all
