alone put 61 0=01
alone put 63 0=03
begin 1 range - 10 all
step 3
step 3
step 3
step 3
begin 2 put 62 0=02
finish 4
begin 2 put 63 0=33
finish 5
step 3
step 3
begin 2 put 61 0=11
finish 6
begin 2 remove 63
finish 7
step 3
step 3
step 3
finish 3
begin 1 range - 10 all
step 8
step 8
step 8
step 8
step 8
step 8
begin 2 remove 61
finish 9
begin 2 put 62 0=22
finish 10
step 8
step 8
step 8
finish 8
begin 1 range - 10 all
step 11
step 11
step 11
step 11
begin 2 remove 62
finish 12
begin 2 put 64 0=04
finish 13
step 11
step 11
step 11
step 11
step 11
step 11
step 11
step 11
step 11
begin 1 build range - none any
step 14
step 14
step 14
step 14
begin 2 remove 64
finish 15
begin 2 put 65 0=05
finish 16
step 14
step 14
step 14
step 14
step 14
step 14
step 14
step 14
step 14
step 14
step 14
step 14
view 1 12 - 10
drop 1
alone put 30313233343536374142 0=61
begin 1 range - 10 all
step 18
step 18
step 18
step 18
step 18
begin 2 put 30313233343536375859 0=62
finish 19
step 18
step 18
step 18
step 18
step 18
step 18
step 18
step 18
step 18
step 18
step 18
step 18
step 18
step 18
step 18
step 18
step 18
step 18
step 18
step 18
step 18
step 18
step 18
step 18
step 18
step 18
step 18
alone put 66 0=66
alone put 67 0=67
alone put 68 0=68
alone put 69 0=69
alone put 6a 0=6a
alone put 6b 0=6b
alone put 6c 0=6c
alone put 6d 0=6d
alone put 6e 0=6e
alone put 6f 0=6f
alone put 70 0=70
alone put 71 0=71
alone put 72 0=72
begin 1 range 70 10 all
step 33
step 33
step 33
step 33
step 33
step 33
step 33
step 33
step 33
step 33
step 33
step 33
step 33
step 33
step 33
step 33
step 33
step 33
step 33
step 33
step 33
step 33
step 33
step 33
step 33
step 33
step 33
step 33
step 33
step 33
step 33
step 33
step 33
step 33
begin 2 put 73 0=73
finish 34
step 33
step 33
step 33
step 33
step 33
step 33
step 33
step 33
step 33
step 33
step 33
step 33
step 33
step 33
step 33
step 33
step 33
step 33
step 33
step 33
step 33
step 33
step 33
begin 1 range 66 100 all
step 35
step 35
step 35
step 35
step 35
step 35
step 35
step 35
step 35
step 35
step 35
step 35
step 35
step 35
step 35
step 35
step 35
step 35
step 35
step 35
step 35
step 35
step 35
step 35
step 35
begin 2 remove 6c
finish 36
begin 2 remove 6d
finish 37
begin 2 remove 6e
finish 38
begin 2 remove 6f
finish 39
begin 2 remove 70
finish 40
begin 2 remove 71
finish 41
begin 2 remove 72
finish 42
begin 2 remove 73
finish 43
begin 2 tidy 6c
finish 44
collect
advance
step 35
step 35
step 35
step 35
step 35
step 35
step 35
step 35
step 35
step 35
step 35
step 35
step 35
step 35
step 35
step 35
step 35
step 35
step 35
step 35
step 35
step 35
step 35
step 35
step 35
step 35
step 35
step 35
step 35
step 35
step 35
step 35
step 35
step 35
step 35
step 35
step 35
step 35
step 35
collect
