alone put 61 0=01
begin 1 get 62 all
step 2
step 2
step 2
step 2
step 2
begin 2 put 62 0=02
finish 3
step 2
begin 1 get 61 all
step 4
step 4
step 4
step 4
step 4
begin 2 put 61 0=03
finish 5
step 4
step 4
begin 1 get 61 all
step 6
step 6
step 6
step 6
step 6
step 6
begin 2 put 61 0=04
finish 7
step 6
begin 1 get 61 all
step 8
step 8
step 8
step 8
step 8
begin 2 remove 61
finish 9
step 8
step 8
finish 8
alone put 30313233343536374142 0=61
begin 1 get 30313233343536374142 all
step 11
step 11
step 11
step 11
step 11
begin 2 put 30313233343536375859 0=62
finish 12
step 11
step 11
step 11
step 11
step 11
step 11
step 11
step 11
step 11
step 11
step 11
step 11
step 11
step 11
alone put 63 0=63
alone put 64 0=64
alone put 65 0=65
alone put 66 0=66
alone put 67 0=67
alone put 68 0=68
alone put 69 0=69
alone put 6a 0=6a
alone put 6b 0=6b
alone put 6c 0=6c
alone put 6d 0=6d
alone put 6e 0=6e
alone put 6f 0=6f
begin 1 get 6f all
step 26
step 26
step 26
step 26
step 26
step 26
step 26
step 26
step 26
step 26
step 26
step 26
step 26
step 26
step 26
step 26
step 26
step 26
step 26
step 26
begin 2 put 70 0=70
finish 27
step 26
step 26
step 26
step 26
step 26
step 26
step 26
step 26
step 26
step 26
step 26
step 26
step 26
step 26
step 26
begin 1 get 69 all
step 28
step 28
step 28
step 28
step 28
step 28
begin 2 remove 69
finish 29
begin 2 remove 6a
finish 30
begin 2 remove 6b
finish 31
begin 2 remove 6c
finish 32
begin 2 remove 6d
finish 33
begin 2 remove 6e
finish 34
begin 2 remove 6f
finish 35
begin 2 remove 70
finish 36
begin 2 tidy 69
finish 37
collect
step 28
step 28
step 28
step 28
step 28
step 28
step 28
step 28
step 28
step 28
step 28
step 28
step 28
step 28
step 28
step 28
collect
