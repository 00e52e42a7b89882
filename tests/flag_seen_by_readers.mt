alone put 61 0=01
alone remove 61
begin 1 get 62 all
step 3
step 3
begin 2 put 62 0=02
step 4
step 4
step 4
step 4
step 4
begin 3 get 62 all
step 5
step 5
begin 4 range - 10 all
step 6
step 6
begin 5 build prefix 62 any
step 7
step 7
step 3
step 3
step 3
step 4
step 5
step 3
step 4
step 6
step 7
step 4
step 5
step 3
step 6
step 7
step 4
step 5
step 5
step 5
step 5
step 5
step 5
step 3
step 3
step 3
step 3
step 3
step 3
step 6
step 6
step 6
step 6
step 6
step 6
step 7
step 7
step 7
step 7
step 7
step 7
step 7
step 7
view 1 3 - 10
drop 1
alone put 01 0=01
alone put 02 0=02
alone put 03 0=03
alone put 04 0=04
alone put 05 0=05
alone put 06 0=06
alone put 07 0=07
alone put 08 0=08
alone put 09 0=09
alone put 0a 0=0a
alone put 0b 0=0b
alone put 0c 0=0c
alone put 0d 0=0d
alone put 0e 0=0e
begin 1 get 01 all
step 22
step 22
begin 2 put 10 0=10
step 23
step 23
step 23
step 23
step 23
step 23
step 23
step 23
step 23
step 23
step 23
step 23
step 23
step 23
step 23
step 23
step 23
step 23
step 23
step 23
step 23
step 23
step 23
step 23
begin 3 get 62 all
step 24
step 24
step 22
step 22
step 23
step 23
step 23
step 23
step 24
step 22
step 23
step 24
begin 4 range 0d 10 all
step 25
step 25
step 22
step 23
step 22
step 22
step 24
step 25
step 23
step 22
step 24
step 23
step 25
step 23
step 22
step 24
step 25
step 23
step 22
step 24
step 25
step 23
step 22
step 22
step 22
step 22
step 22
step 22
step 24
step 24
step 24
step 24
step 24
step 24
step 24
step 24
step 24
step 24
step 24
step 24
step 24
step 24
step 24
step 25
finish 25
begin 1 get 10 all
finish 26
finish 23
