alone put 01 0=01
alone put 02 0=02
alone put 03 0=03
alone put 04 0=04
alone put 05 0=05
alone put 06 0=06
alone put 07 0=07
alone put 08 0=08
alone put 09 0=09
alone put 0a 0=0a
alone put 0b 0=0b
alone put 0c 0=0c
alone put 0d 0=0d
alone put 0e 0=0e
alone put 0f 0=0f
alone put 10 0=10
begin 1 range - 100 all
step 17
step 17
step 17
step 17
step 17
step 17
step 17
step 17
step 17
step 17
step 17
step 17
step 17
step 17
step 17
step 17
step 17
step 17
step 17
step 17
step 17
step 17
begin 2 put 11 0=11
finish 18
begin 2 put 12 0=12
finish 19
begin 2 put 13 0=13
finish 20
begin 2 put 14 0=14
finish 21
begin 2 put 15 0=15
finish 22
begin 2 put 16 0=16
finish 23
begin 2 put 17 0=17
finish 24
begin 2 put 18 0=18
finish 25
begin 2 remove 11
finish 26
begin 2 remove 12
finish 27
begin 2 remove 13
finish 28
begin 2 remove 14
finish 29
begin 2 remove 15
finish 30
begin 2 remove 16
finish 31
begin 2 remove 17
finish 32
begin 2 remove 18
finish 33
begin 2 tidy 11
finish 34
advance
collect
step 17
step 17
step 17
step 17
step 17
step 17
step 17
step 17
step 17
step 17
step 17
step 17
step 17
step 17
step 17
step 17
step 17
step 17
step 17
step 17
collect
