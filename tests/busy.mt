alone put 01 0=01
alone put 02 0=02
alone put 03 0=03
alone put 04 0=04
alone put 05 0=05
alone put 06 0=06
alone put 07 0=07
alone put 08 0=08
alone put 09 0=09
alone put 0a 0=0a
alone put 0b 0=0b
alone put 0c 0=0c
alone put 0d 0=0d
alone put 0e 0=0e
alone put 0f 0=0f
alone put 10 0=10
begin 1 get 10 all
alone get 10 all
step 17
step 17
step 17
step 17
step 17
step 17
step 17
step 17
step 17
step 17
step 17
step 17
step 17
step 17
step 17
