alone put 01 0=01
alone put 02 0=02
alone put 03 0=03
alone put 04 0=04
alone put 05 0=05
alone put 06 0=06
alone put 07 0=07
alone put 08 0=08
alone put 09 0=09
alone put 0a 0=0a
alone put 0b 0=0b
alone put 0c 0=0c
alone put 0d 0=0d
alone put 0e 0=0e
alone put 0f 0=0f
alone put 10 0=10
alone remove 09
alone remove 0a
alone remove 0b
alone remove 0c
alone remove 0d
alone remove 0e
alone remove 0f
alone remove 10
begin 1 tidy 09
step 25
step 25
step 25
step 25
step 25
begin 2 put 09 0=19
finish 26
step 25
step 25
step 25
step 25
step 25
step 25
begin 1 get 09 all
finish 27
begin 1 put 09 0=29
finish 28
alone put 0101 0=01
alone put 0102 0=02
alone put 0103 0=03
alone put 0104 0=04
alone put 0105 0=05
alone put 0106 0=06
alone put 0107 0=07
alone put 0108 0=08
alone remove 02
alone remove 03
alone remove 04
alone remove 05
alone remove 06
alone remove 07
alone remove 08
alone remove 09
begin 1 tidy 02
step 45
step 45
step 45
step 45
step 45
begin 2 tidy 09
finish 46
step 45
step 45
step 45
step 45
alone put 0109 0=09
alone put 010a 0=0a
alone put 010b 0=0b
alone put 010c 0=0c
alone put 010d 0=0d
alone put 010e 0=0e
begin 1 tidy 02
step 53
step 53
step 53
step 53
step 53
step 53
step 53
step 53
step 53
step 53
step 53
step 53
step 53
step 53
begin 2 put 010f 0=0f
finish 54
step 53
step 53
step 53
step 53
step 53
step 53
step 53
step 53
step 53
step 53
step 53
step 53
alone range - 100 all
alone put 0101 0=11
collect
alone put 303132333435363741 0=61
alone put 303132333435363758 0=62
alone remove 303132333435363741
alone remove 303132333435363758
alone put 0110 0=10
alone put 0111 0=11
alone put 0112 0=12
alone put 0113 0=13
alone put 0114 0=14
alone put 0115 0=15
begin 1 tidy 303132333435363741
step 67
step 67
step 67
step 67
step 67
step 67
step 67
step 67
step 67
step 67
step 67
step 67
step 67
step 67
step 67
step 67
step 67
step 67
step 67
step 67
step 67
step 67
step 67
step 67
step 67
step 67
step 67
step 67
step 67
begin 2 put 0116 0=16
finish 68
step 67
step 67
step 67
step 67
alone tidy 303132333435363741
alone put 0110 0=20
alone put 0108 0=18
alone range 0107 100 all
collect
