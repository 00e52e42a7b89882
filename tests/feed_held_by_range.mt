begin 1 range - 10 all
begin 2 put 01 0=01
finish 2
feed 0 10
feed 1 10
feed 0 0
begin 2 put 02 0=02
finish 3
finish 1
begin 2 put 02 0=02
finish 4
feed 0 10
feed 2 1
begin 1 range - 10 all
begin 2 remove 01
begin 2 put 02 0=03
step 6
step 6
step 6
step 6
step 6
step 6
step 6
step 6
step 7
step 7
step 7
step 7
step 7
finish 7
feed 2 10
finish 6
finish 5
begin 2 put 02 0=04
finish 8
