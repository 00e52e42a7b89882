begin 1 get 01 all
begin 2 put 01 0=01
finish 2
feed 0 10
begin 2 put 02 0=02
finish 3
finish 1
feed 0 10
begin 2 put 02 0=02
finish 4
begin 1 get 02 0
begin 2 remove 01
finish 6
begin 2 put 02 0=03
finish 7
finish 5
begin 2 put 02 0=03
finish 8
