begin 1 put 61 0=01,1=02
finish 1
begin 1 get 61 1,0
finish 2
begin 1 get 61 2
no such line
begin 1 range - 10 all
finish 3
