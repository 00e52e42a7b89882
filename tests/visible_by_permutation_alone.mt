begin 1 get 61 all
finish 1
begin 2 put 61 0=76
step 2
begin 1 get 61 all
finish 3
begin 1 range - 10 all
finish 4
step 2
begin 1 get 61 all
finish 5
begin 1 range - 10 all
finish 6
step 2
begin 1 get 61 all
finish 7
begin 1 range - 10 all
finish 8
step 2
begin 1 get 61 all
finish 9
begin 1 range - 10 all
finish 10
step 2
begin 1 get 61 all
finish 11
begin 1 range - 10 all
finish 12
step 2
begin 1 get 61 all
finish 13
begin 1 range - 10 all
finish 14
step 2
begin 1 get 61 all
finish 15
begin 1 range - 10 all
finish 16
step 2
begin 1 get 61 all
finish 17
begin 1 range - 10 all
finish 18
step 2
