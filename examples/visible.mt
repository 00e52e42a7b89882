begin 1 put 61 0=76
begin 2 get 61 all
step 1
step 1
step 1
step 1
step 1
step 1
step 1
step 2
step 2
step 2
step 2
step 2
step 1
begin 2 get 61 all
step 3
step 3
step 3
step 3
step 3
step 3
step 3
step 1
