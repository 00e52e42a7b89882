alone put 30313233343536374142 0=61
begin 1 get 30313233343536374142 all
step 2
begin 2 put 30313233343536375859 0=62
step 3
step 3
step 3
step 3
step 3
step 3
step 3
step 3
step 3
step 3
step 3
step 3
step 3
step 3
step 3
step 3
step 3
step 3
step 3
step 3
step 3
step 3
step 3
step 2
step 2
step 2
step 2
step 2
step 2
step 2
step 2
step 2
step 2
step 2
step 2
step 2
alone remove 30313233343536375859
begin 1 get 30313233343536374142 all
step 5
step 5
step 5
step 5
step 5
step 5
step 5
step 5
step 5
step 5
step 5
step 5
step 5
step 5
