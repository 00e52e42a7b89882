alone put 30313233343536374142 0=61
alone put 30313233343536375859 0=62
alone remove 30313233343536375859
begin 1 get 30313233343536374142 all
step 4
step 4
step 4
step 4
step 4
step 4
step 4
begin 2 remove 30313233343536374142
finish 5
begin 2 tidy 30313233343536374142
finish 6
begin 2 put 30313233343536374142 0=63
finish 7
step 4
step 4
step 4
step 4
step 4
step 4
step 4
step 4
collect
