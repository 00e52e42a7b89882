alone put 30313233343536374142 0=61
begin 1 get 30313233343536374142 all
begin 2 put 30313233343536375859 0=62
step 3
step 3
step 3
step 3
step 3
step 3
step 3
step 3
step 3
step 3
step 2
step 2
step 2
step 2
step 2
step 3
step 2
step 2
step 2
step 2
step 3
step 2
step 2
step 2
step 2
step 2
step 2
step 2
step 2
step 2
step 2
step 2
step 2
step 2
finish 3
alone get 30313233343536375859 all
alone put 313233343536373843 0=63
begin 1 range 313233343536373843 10 all
begin 2 build prefix 3132333435363738 any
begin 3 put 313233343536373844 0=64
step 8
step 8
step 8
step 8
step 8
step 8
step 8
step 8
step 8
step 8
step 8
step 6
step 6
step 6
step 6
step 6
step 6
step 6
step 7
step 7
step 7
step 7
step 7
step 7
step 7
step 8
step 6
step 6
step 6
step 6
step 6
step 6
step 7
step 7
step 7
step 7
step 7
step 7
step 8
finish 6
finish 7
finish 8
view 1 0 - 10
apply 1
view 1 0 - 10
