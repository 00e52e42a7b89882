begin 1 get - all
step 1
step 1
step 1
step 1
step 1
