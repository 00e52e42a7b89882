begin 1 get 61 all
