alone put 61 0=76
feed 0 10
feed 1 10
feed 0 0
alone build range 62 62 any
alone build prefix 61 any
drop 1
drop 1
apply 1
apply 0
alone build prefix 61 any
alone build prefix 61 any
alone build prefix 61 any
alone build prefix 61 any
alone build prefix 61 any
alone build prefix 61 any
alone build prefix 61 any
alone build prefix 61 any
alone build prefix 61 any
alone build prefix 61 any
alone build prefix 61 any
alone build prefix 61 any
alone build prefix 61 any
alone build prefix 61 any
alone build prefix 61 any
alone build prefix 61 any
alone build prefix 61 any
alone build prefix 61 any
alone build prefix 61 any
alone build prefix 61 any
alone build prefix 61 any
alone build prefix 61 any
alone build prefix 61 any
alone build prefix 61 any
alone build prefix 61 any
alone build prefix 61 any
alone build prefix 61 any
alone build prefix 61 any
alone build prefix 61 any
alone build prefix 61 any
alone build prefix 61 any
alone build prefix 61 any
alone build prefix 61 any
alone build prefix 61 any
alone build prefix 61 any
alone build prefix 61 any
alone build prefix 61 any
alone build prefix 61 any
alone build prefix 61 any
alone build prefix 61 any
alone build prefix 61 any
alone build prefix 61 any
alone build prefix 61 any
alone build prefix 61 any
alone build prefix 61 any
alone build prefix 61 any
alone build prefix 61 any
alone build prefix 61 any
alone build prefix 61 any
alone build prefix 61 any
alone build prefix 61 any
alone build prefix 61 any
alone build prefix 61 any
alone build prefix 61 any
alone build prefix 61 any
alone build prefix 61 any
alone build prefix 61 any
alone build prefix 61 any
alone build prefix 61 any
alone build prefix 61 any
alone build prefix 61 any
alone build prefix 61 any
alone build prefix 61 any
alone build prefix 61 any
alone build prefix 61 any
apply 0
alone put 6101 0=01
alone put 62 0=02
apply 0
apply 0
apply 5
apply 5
apply 5
apply 0
view 2 0 - 10
view 5 2 61 1
view 5 9 - 1
drop 3
begin 1 build prefix - any
view 66 0 - 1
view 1 0 - 1
apply 99
finish 69
view 66 0 - 2
