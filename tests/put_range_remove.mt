begin 1 put 61 0=01
finish 1
begin 1 put 61 1=02
finish 2
begin 1 range - 10 1
finish 3
begin 1 remove 61
finish 4
begin 1 remove 61
finish 5
