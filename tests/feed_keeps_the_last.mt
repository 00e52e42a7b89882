feed 0 10
begin 1 put 61 0=76,1=-
finish 1
feed 0 10
begin 1 put 61 1=00ff
finish 2
begin 1 put - -
finish 3
begin 1 remove 61
finish 4
feed 1 10
feed 1 2
feed 3 1000
feed 4 1
feed 18446744073709551615 1
feed 0 1
feed 1 0
feed 1 1001
feed 0 1001
begin 1 remove 61
finish 5
feed 1 1000
feed 1 65536
feed 1
feed
feed 1 1 1
feed  1 1
feed -1 1
feed 1 1 
