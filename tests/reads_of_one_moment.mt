alone put 61 0=62
alone put 6162 0=63
alone put 63 0=64
count - none 10
count 61 63 10
count 61 none 2
count 63 61 10
count - none 0
gets 61,62,-,61 all
gets 6162 0
gets 61 0,0
back none 2 all
back 63 10 0
back 61 10 all
back 63 0 0
alone remove 6162
count - none 4294967295
back none 1000 all
begin 1 get 61 all
count - none 1
back none 1 all
gets 61 all
finish 5
count - none 1
count - none
count - none 4294967296
gets all
