alone put 01 0=-
alone put 02 0=-
alone put 03 0=-
begin 1 get 03 all
alone get 03 all
alone put 03 0=00
begin 2 put 06 0=06
alone range - 10 all
finish 4
step 5
alone remove 01
finish 5
alone remove 01
alone remove 01
alone get 02 0
alone get 02 1
alone
alone get
alone get 02
alone 1 get 02 all
finish 8
begin 1 get - all
finish 8
finish 9
