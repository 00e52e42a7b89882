alone put - 0=-
alone put 00 0=-
alone put 0000 0=-
alone put 000000 0=-
alone put 00000000 0=-
alone put 0000000000 0=-
alone put 000000000000 0=-
alone put 00000000000000 0=-
alone put 0000000000000000 0=-
alone put 000000000000000000 0=-
alone put 01 0=-
alone put 02 0=-
alone put 03 0=-
alone put 04 0=-
alone put 05 0=-
begin 1 put 06 0=-
step 16
step 16
step 16
step 16
step 16
step 16
step 16
step 16
step 16
step 16
step 16
step 16
step 16
step 16
step 16
step 16
step 16
step 16
step 16
step 16
step 16
step 16
step 16
step 16
step 16
step 16
step 16
step 16
step 16
step 16
step 16
step 16
step 16
step 16
step 16
step 16
step 16
step 16
begin 1 get 06 all
step 17
step 17
step 17
step 17
step 17
step 17
step 17
step 17
step 17
step 17
step 17
step 17
step 17
