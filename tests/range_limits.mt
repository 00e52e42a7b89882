alone put 01 0=-
alone put 02 0=-
alone put 03 0=-
alone put 04 0=-
alone put 05 0=-
alone range - 2 all
alone range - 0 all
alone range - 1001 all
alone range 06 1000 all
