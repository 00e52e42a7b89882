alone put 610000 0=-
alone put 6100 0=-
alone put 61 0=-
alone range - 10 all
