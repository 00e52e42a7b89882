columns 3
put 61 0=01,2=03
put 61 1=02
put 61 1=-,1=00
put 61 3=00
put 6162 -
get 61
