begin 1 put 01 0=01
finish 1
begin 1 put 02 0=02
finish 2
begin 1 put 03 0=03
finish 3
begin 1 put 04 0=04
finish 4
begin 1 put 05 0=05
finish 5
begin 1 put 06 0=06
finish 6
begin 1 put 07 0=07
finish 7
begin 1 put 08 0=08
finish 8
begin 1 put 09 0=09
finish 9
begin 1 put 0a 0=0a
finish 10
begin 1 put 0b 0=0b
finish 11
begin 1 put 0c 0=0c
finish 12
begin 1 put 0d 0=0d
finish 13
begin 1 put 0e 0=0e
finish 14
begin 1 put 0f 0=0f
finish 15
begin 1 put 10 0=10
finish 16
begin 1 get 01 all
finish 17
begin 1 get 313233343536373839 all
