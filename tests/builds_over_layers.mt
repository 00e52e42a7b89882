begin 1 put 616263646566676800 0=00
finish 1
begin 1 put 616263646566676801 0=01
finish 2
begin 1 put 616263646566676802 0=02
finish 3
begin 1 put 616263646566676803 0=03
finish 4
begin 1 put 616263646566676804 0=04
finish 5
begin 1 put 616263646566676805 0=05
finish 6
begin 1 put 616263646566676806 0=06
finish 7
begin 1 put 616263646566676807 0=07
finish 8
begin 1 put 616263646566676808 0=08
finish 9
begin 1 put 616263646566676809 0=09
finish 10
begin 1 put 61626364656667680a 0=0a
finish 11
begin 1 put 61626364656667680b 0=0b
finish 12
begin 1 put 61626364656667680c 0=0c
finish 13
begin 1 put 61626364656667680d 0=0d
finish 14
begin 1 put 61626364656667680e 0=0e
finish 15
begin 1 put 61626364656667680f 0=0f
finish 16
begin 1 put 616263646566676810 0=10
finish 17
begin 1 put 616263646566676811 0=11
finish 18
begin 1 put 616263646566676812 0=12
finish 19
begin 1 put 616263646566676813 0=13
finish 20
begin 1 put 616263646566676814 0=14
finish 21
begin 1 put 616263646566676815 0=15
finish 22
begin 1 put 616263646566676816 0=16
finish 23
begin 1 put 616263646566676817 0=17
finish 24
begin 1 put 616263646566676818 0=18
finish 25
begin 1 put 616263646566676819 0=19
finish 26
begin 1 put 61626364656667681a 0=1a
finish 27
begin 1 put 61626364656667681b 0=1b
finish 28
begin 1 put 61626364656667681c 0=1c
finish 29
begin 1 put 61626364656667681d 0=1d
finish 30
begin 1 put 61626364656667681e 0=1e
finish 31
begin 1 put 61626364656667681f 0=1f
finish 32
begin 1 put 616263646566676820 0=20
finish 33
begin 1 put 616263646566676821 0=21
finish 34
begin 1 put 616263646566676822 0=22
finish 35
begin 1 put 616263646566676823 0=23
finish 36
begin 1 put 616263646566676824 0=24
finish 37
begin 1 put 616263646566676825 0=25
finish 38
begin 1 put 616263646566676826 0=26
finish 39
begin 1 put 616263646566676827 0=27
finish 40
begin 1 put 616263646566676000 0=00
finish 41
begin 1 put 616263646566676100 0=01
finish 42
begin 1 put 616263646566676200 0=02
finish 43
begin 1 put 616263646566676300 0=03
finish 44
begin 1 put 616263646566676400 0=04
finish 45
begin 1 put 616263646566676500 0=05
finish 46
begin 1 put 616263646566676600 0=06
finish 47
begin 1 put 616263646566676700 0=07
finish 48
begin 1 put 616263646566676800 0=08
finish 49
begin 1 put 616263646566676900 0=09
finish 50
begin 1 put 616263646566676a00 0=0a
finish 51
begin 1 put 616263646566676b00 0=0b
finish 52
begin 1 put 616263646566676c00 0=0c
finish 53
begin 1 put 616263646566676d00 0=0d
finish 54
begin 1 put 616263646566676e00 0=0e
finish 55
begin 1 put 616263646566676f00 0=0f
finish 56
begin 1 put 616263646566677000 0=10
finish 57
begin 1 put 616263646566677100 0=11
finish 58
begin 1 put 616263646566677200 0=12
finish 59
begin 1 put 616263646566677300 0=13
finish 60
begin 1 build prefix 61626364656667 any
step 61
step 61
step 61
step 61
step 61
step 61
step 61
step 61
step 61
step 61
step 61
step 61
step 61
step 61
step 61
step 61
step 61
step 61
step 61
step 61
step 61
step 61
step 61
step 61
step 61
step 61
step 61
step 61
step 61
step 61
step 61
step 61
step 61
step 61
step 61
step 61
step 61
step 61
step 61
step 61
step 61
step 61
step 61
step 61
step 61
step 61
step 61
step 61
step 61
step 61
begin 2 put 616263646566676810 0=ee
finish 62
finish 61
begin 1 build prefix 6162636465666768 atleast 0 16
step 63
step 63
step 63
step 63
step 63
step 63
step 63
step 63
step 63
step 63
step 63
step 63
step 63
step 63
step 63
step 63
step 63
step 63
step 63
step 63
step 63
step 63
step 63
step 63
step 63
step 63
step 63
step 63
step 63
step 63
step 63
begin 2 put 616263646566676810 0=ee
finish 64
finish 63
begin 1 build range 616263646566676805 616263646566676812 any
step 65
step 65
step 65
step 65
step 65
step 65
step 65
step 65
step 65
step 65
step 65
step 65
step 65
step 65
step 65
step 65
step 65
step 65
step 65
step 65
step 65
step 65
step 65
step 65
step 65
step 65
step 65
step 65
step 65
step 65
step 65
begin 2 put 616263646566676810 0=ee
finish 66
finish 65
begin 1 build range 61 62 equals 0 05
step 67
step 67
step 67
step 67
step 67
step 67
step 67
step 67
step 67
step 67
step 67
step 67
step 67
step 67
step 67
step 67
step 67
step 67
step 67
step 67
step 67
step 67
step 67
step 67
step 67
step 67
step 67
step 67
step 67
step 67
step 67
step 67
step 67
step 67
step 67
step 67
step 67
step 67
step 67
step 67
step 67
step 67
step 67
step 67
step 67
step 67
step 67
step 67
step 67
step 67
begin 2 put 616263646566676810 0=ee
finish 68
finish 67
begin 1 build prefix ff any
step 69
step 69
step 69
step 69
step 69
step 69
step 69
step 69
step 69
step 69
step 69
step 69
step 69
step 69
step 69
step 69
step 69
step 69
step 69
step 69
step 69
step 69
step 69
step 69
step 69
step 69
step 69
step 69
step 69
step 69
step 69
begin 2 put 616263646566676810 0=ee
finish 70
finish 69
begin 1 build prefix - any
step 71
step 71
step 71
step 71
step 71
step 71
step 71
step 71
step 71
step 71
step 71
step 71
step 71
step 71
step 71
step 71
step 71
step 71
step 71
step 71
step 71
step 71
step 71
step 71
step 71
step 71
step 71
step 71
step 71
step 71
step 71
step 71
step 71
step 71
step 71
step 71
step 71
step 71
step 71
step 71
step 71
step 71
step 71
step 71
step 71
step 71
step 71
step 71
step 71
step 71
begin 2 put 616263646566676810 0=ee
finish 72
finish 71
view 1 0 - 1000
apply 0
view 2 0 - 1000
apply 0
view 3 0 - 1000
apply 0
view 4 0 - 1000
apply 0
view 5 0 - 1000
apply 0
view 6 0 - 1000
apply 0
view 1 0 6162636465666768 3
view 2 0 6162636465666768 3
view 3 0 6162636465666768 3
view 4 0 6162636465666768 3
view 5 0 6162636465666768 3
view 6 0 6162636465666768 3
