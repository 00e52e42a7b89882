begin 2 put a71f8a161e0fe4c0 0=e4c0
step 1
begin 3 put 78f7c216b1b1219d 0=219d
step 2
begin 1 put 636174616c6f672f636174616c6f672f6a6d6a6e 0=6a6e
step 2
finish 2
begin 2 put 000000000000000071 0=0071
finish 1
begin 3 put 46c937eb816819a3 0=19a3
finish 5
begin 1 put 57c8fb5f85a7f62e 0=f62e
begin 2 put 1add05207234199f 0=199f
finish 6
step 7
begin 3 put 0000000000000000000000000000000000000000000000006f6875 0=6875
finish 7
step 4
begin 1 put cf037ff6f86ad857 0=d857
finish 4
finish 9
step 3
finish 3
step 8
step 8
begin 2 put 49a86928040e7d9c 0=7d9c
begin 3 put 7906c224f9c5c67d 0=c67d
step 11
begin 1 put 0c6c2ea97a16f975 0=f975
finish 11
step 12
step 12
begin 2 put 00000000000000000000000000000000000000000000000069 0=0069
step 8
step 8
step 8
step 8
step 8
step 8
step 8
step 8
step 8
step 8
step 8
step 8
begin 3 put 2951a156c30f635e 0=635e
step 10
step 10
begin 1 put ddb164c4862acda6 0=cda6
finish 12
finish 8
step 15
step 10
finish 10
step 14
begin 2 put 7055a7219919564d 0=564d
step 14
step 15
begin 3 put 9d6638f84e795cd4 0=5cd4
step 13
finish 13
step 16
step 17
finish 15
begin 1 put eea6ec3fa6f0c337 0=c337
step 16
step 14
step 14
step 14
step 14
step 14
step 14
step 14
step 14
step 14
step 14
step 14
step 14
step 14
step 14
begin 2 put 0000000000000000000000000000000000000000000000006b7676787171 0=7171
step 16
begin 3 put d2300447e5dc0763 0=0763
step 18
finish 17
step 14
step 19
step 20
finish 20
step 19
finish 16
step 18
begin 1 put 3d40dbb0723b1a63 0=1a63
finish 14
finish 13
step 19
step 19
step 19
step 19
step 19
step 19
step 19
step 19
step 19
step 19
step 19
step 19
step 19
step 19
step 19
finish 19
step 21
finish 18
begin 2 put 00000000000000000000000000000000656e776b6e74 0=6e74
finish 21
begin 3 put 73657373696f6e2f6161 0=6161
step 23
step 23
begin 1 put 636174616c6f672f7271 0=7271
step 22
finish 22
step 23
step 23
step 23
step 23
step 23
step 23
step 23
step 23
step 23
step 23
step 23
step 23
step 23
step 23
step 23
step 23
step 23
step 24
finish 24
begin 2 put 636174616c6f672f636174616c6f672f636174616c6f672f6361 0=6361
step 25
finish 25
begin 3 put f43af1241f706c6f 0=6c6f
finish 26
begin 1 put 73657373696f6e2f7a656f68766f75637363 0=7363
step 23
step 27
step 23
finish 22
step 23
begin 2 put 636174616c6f672f636174616c6f672f64766d6d70786569736474 0=6474
step 27
step 27
step 27
step 27
step 27
step 27
step 27
step 27
step 27
step 27
step 27
step 27
step 27
step 27
step 27
step 27
step 27
step 27
step 28
begin 3 put 6678eff56b1eab30 0=ab30
finish 23
begin 1 put e8472b1721c07a57 0=7a57
begin 2 put 636174616c6f672f646f71696963 0=6963
begin 3 put 4a94dccaa7a43518 0=3518
step 28
step 27
finish 27
step 28
step 31
finish 31
step 30
finish 29
step 32
begin 1 put 747437b53afba532 0=a532
step 30
step 33
step 28
step 28
step 28
step 28
step 28
step 28
step 28
step 28
step 28
step 28
step 28
step 28
step 28
step 28
step 28
step 28
step 28
step 33
step 33
begin 2 put 7da0300b600215ac 0=15ac
begin 3 put 000000000000000000000000000000000000000000000000756f7a71656568727565 0=7565
step 30
finish 34
finish 30
begin 1 put 59ee67a73535d639 0=d639
step 33
begin 2 put 2757ad8c7da22b4a 0=2b4a
finish 35
begin 3 put 636174616c6f672f636174616c6f672f636174616c6f672f777170687473666d72 0=6d72
step 37
finish 37
begin 1 put 33e86784b05795e8 0=95e8
step 32
begin 2 put 73657373696f6e2f73657373696f6e2f73657373696f6e2f71 0=2f71
finish 38
step 28
step 28
finish 33
begin 3 put 636174616c6f672f636174616c6f672f6b75796c7766717574 0=7574
step 40
finish 40
step 39
step 41
step 32
begin 1 put 55423883241d3822 0=3822
step 42
begin 2 put 56d6af19764d859a 0=859a
finish 42
step 28
step 28
step 28
step 36
finish 36
step 32
step 39
finish 43
step 39
step 41
step 32
begin 3 put 636174616c6f672f636174616c6f672f 0=672f
begin 1 put 8dfe6d2544aab456 0=b456
begin 2 put ec14733c08442572 0=2572
step 45
step 45
finish 45
begin 3 put 6bfa298cf646c22b 0=c22b
finish 32
finish 46
step 39
step 39
step 44
step 47
begin 1 put 3c63cf1270c105ab 0=05ab
step 48
finish 48
step 39
begin 2 put 0000000000000000000000000000000072726d70626566707874 0=7874
begin 3 put 0000000000000000777361 0=7361
finish 39
step 44
begin 1 put b2a90d50034900db 0=00db
step 49
finish 49
step 50
finish 50
step 51
step 51
begin 2 put a18e57f8c8865365 0=5365
finish 28
finish 35
finish 40
step 41
step 41
step 41
step 41
step 41
step 41
step 41
step 41
step 41
step 41
step 41
step 41
step 41
step 41
step 41
step 41
step 41
step 41
step 41
step 41
step 41
step 41
step 41
step 41
step 41
step 44
step 44
step 44
step 44
step 44
step 44
step 44
step 44
step 44
step 44
step 44
step 44
step 44
step 44
step 44
step 44
step 44
step 44
finish 44
finish 49
finish 50
begin 3 put a2dd9289eb6f913d 0=913d
step 41
finish 41
finish 47
step 53
step 52
begin 1 put 00000000000000006a6c64697864 0=7864
step 54
finish 51
step 54
step 54
step 54
step 54
step 54
step 54
step 54
step 54
step 54
step 54
step 54
step 54
step 54
step 54
step 54
step 54
step 54
step 54
step 54
step 54
finish 52
step 53
step 53
step 53
begin 2 put 05987722328db902 0=b902
step 54
step 53
step 55
step 55
finish 54
begin 3 put c4aba85efb908ce9 0=8ce9
step 55
begin 1 put 636174616c6f672f6f667566716174 0=6174
finish 56
step 57
finish 57
step 53
step 53
step 53
step 53
step 53
step 53
step 53
step 53
step 53
step 53
step 53
step 53
step 53
step 53
begin 2 put ead3972798600a77 0=0a77
finish 53
begin 3 put 633c0ba3d85af3da 0=f3da
finish 58
begin 1 put 636174616c6f672f636174616c6f672f6c6b677677657273 0=7273
begin 2 put 25372faa832b9a16 0=9a16
step 59
finish 60
step 59
finish 59
begin 3 put 29e6328954a28ba8 0=8ba8
begin 1 put 73657373696f6e2f73657373696f6e2f656b757479 0=7479
begin 2 put 00000000000000000000000000000000000000000000000065686b6966 0=6966
finish 62
finish 63
finish 64
step 61
begin 3 put 7fdaa8d0475c9e38 0=9e38
step 61
finish 61
begin 1 put 73657373696f6e2f656b6c6b7665626a 0=626a
finish 65
begin 2 put e299ac6b2ccb6de8 0=6de8
step 55
step 55
step 55
step 55
step 55
step 55
step 55
step 55
step 55
step 55
step 55
step 55
step 55
step 55
step 55
finish 57
finish 60
finish 64
begin 3 put edc8641c10d01c8f 0=1c8f
finish 66
begin 1 put 54c13820deb9aab6 0=aab6
step 55
finish 69
step 68
step 55
step 68
step 55
step 67
begin 2 put b7303f6fb606e56f 0=e56f
begin 3 put 636174616c6f672f636174616c6f672f636174616c6f672f6b736e61 0=6e61
step 70
step 70
finish 70
step 67
step 67
finish 55
begin 1 put ebafe184659f7806 0=7806
step 71
step 68
finish 72
begin 2 put 28e55b32e3819ca6 0=9ca6
begin 3 put d7a7bd292dcaf25b 0=f25b
step 68
begin 1 put 99479294bb5addbd 0=ddbd
step 67
step 67
step 67
step 67
step 67
step 67
step 67
step 67
step 67
step 67
step 67
step 67
step 67
step 67
step 67
step 67
step 67
finish 71
finish 74
step 67
begin 2 put d00f536107bae255 0=e255
finish 67
finish 76
step 75
begin 3 put dfa67076ae1ab6a2 0=b6a2
step 68
step 73
begin 1 put 0fe3e53fda2db54f 0=b54f
begin 2 put 0000000000000000696a69767163 0=7163
step 75
begin 3 put 636174616c6f672f636174616c6f672f716161 0=6161
step 79
finish 77
step 80
finish 80
step 78
step 78
finish 78
step 68
step 68
step 68
step 68
step 68
step 68
step 68
step 68
step 68
step 68
step 68
step 68
step 68
step 68
step 68
step 68
step 68
step 68
step 68
step 79
finish 75
step 73
step 68
step 68
begin 1 put c5f806250808d72f 0=d72f
finish 68
step 73
step 79
step 81
step 73
step 73
step 73
step 73
step 73
step 73
step 73
step 73
step 73
step 73
step 73
step 73
step 73
step 73
step 73
step 73
step 81
begin 2 put 3e533c0a174ff987 0=f987
begin 3 put 8fdc21e161657786 0=7786
step 83
step 73
step 81
finish 82
begin 1 put 73657373696f6e2f73657373696f6e2f776f74726d 0=726d
step 83
finish 83
step 81
step 81
step 81
step 81
step 81
step 81
step 81
step 81
step 81
step 81
step 81
step 81
step 81
step 81
step 81
step 81
step 81
step 81
step 81
step 81
step 81
step 81
begin 2 put 0000000000000000000000000000000000000000000000006f6a6f 0=6a6f
step 73
step 79
step 79
step 79
step 79
step 79
step 79
step 79
step 79
step 79
step 79
step 79
step 79
step 79
step 79
step 79
step 79
step 79
step 79
step 79
finish 79
begin 3 put 7119769a1c098a59 0=8a59
finish 84
step 73
step 73
finish 73
begin 1 put 636174616c6f672f636174616c6f672f636174616c6f672f6263756474656f6e65 0=6e65
begin 2 put c88bc5bd30905689 0=5689
finish 81
finish 84
step 85
finish 86
begin 3 put 000000000000000000000000000000007274 0=7274
begin 1 put f7d6d91a5aed3d1a 0=3d1a
step 89
begin 2 put b74ef6371ecfc2e0 0=c2e0
step 89
step 88
step 88
begin 3 put ae8c6d7baa3b0290 0=0290
step 91
step 85
step 92
finish 85
begin 1 put 636174616c6f672f636174616c6f672f636174616c6f672f6d7376696676766e716e 0=716e
step 91
step 88
step 89
step 89
step 89
step 89
step 89
step 89
step 89
step 89
step 89
step 89
step 89
step 89
step 89
step 89
step 89
step 89
step 89
step 93
step 89
step 87
step 88
step 88
step 88
step 88
step 88
step 88
step 88
step 88
step 88
step 88
step 88
step 89
step 89
step 89
step 89
step 89
step 89
step 89
step 89
step 89
step 89
finish 88
finish 91
step 87
step 90
step 89
step 93
begin 2 put f29134a72575e871 0=e871
begin 3 put 2ecd5d7eb22efe99 0=fe99
step 87
step 87
step 87
step 87
step 87
step 87
step 87
step 87
step 87
step 87
step 87
step 87
step 87
step 87
step 87
step 87
step 87
step 90
step 93
step 93
step 93
step 93
step 93
step 93
step 93
step 93
step 93
step 93
step 93
step 93
step 93
step 93
step 93
step 93
step 93
finish 95
finish 89
step 90
step 92
step 90
step 90
step 90
step 90
step 90
step 90
step 90
step 90
step 90
step 90
step 90
step 90
step 90
step 90
step 90
step 93
finish 93
step 90
begin 1 put 73657373696f6e2f6e7571627571676d646b 0=646b
finish 94
begin 2 put b976c928f0a169e0 0=69e0
step 90
finish 90
finish 97
step 87
begin 3 put 44244ef006639708 0=9708
step 96
step 96
step 96
step 96
step 96
step 96
step 96
step 96
step 96
step 96
step 96
step 96
step 96
step 96
step 96
step 96
step 87
step 87
step 87
step 87
step 87
step 87
step 87
step 87
finish 87
step 98
step 96
begin 1 put 636174616c6f672f6b7964656a7a 0=6a7a
begin 2 put 6715036fad2f14fa 0=14fa
finish 99
finish 92
begin 3 put 00000000000000000000000000000000000000000000000061 0=0061
step 100
begin 1 put 636174616c6f672f636174616c6f672f636174616c6f672f 0=672f
step 102
finish 102
finish 98
begin 2 put 30ba7d5ebe954d05 0=4d05
step 101
finish 101
step 96
begin 3 put 8b741ede7f91a99e 0=a99e
step 96
step 96
step 96
step 96
step 96
step 96
step 96
step 96
step 96
step 103
finish 103
step 104
begin 1 put 2bb6122f3ac1c09f 0=c09f
begin 2 put 42c79e01602ac3e1 0=c3e1
step 105
step 105
step 105
step 104
begin 3 put 35aa0d063c1175e7 0=75e7
step 100
step 104
step 104
step 104
step 104
step 104
step 104
step 104
step 104
step 104
step 104
step 104
step 104
step 104
step 104
step 104
step 104
step 107
finish 107
step 100
step 104
step 96
step 105
step 105
step 105
step 105
step 105
step 105
step 105
step 105
step 105
step 105
step 105
step 105
step 105
step 105
step 105
step 105
step 105
step 105
step 105
step 105
step 105
step 105
step 105
step 105
step 105
step 105
finish 96
finish 104
begin 1 put 1611998c4f1055aa 0=55aa
step 105
step 105
step 106
finish 100
begin 2 put fb68f9c8ad052208 0=2208
step 109
finish 109
step 108
step 106
begin 3 put 00000000000000000000000000000000000000000000000071686a6d696c7175 0=7175
step 110
finish 108
step 105
step 105
step 105
step 110
step 110
step 106
begin 1 put 636174616c6f672f636174616c6f672f68616a736a78666b6d716d 0=716d
begin 2 put ebd67eeff8f93b5c 0=3b5c
step 105
finish 105
step 106
step 106
step 106
finish 106
step 110
step 110
step 110
step 110
step 110
step 110
step 110
step 110
step 110
step 110
step 110
step 110
step 110
step 110
finish 110
begin 3 put cf7d11151315ae2b 0=ae2b
begin 1 put 7f5af4c365b3bea4 0=bea4
begin 2 put f9077a3ba9019c02 0=9c02
finish 111
begin 3 put 365d0713b133e2d0 0=e2d0
begin 1 put 00000000000000000000000000000000000000000000000064 0=0064
finish 112
begin 2 put 636174616c6f672f6e73 0=6e73
step 116
step 116
step 117
step 115
begin 3 put f58ac040cde507a4 0=07a4
step 116
step 115
step 114
step 116
step 116
step 116
step 116
step 116
step 116
step 116
step 116
step 116
step 116
step 116
step 116
step 115
finish 115
step 119
finish 119
begin 1 put 6c4a60e51db19214 0=9214
step 120
begin 2 put 83a68b63bf694860 0=4860
step 120
step 121
finish 117
step 113
step 121
begin 3 put 00000000000000007578617977706774717a6e63 0=6e63
step 118
step 122
finish 118
finish 116
finish 117
begin 1 put 0000000000000000000000000000000064 0=0064
finish 120
finish 121
finish 114
step 113
finish 123
begin 2 put f8e9a376e0883588 0=3588
finish 113
begin 3 put e507fc8dcb06f2a1 0=f2a1
step 124
finish 122
finish 125
begin 1 remove 636174616c6f672f636174616c6f672f636174616c6f672f
finish 124
begin 2 put 73657373696f6e2f73657373696f6e2f636d75707170776675787474 0=7474
begin 3 put 73657373696f6e2f6c786d 0=786d
step 126
step 126
finish 127
step 128
finish 128
begin 1 range f974d8ffd6932f28 20 0
begin 2 get 7055a7219919564d all
begin 3 put 636174616c6f672f636174616c6f672f636174616c6f672f6f6b6d646178746b6e6e75 1=63
finish 126
finish 129
finish 131
begin 1 range 0000000000000000000000000000000000000000000000006f6875 2 0
finish 130
begin 2 put b799925486746b4c 1=b7
begin 3 get 636174616c6f672f636174616c6f672f737664726f6373 all
step 133
step 133
step 133
begin 1 put 636174616c6f672f636174616c6f672f6779646a78646476 1=63
begin 2 range 29e6328954a28ba8 7 0
finish 134
begin 3 put 3e0cc9d17395df79 1=3e
step 133
step 133
step 133
step 133
step 133
step 133
step 133
step 133
step 133
step 133
step 133
step 133
step 133
step 133
step 133
finish 136
begin 1 put 636174616c6f672f636174616c6f672f636174616c6f672f6e62 0=6e62
step 138
finish 138
finish 135
step 133
step 137
finish 137
finish 132
begin 2 get f2aada1c9ec8853c all
step 133
step 133
begin 3 put 00000000000000006275626a657576716a75756b 0=756b
step 140
begin 1 get 74f56a5e5cb0ea7d all
step 140
begin 2 put b799925486746b4c 0=6b4c
begin 3 put 5e676238d97b6ec6 0=6ec6
step 141
step 141
step 141
step 140
step 140
step 140
step 140
step 140
step 140
step 140
step 140
step 140
step 140
step 140
step 140
step 140
step 140
step 140
begin 1 put 37268d7a54dc08c6 0=08c6
step 142
finish 133
finish 143
step 141
step 141
step 141
step 141
step 141
step 141
step 141
step 141
step 142
step 140
step 140
begin 2 get 73657373696f6e2f73657373696f6e2f73657373696f6e2f6f716c756e6e757a7565 all
step 139
step 139
step 139
step 139
step 140
step 140
step 140
step 140
step 140
step 140
step 140
step 140
step 140
begin 3 put 636174616c6f672f636174616c6f672f7370787576 0=7576
step 142
step 141
finish 142
step 141
finish 144
step 146
begin 1 get 636174616c6f672f6a all
begin 2 put 2ff35a4b6bb2404b 0=404b
finish 139
step 145
step 145
step 147
step 148
finish 140
step 146
begin 3 put 73657373696f6e2f73657373696f6e2f73657373696f6e2f66 0=2f66
step 146
step 146
step 146
step 146
step 146
step 146
step 146
step 146
step 146
step 146
step 146
step 146
step 146
step 146
step 146
step 145
step 145
step 145
finish 145
finish 147
step 149
step 148
begin 1 get 73657373696f6e2f6f787863 all
step 146
finish 141
finish 149
step 148
step 150
step 146
step 146
step 146
step 146
step 146
step 146
step 146
step 146
step 146
step 146
begin 2 get 305e5c01e049df4b all
step 151
step 151
finish 151
step 150
step 148
step 148
step 148
step 148
step 148
step 148
step 148
step 148
step 148
step 148
step 148
step 148
step 148
step 148
begin 3 get 3e0cc9d17395df79 all
step 152
finish 148
begin 1 put a292ec2f4a4a66a0 0=66a0
step 153
step 150
step 150
step 150
step 150
begin 2 get 636174616c6f672f646f71696963 all
step 146
step 153
step 153
finish 150
step 154
step 154
step 154
step 154
step 152
finish 152
begin 3 put 38ee74404f01c01a 0=c01a
step 146
step 153
step 153
step 153
step 153
step 153
step 153
step 153
step 153
step 153
step 153
step 153
step 153
step 153
step 153
step 153
step 153
step 153
step 153
step 153
step 153
finish 153
begin 1 get 000000000000000000000000000000000000000000000000746b666574776b6971 all
step 156
step 156
begin 2 put 260df281c04f5056 1=26
step 146
step 146
step 146
step 146
step 146
step 146
step 146
step 146
step 146
step 146
step 146
step 146
step 146
step 154
step 157
begin 3 put 000000000000000071676d76746769697068 0=7068
finish 155
step 156
step 156
step 156
step 156
begin 1 put d5e9ba1eaa222cff 0=2cff
begin 2 remove 4080e2aa05f17a0b
finish 158
step 146
step 146
finish 146
begin 3 put 636174616c6f672f6e756979 0=6979
step 161
finish 161
step 156
step 154
step 154
step 154
step 157
step 159
finish 159
begin 1 put 73657373696f6e2f73657373696f6e2f73657373696f6e2f6362706b716b6a64 0=6a64
step 157
step 156
step 157
step 157
step 157
step 157
step 157
step 157
step 157
step 157
step 157
step 157
step 157
step 157
step 157
step 157
step 157
step 157
step 156
step 156
step 156
step 156
step 154
step 154
step 154
step 154
step 154
step 154
step 154
step 154
step 154
step 154
step 154
step 154
step 154
step 154
step 154
step 154
step 154
step 154
finish 154
step 156
begin 2 get af0c092c1792df2d all
step 160
finish 160
begin 3 range 2951a156c30f635e 2 0
finish 156
begin 1 put 000000000000000000000000000000000000000000000000656f756e686662 0=6662
finish 162
finish 157
begin 2 range 6678eff56b1eab30 2 0
finish 166
begin 3 get 5ed94a237e438ab1 all
step 164
step 164
begin 1 get 000000000000000000000000000000000000000000000000786e697162717a6a6f all
begin 2 put cddddc7fd1fec145 0=c145
finish 169
begin 3 put 7d127ab467036344 0=6344
finish 168
begin 1 get 636174616c6f672f636174616c6f672f76 all
begin 2 range ae78f058f1c581dd 20 0
step 163
step 163
step 171
step 171
finish 171
finish 172
step 170
finish 170
begin 3 range 73657373696f6e2f7962777a656a7678627172 2 0
step 165
finish 164
begin 1 put cbbcac31223563d5 1=cb
step 165
finish 165
finish 163
begin 2 range 636174616c6f672f636174616c6f672f636174616c6f672f7168776878 2 0
step 173
step 173
step 173
step 173
step 175
begin 3 put 593d8baafde69e02 0=9e02
begin 1 put 73657373696f6e2f73657373696f6e2f6564616b71 0=6b71
step 177
begin 2 put d4e74635ebb8873f 0=873f
finish 167
step 177
step 176
finish 174
step 175
begin 3 get 19f877a0ed54e3d8 all
finish 175
step 176
step 176
begin 1 put 00000000000000000000000000000000617775776b66736870686c72 0=6c72
finish 178
finish 173
step 176
step 176
step 176
step 176
step 176
step 176
step 176
step 176
step 176
step 176
step 176
step 176
step 176
step 176
step 176
step 177
step 177
step 177
step 177
step 177
step 177
step 177
step 177
step 177
step 177
step 177
step 177
step 177
step 177
step 176
finish 177
step 180
step 179
step 179
begin 2 put 636174616c6f672f636174616c6f672f636174616c6f672f777a717a73786a78666e 0=666e
step 181
step 176
step 179
begin 3 put 5f461e557dc93328 0=3328
begin 1 put 3b8fd52d62e2e3d0 0=e3d0
finish 176
step 182
finish 181
step 182
step 182
finish 179
begin 2 put 000000000000000000000000000000000000000000000000 0=0000
step 183
step 183
begin 3 put a8c367f5e6ca7522 0=7522
begin 1 put b1502996706017a4 0=17a4
step 180
finish 180
step 183
step 186
step 182
step 182
step 182
step 182
step 182
step 182
step 182
step 182
step 182
step 182
step 182
step 182
step 182
step 182
step 182
step 182
step 183
step 183
step 183
step 183
step 183
step 183
step 183
step 183
step 183
step 183
step 183
step 183
step 183
step 183
step 183
step 183
step 183
step 183
step 183
finish 186
begin 2 put 636174616c6f672f 0=672f
finish 184
step 183
finish 183
finish 184
begin 3 put 4d8533a7560dd2d0 0=d2d0
step 185
step 182
finish 182
begin 1 put 636174616c6f672f786f6b72686b6975736b7768 0=7768
step 187
finish 187
step 188
step 185
step 185
step 189
step 188
step 188
step 189
step 189
step 188
step 188
step 188
step 188
step 188
step 188
step 188
step 188
step 188
step 188
step 188
step 188
step 188
step 188
step 188
step 188
begin 2 put 134607bb960ef16f 0=f16f
step 185
step 185
step 185
step 185
step 185
step 185
step 185
step 185
step 185
step 185
step 185
step 185
step 185
step 190
step 190
finish 190
begin 3 get 602771804861cb9a all
begin 1 put 73657373696f6e2f73657373696f6e2f636d75707170776675787474 1=73
step 185
step 192
step 191
begin 2 get 6d3bc096cdc77a52 all
step 185
step 193
step 193
step 191
step 191
step 191
step 192
begin 3 put c19f092387c1b8dc 0=b8dc
step 185
finish 191
begin 1 put 6c3c9004773235ff 0=35ff
step 185
step 192
step 192
step 192
step 192
step 192
step 192
step 192
step 192
step 192
step 192
step 192
step 192
step 192
step 192
finish 193
step 194
finish 188
step 189
step 189
step 189
step 189
step 189
step 189
step 189
step 189
step 189
step 189
step 189
step 189
step 189
step 189
step 189
step 189
step 189
step 189
step 189
finish 189
step 195
step 194
step 194
finish 194
begin 2 get 73657373696f6e2f73657373696f6e2f6564616b71 all
finish 185
begin 3 put 771d561d338e914b 0=914b
begin 1 put e6ecff1614ec2a5d 0=2a5d
step 195
begin 2 put 636174616c6f672f636174616c6f672f636174616c6f672f716363 0=6363
finish 198
finish 199
step 195
step 192
step 195
step 195
step 195
step 195
step 195
step 195
step 195
step 195
step 195
step 195
step 195
step 195
step 195
step 195
finish 192
step 196
step 196
begin 3 get 636174616c6f672f all
step 195
finish 195
begin 1 get 0f82953e5680e6d6 all
begin 2 put c0ed891f768a83c9 0=83c9
step 196
finish 201
step 196
step 196
begin 3 remove a1002e4c486de3c5
step 197
step 200
step 200
step 200
step 200
step 200
step 200
finish 202
finish 196
step 197
begin 1 get 2c9ae740c256a969 all
step 197
finish 197
begin 2 put 000000000000000000000000000000000000000000000000706f 0=706f
begin 3 put 9299dfcaf05bb0cc 0=b0cc
step 205
begin 1 put c60437e89a0c2b1b 0=2b1b
finish 200
begin 2 get 9cdb3153fb269e32 all
begin 3 get 74d518810579e1ad all
finish 203
begin 1 put a93d3d9f040f5124 0=5124
step 204
step 204
step 204
step 204
step 206
finish 206
begin 2 put 00000000000000000000000000000000000000000000000067656a62 0=6a62
finish 204
step 211
step 205
finish 205
begin 3 put f92cebd3fa743689 0=3689
begin 1 get 000000000000000000000000000000006f all
finish 208
finish 207
step 212
step 212
begin 2 put 73657373696f6e2f73657373696f6e2f6d6c6d697871 0=7871
begin 3 put 14d1525abf9ace8d 0=ce8d
step 210
step 214
step 215
finish 209
finish 215
step 211
finish 212
begin 1 put 636174616c6f672f636174616c6f672f76 0=2f76
step 216
finish 211
finish 216
begin 2 put 58778bb1a57281e0 1=58
step 217
step 217
finish 217
begin 3 put ed907139c5d15ddc 0=5ddc
step 214
step 218
step 218
finish 213
begin 1 put 000000000000000000000000000000000000000000000000786865696a6d79656b7978 0=7978
begin 2 put 0d0ca33edf72de8a 0=de8a
begin 3 put 000000000000000000000000000000006a64716c7872666778 0=6778
begin 1 get 636174616c6f672f636174616c6f672f666273727772667078 all
step 219
step 221
step 218
step 221
finish 214
step 218
step 218
step 218
step 218
step 218
step 218
step 218
step 218
step 218
step 218
step 218
step 218
step 218
step 218
step 218
step 220
step 210
begin 2 remove 73657373696f6e2f73657373696f6e2f73657373696f6e2f6f7a646d
step 210
finish 210
begin 3 put ff51b065bd2c44e4 0=44e4
step 221
step 221
step 221
step 221
step 221
step 221
step 221
step 221
step 221
step 221
step 221
step 221
step 221
step 221
step 221
finish 221
step 220
begin 1 get 4c25d19682812588 all
step 222
step 222
step 222
step 218
step 218
step 219
step 220
step 218
finish 218
step 223
finish 223
step 222
step 222
step 222
step 222
step 222
step 222
step 225
step 225
step 225
step 225
step 225
step 225
step 225
step 225
step 225
step 222
step 222
step 219
step 222
step 222
step 222
begin 2 put c98afa60d1bd1fb0 0=1fb0
step 220
step 220
step 220
step 220
step 220
step 220
step 220
step 220
step 220
step 220
step 220
step 220
step 220
step 220
step 220
step 225
step 225
step 225
step 225
step 222
step 222
begin 3 get 41c52e7d4deea8eb all
step 220
finish 220
step 219
step 219
step 219
step 219
step 219
step 219
step 219
step 219
step 219
step 219
step 219
step 219
step 219
step 219
step 219
step 219
finish 219
finish 226
begin 1 put 40d68c37c6326f7a 0=6f7a
step 225
begin 2 put 2b9dfae6b290021c 0=021c
step 228
begin 3 put 73657373696f6e2f73657373696f6e2f73657373696f6e2f7571687967787779786e6669 0=6669
finish 224
step 230
step 228
step 225
step 227
begin 1 put 6d9df15b45418c0c 0=8c0c
step 225
finish 227
step 230
step 222
step 222
step 222
step 222
step 222
step 222
step 222
step 222
step 222
step 222
step 222
step 222
step 222
step 222
step 222
step 222
step 222
step 222
step 222
step 222
step 222
step 222
step 229
finish 229
step 230
step 230
step 230
step 230
step 230
step 230
step 230
step 230
step 230
step 230
step 230
step 230
step 230
step 230
step 230
step 230
finish 230
step 231
step 222
step 222
step 228
step 231
finish 231
finish 222
step 228
step 228
step 228
step 228
step 228
step 228
step 228
step 228
step 228
step 228
step 228
step 228
step 228
step 228
step 228
step 228
step 228
step 228
step 228
step 228
step 228
step 228
step 228
step 228
step 228
step 228
step 228
step 228
finish 225
begin 2 put cbc284419cdb3ae5 0=3ae5
step 228
begin 3 get df5858293a9601a1 all
step 228
step 228
step 228
step 228
step 228
step 228
step 228
begin 1 put 636174616c6f672f636174616c6f672f 1=63
step 228
begin 2 put 73657373696f6e2f73657373696f6e2f62726e766d636f 0=636f
step 235
step 228
finish 235
step 232
finish 232
finish 233
step 228
finish 234
begin 3 put 000000000000000000000000000000006b637766796c666b68 0=6b68
begin 1 put 73657373696f6e2f756766697a 0=697a
begin 2 get 89b440ee78f842b5 all
step 238
step 238
step 238
step 238
step 238
step 238
step 238
step 238
step 236
begin 3 get db8d69d31863c290 all
step 236
step 236
step 236
step 236
step 236
step 236
step 236
step 236
step 236
step 236
step 236
step 236
step 236
step 236
step 236
step 236
step 236
step 236
step 238
step 238
step 238
step 238
step 238
step 238
step 238
step 238
step 238
step 238
step 228
finish 228
begin 1 get 24f1133ca703706e all
step 239
step 239
step 239
step 236
begin 2 put e57ec8c694972afc 1=e5
begin 3 get 637868c87b55507d all
finish 241
step 238
finish 239
begin 1 put 943c61e4cdef229c 0=229c
begin 2 put 000000000000000000000000000000000000000000000000646474777571787267707367 0=7367
step 237
finish 242
step 240
step 240
step 240
step 240
step 240
step 240
finish 240
step 236
step 236
step 236
step 236
step 236
step 236
step 236
step 236
step 236
step 236
step 236
step 236
step 236
finish 237
step 236
step 244
step 244
finish 244
begin 3 put 73657373696f6e2f697069776e7571697666 1=73
step 238
step 245
step 245
step 243
begin 1 put 8201ea2efba37566 0=7566
begin 2 put 0000000000000000736c6d787276637a 0=637a
step 243
finish 243
begin 3 get 636174616c6f672f636174616c6f672f all
step 246
step 246
begin 1 put 73657373696f6e2f73657373696f6e2f73657373696f6e2f6b79796e736e66736d717175 0=7175
step 236
step 249
step 236
step 236
step 236
step 236
step 236
step 236
step 236
step 236
step 236
step 236
step 236
step 236
step 236
step 249
step 248
step 248
finish 248
step 249
step 249
step 249
step 249
step 249
step 249
step 249
step 249
step 249
step 249
step 249
step 249
step 249
step 249
step 249
step 249
step 249
step 249
finish 249
step 245
step 245
step 245
step 245
step 245
step 245
step 245
step 245
step 245
step 245
step 245
step 245
step 245
step 245
step 245
step 245
step 245
finish 245
step 238
begin 2 put aed5d3a184d6eb9c 1=ae
step 247
finish 250
step 246
finish 238
step 247
step 236
begin 3 put 73657373696f6e2f73657373696f6e2f 0=6e2f
step 246
step 246
step 246
step 246
step 246
step 246
step 246
step 246
step 246
step 246
step 246
step 246
step 246
step 246
step 246
step 246
step 246
begin 1 put 73657373696f6e2f73657373696f6e2f7367677772 0=7772
begin 2 get a868025c53d4f2d8 all
step 236
step 252
step 247
step 247
step 247
step 247
step 247
step 247
step 247
step 247
step 247
step 247
step 247
step 247
step 247
step 247
step 247
step 247
step 247
begin 3 put 636174616c6f672f7270666f 0=666f
step 253
step 253
step 247
step 247
step 254
finish 254
begin 1 get 73657373696f6e2f73657373696f6e2f636d75707170776675787474 all
finish 236
finish 251
step 253
step 253
step 253
step 253
step 253
step 253
step 253
step 253
step 253
step 253
step 253
step 253
step 247
step 247
step 247
step 247
step 247
step 247
step 247
step 247
step 247
step 247
step 247
finish 247
step 246
step 255
step 255
step 255
step 255
step 253
begin 2 put 00000000000000000000000000000000686f66 0=6f66
step 252
step 252
begin 3 put 73657373696f6e2f73657373696f6e2f78 0=2f78
begin 1 get b1121abf8e24f266 all
step 258
begin 2 put 000000000000000000000000000000006664 0=6664
step 259
step 256
step 259
step 255
step 255
step 255
step 255
finish 246
finish 251
step 252
step 252
step 252
step 252
step 252
step 252
step 252
step 252
step 252
step 252
step 252
step 252
step 252
step 252
step 252
step 252
step 252
step 252
step 252
finish 252
begin 3 put 0000000000000000626c 0=626c
step 259
step 259
step 259
step 259
step 259
step 259
step 259
step 259
step 259
step 259
step 259
step 259
step 259
step 259
step 259
step 259
step 259
finish 259
finish 253
step 255
step 255
step 255
step 255
step 255
step 255
step 256
begin 1 put 3e0cc9d17395df79 0=df79
begin 2 put 73657373696f6e2f6f787863 0=7863
step 258
step 258
step 258
step 258
step 258
step 258
step 258
step 258
step 258
step 258
step 258
step 258
step 258
step 258
step 258
step 258
step 258
finish 256
begin 3 put 8cf845c16dc24f7e 0=4f7e
step 255
step 262
finish 262
step 261
step 257
begin 1 put 6da1592138718385 0=8385
step 263
step 258
step 258
step 255
step 257
step 255
step 255
step 255
step 255
step 255
step 255
step 255
step 255
step 255
step 255
step 255
step 255
step 255
step 255
step 255
step 255
step 255
step 255
finish 255
step 261
step 255
step 258
step 257
step 257
step 257
step 257
step 257
step 257
step 257
step 257
step 257
step 257
step 257
step 257
step 257
step 257
step 257
step 257
step 257
step 257
step 264
step 258
step 255
finish 261
step 257
step 255
finish 255
step 264
step 263
step 263
step 260
begin 2 put 5b1105366036f3ea 0=f3ea
finish 257
begin 3 remove a8c367f5e6ca7522
step 265
finish 265
step 266
step 264
step 263
step 263
step 263
step 263
step 263
step 263
step 263
step 263
step 263
step 263
step 263
step 263
step 263
step 263
step 263
step 263
finish 263
begin 1 put 24f1133ca703706e 0=706e
step 264
step 264
step 264
step 264
step 264
step 264
step 264
step 264
step 264
step 264
step 264
step 264
step 264
step 264
step 264
step 264
step 264
step 264
step 264
begin 2 put aefab95bf827d9bc 0=d9bc
begin 3 put 636174616c6f672f677a746e6c757961 0=7961
step 269
step 269
step 266
step 264
finish 264
begin 1 get 0945aea11b6c3f26 all
step 267
step 270
step 270
step 270
finish 270
step 260
step 268
finish 268
step 269
step 269
step 269
step 269
step 269
step 269
step 269
step 269
step 269
step 269
step 269
step 269
step 269
step 258
step 269
finish 269
finish 260
begin 2 get 636174616c6f672f636174616c6f672f6779646a78646476 all
finish 267
step 271
step 271
step 271
begin 3 put 00000000000000000000000000000000000000000000000078767479 0=7479
step 271
step 271
step 271
begin 1 put 023c08be8d9de5d4 1=02
step 273
step 273
finish 266
step 273
finish 271
finish 258
begin 2 remove 0000000000000000000000000000000064
begin 3 get 0000000000000000626c all
step 272
step 274
finish 272
begin 1 put e081505b043e9012 0=9012
step 273
step 273
step 273
step 273
step 273
step 273
step 273
step 273
step 273
step 273
step 273
step 273
step 273
step 273
step 273
step 273
step 274
finish 273
finish 272
step 276
finish 274
step 275
step 275
step 275
step 275
step 275
step 275
step 275
step 275
step 275
step 275
step 275
step 275
step 276
begin 2 put b90ce8e3f7e2e3ff 0=e3ff
step 277
finish 277
begin 3 put 000000000000000000000000000000000000000000000000796f6a746d62 0=6d62
step 276
begin 1 put f2fdccc62e4ef3d5 0=f3d5
step 276
step 276
step 276
step 276
step 276
step 276
step 276
step 276
step 276
step 276
step 276
step 276
step 276
step 276
finish 275
begin 2 remove 00000000000000006175716677676a6b6e71
begin 3 put 00000000000000006165 0=6165
step 280
step 278
step 280
begin 1 get 636174616c6f672f636174616c6f672f736c7a6f79717368 all
step 280
step 280
step 280
step 280
step 280
step 280
step 280
step 280
step 280
step 280
step 280
step 280
step 280
step 280
step 280
step 280
step 280
step 280
step 280
step 281
finish 280
step 278
finish 278
begin 2 put 19b3571da3310ba9 0=0ba9
begin 3 put 000000000000000000000000000000007567686c68 0=6c68
step 276
step 284
step 281
begin 1 put 636174616c6f672f 0=672f
step 276
finish 285
step 283
finish 283
begin 2 put 636174616c6f672f636174616c6f672f636174616c6f672f736f656c69736b6269716e65 0=6e65
finish 276
finish 284
step 282
step 282
step 281
step 281
step 281
step 281
step 281
step 281
step 281
step 281
step 281
step 281
step 281
step 281
step 281
step 281
step 281
step 281
step 281
step 281
step 281
step 281
step 286
step 281
step 286
step 279
finish 282
begin 3 put 944b9ab15da53783 0=3783
begin 1 put feefa64ce9cc210c 0=210c
finish 281
finish 279
step 288
begin 2 put 636174616c6f672f637a7473 0=7473
step 288
finish 287
begin 3 put 636174616c6f672f636174616c6f672f6e6c77666b6d 0=6b6d
step 288
step 289
step 288
step 288
step 288
step 288
step 288
step 288
step 288
step 288
step 288
step 288
step 288
step 288
step 288
step 288
step 288
step 288
step 289
step 286
step 286
step 286
step 286
step 286
step 286
step 286
step 286
step 286
step 286
step 286
step 286
step 286
begin 1 put f974d8ffd6932f28 0=2f28
step 290
finish 290
finish 291
finish 288
begin 2 put 89b440ee78f842b5 0=42b5
begin 3 get 675c7395003f1a72 all
step 293
step 293
step 286
finish 286
finish 292
begin 1 put abc14b9141215b12 1=ab
begin 2 remove 000000000000000000000000000000006f6c
step 295
finish 294
begin 3 put 00000000000000000000000000000000000000000000000076726372 0=6372
step 295
step 289
step 289
step 289
step 289
step 289
step 289
step 289
step 289
step 289
step 289
step 289
step 289
step 289
finish 295
step 296
finish 289
begin 1 get 73657373696f6e2f73657373696f6e2f73657373696f6e2f66756e696575676375736577 all
begin 2 get 636174616c6f672f636174616c6f672f636174616c6f672f all
finish 298
finish 293
step 296
begin 3 get 00000000000000000000000000000000000000000000000067656a62 all
begin 1 put 73657373696f6e2f7962777a656a7678627172 0=7172
begin 2 put a995556e0a59c5f1 0=c5f1
begin 3 put 277d758e2f14720d 0=720d
begin 1 put 8a99dab1492e99c8 0=99c8
step 297
step 297
step 297
step 297
step 297
step 297
step 303
finish 303
step 300
finish 300
step 296
step 296
step 296
step 296
step 296
step 296
step 296
step 296
step 296
step 296
step 296
step 296
step 296
step 296
step 296
step 296
step 296
step 296
step 296
step 296
finish 299
step 301
finish 302
begin 2 remove 636174616c6f672f7271
step 296
finish 297
finish 297
step 304
begin 3 put f84dd9a51425cab5 0=cab5
finish 304
begin 1 get 000000000000000062 all
begin 2 put b7778db2ed0c3775 1=b7
step 305
begin 3 put 636174616c6f672f636174616c6f672f636174616c6f672f7168776878 0=6878
step 306
step 306
begin 1 put 8c773c30e4ddab79 0=ab79
step 307
step 301
finish 308
step 301
finish 301
step 309
step 305
step 306
step 306
step 305
finish 309
step 306
step 306
step 306
step 306
step 306
step 306
step 305
step 305
step 305
step 305
step 305
step 305
step 305
step 305
step 305
step 305
step 305
step 305
step 305
step 305
step 305
step 305
step 305
step 305
step 305
step 305
step 296
step 296
step 296
step 296
step 296
step 296
step 296
step 296
step 296
step 296
step 296
step 296
step 296
step 296
step 296
step 296
begin 2 get 000000000000000000000000000000000000000000000000 all
step 307
step 296
begin 3 put 3fd61c65df40cb8c 0=cb8c
step 311
finish 306
step 307
step 307
step 307
step 307
step 307
step 307
step 307
step 307
step 307
step 307
step 307
step 307
step 307
step 307
step 307
step 307
step 307
step 307
step 307
step 307
step 296
step 296
step 296
step 296
step 296
step 296
step 296
step 296
step 296
step 296
step 296
step 296
step 296
step 296
step 296
step 296
step 311
finish 311
step 310
step 310
begin 1 get 55423883241d3822 all
step 312
step 312
step 312
step 312
step 310
step 310
step 310
step 305
step 305
begin 2 get 7a300fa1e5600308 all
step 312
begin 3 get 57418f2dea08634e all
finish 296
begin 1 put ff4cad5ede47150f 0=150f
step 312
step 312
step 312
step 312
step 312
step 312
step 312
step 312
step 312
step 312
step 312
finish 305
step 310
step 310
step 310
step 310
step 310
step 310
step 307
finish 307
step 313
step 313
step 313
step 315
step 312
finish 310
step 312
finish 314
begin 2 put e4ec096e7624eae2 0=eae2
step 313
step 313
step 313
step 313
step 313
finish 312
begin 3 put 000000000000000000000000000000000000000000000000746b666574776b6971 0=6971
finish 313
begin 1 remove 0f374184f3dc8256
begin 2 put f955a6eee26814e4 1=f9
begin 3 put d00f536107bae255 1=d0
finish 319
begin 1 put 32cd2d365edaca4a 0=ca4a
finish 318
step 320
step 317
begin 2 put 51188d96e173e567 0=e567
begin 3 get 8fdc21e161657786 all
step 320
finish 317
step 323
begin 1 put 7eb323008b53a42f 0=a42f
step 321
step 315
step 322
step 316
step 316
step 315
step 323
step 323
step 323
step 323
step 323
step 323
step 320
step 316
step 321
finish 321
step 315
step 315
step 315
step 315
step 315
step 315
step 315
step 315
step 315
step 315
step 315
step 315
step 315
begin 2 put 6b12c135f88561c2 0=61c2
step 323
step 323
step 323
step 324
finish 320
step 322
step 323
step 322
step 323
finish 322
step 324
finish 324
step 316
begin 3 put 636174616c6f672f636174616c6f672f636174616c6f672f6b736e61 1=63
step 316
step 316
step 316
step 316
step 316
step 316
step 316
step 316
step 316
step 316
step 316
step 316
step 316
step 316
step 316
begin 1 put 4e49fb6be11889fc 0=89fc
step 315
step 315
step 326
step 323
finish 323
step 325
step 326
begin 2 put 636174616c6f672f636174616c6f672f7763686e6d6f6273647862 0=7862
begin 3 get f58ac040cde507a4 all
step 316
finish 316
step 326
step 326
step 326
step 326
step 326
step 326
step 326
step 326
step 326
step 326
step 326
step 326
step 326
finish 326
step 328
begin 1 put 000000000000000000000000000000000000000000000000786e697162717a6a6f 0=6a6f
step 329
finish 329
finish 315
begin 2 put 6d3bc096cdc77a52 0=7a52
step 330
begin 3 put 636174616c6f672f636174616c6f672f68 0=2f68
finish 331
finish 325
begin 1 get 000000000000000000000000000000006b637766796c666b68 all
step 332
finish 328
finish 332
step 327
step 327
finish 330
begin 2 put 636174616c6f672f636174616c6f672f636174616c6f672f6f7a776565677378 0=7378
begin 3 get 3a6f699c6a93dff2 all
finish 333
begin 1 put d8a298c004b7f251 0=f251
step 334
step 334
begin 2 put 000000000000000000000000000000006f6c 0=6f6c
step 337
finish 327
step 334
step 334
step 334
step 334
step 334
step 334
step 334
step 334
step 334
step 334
step 334
step 334
step 334
step 334
finish 334
begin 3 put 636174616c6f672f707a67746a626a6d7665 0=7665
step 337
step 335
step 335
step 336
step 336
step 338
step 337
step 337
step 337
step 337
step 337
step 337
step 337
step 337
step 337
step 337
step 337
step 337
step 337
step 336
step 337
step 337
step 337
step 337
step 337
step 337
step 337
step 337
step 337
step 337
step 337
step 337
step 337
step 337
step 337
step 337
step 337
step 338
step 337
finish 338
step 336
step 336
step 336
step 336
step 336
step 336
step 336
step 336
step 336
step 336
step 336
step 336
step 336
step 336
step 336
step 336
step 336
finish 336
begin 1 put 7770791c06998f46 0=8f46
step 335
step 335
step 337
step 337
step 337
step 337
step 337
step 337
step 337
step 337
step 337
step 337
step 337
step 337
step 337
step 337
step 337
step 337
step 337
begin 2 get 4b1d873ab41f020c all
step 339
step 340
step 337
finish 339
step 340
step 340
finish 340
begin 3 remove 636174616c6f672f636174616c6f672f636174616c6f672f70
finish 335
begin 1 range 5b507524e1d71500 7 0
step 342
step 342
step 342
step 342
step 342
step 342
step 342
step 342
finish 341
step 337
begin 2 get 636174616c6f672f63627961746273 all
begin 3 put 73657373696f6e2f73657373696f6e2f65786264 0=6264
step 343
step 343
step 343
step 343
step 343
step 343
step 342
finish 342
begin 1 get 506e7d667a921443 all
finish 337
finish 343
finish 344
begin 2 put 73657373696f6e2f73657373696f6e2f66776d6f7976766c6b 0=6c6b
begin 3 remove 73657373696f6e2f73657373696f6e2f73657373696f6e2f7571687967787779786e6669
step 347
begin 1 get 3e533c0a174ff987 all
step 347
step 347
step 347
step 347
step 347
step 347
step 347
step 347
step 347
step 347
step 347
step 347
step 347
step 347
step 347
step 347
begin 2 put b1843df9f27eeea7 0=eea7
step 345
finish 349
finish 347
begin 3 put a84c0d7ceaf0d50f 0=d50f
step 345
step 345
step 345
step 345
step 345
step 345
step 345
step 345
step 345
step 345
step 345
step 345
step 345
step 345
step 345
step 345
finish 350
step 346
finish 345
begin 1 get 30ba7d5ebe954d05 all
begin 2 get 636174616c6f672f6e73 all
begin 3 put 65540b07b8afc51b 0=c51b
finish 351
step 353
finish 353
begin 1 put 937d5cf09297d162 0=d162
step 352
step 352
step 352
step 352
finish 352
begin 2 put 636174616c6f672f636174616c6f672f6779646a78646476 0=6476
step 348
step 348
step 354
begin 3 put aa6b9b04b17e5992 0=5992
step 346
begin 1 range 9663cf55bd663423 7 0
finish 357
step 348
step 356
step 354
step 348
step 348
step 348
step 348
step 348
step 348
begin 2 put 636174616c6f672f6d636e666c77 1=63
step 358
step 354
step 346
step 346
step 346
step 346
step 346
step 346
step 346
step 346
step 346
step 346
step 346
step 346
step 346
step 346
step 346
step 346
step 348
step 358
begin 3 put 5357fc2998fe2a2a 0=2a2a
finish 346
begin 1 put 73657373696f6e2f796e706572666f7a7163 1=73
step 354
step 354
step 354
step 354
step 354
step 354
step 354
step 354
step 354
step 354
step 354
step 354
step 354
step 354
step 348
step 354
step 354
step 359
step 360
step 355
step 348
step 359
step 359
step 356
step 360
step 359
step 359
step 359
step 359
step 359
step 359
step 359
step 359
step 359
step 359
step 359
step 359
step 359
step 359
step 359
step 359
step 359
step 356
step 355
finish 360
step 354
step 354
step 355
step 355
step 355
step 355
step 355
step 355
step 355
step 355
step 355
step 355
step 355
step 355
step 355
step 355
step 355
step 348
step 356
step 356
step 356
step 356
step 356
step 356
step 356
step 356
step 356
step 356
step 356
step 356
step 356
step 356
step 356
step 356
step 356
step 356
finish 356
step 348
finish 348
step 358
step 358
step 358
step 358
step 358
step 358
step 358
step 358
step 358
step 358
step 358
step 358
step 358
step 358
step 358
begin 2 put 636174616c6f672f636174616c6f672f636174616c6f672f77746470686f76646d 0=646d
begin 3 put 209fefc0605cf809 0=f809
step 358
begin 1 get 5e676238d97b6ec6 all
step 354
step 363
step 363
step 363
step 363
finish 354
finish 355
step 359
step 361
finish 361
step 358
step 359
finish 362
begin 2 put 0000000000000000000000000000000000000000000000006165626d7372656d72 0=6d72
step 363
step 363
begin 3 put db8d69d31863c290 0=c290
step 358
step 358
step 358
step 358
step 358
step 358
step 358
step 358
step 358
step 358
step 358
step 358
step 358
step 358
step 358
step 358
begin 1 put 0000000000000000000000000000000000000000000000006d67 0=6d67
step 364
step 365
step 358
step 359
step 364
step 364
step 364
step 364
step 364
step 364
step 364
step 364
step 364
step 364
step 364
step 364
step 364
step 364
step 358
step 365
step 365
begin 2 put 73657373696f6e2f73657373696f6e2f73657373696f6e2f7267777179 0=7179
step 364
step 366
step 364
step 364
step 364
step 364
step 364
step 364
step 364
step 364
step 364
step 364
step 364
step 364
step 364
step 364
step 364
step 364
finish 364
step 367
step 366
begin 3 get 0c4a43de6e022bb8 all
step 359
finish 359
step 368
step 368
step 368
step 368
step 365
step 365
step 365
step 365
step 365
step 365
step 365
step 365
step 365
step 365
step 365
step 365
step 365
step 365
step 365
begin 1 put cce034abea0c7e36 0=7e36
finish 363
finish 365
step 358
finish 358
begin 2 put 00000000000000006175716677676a6b6e71 0=6e71
step 370
step 370
finish 366
step 367
finish 367
begin 3 put 73657373696f6e2f73657373696f6e2f73657373696f6e2f66 1=73
step 369
step 370
step 370
step 370
step 370
step 370
step 370
step 370
step 370
step 370
step 370
step 370
step 370
step 370
step 368
step 368
step 368
step 370
step 371
finish 371
begin 1 get 7fb2be233c217d80 all
step 369
step 369
finish 370
step 368
step 368
step 368
begin 2 put 6715036fad2f14fa 1=67
step 373
finish 368
begin 3 put edc8641c10d01c8f 1=ed
step 373
finish 374
finish 372
begin 1 put 0000000000000000 0=0000
step 373
begin 2 put 73657373696f6e2f73657373696f6e2f73657373696f6e2f63746577777679696a 0=696a
step 376
finish 376
begin 3 put 2c88f68d8c0d1f08 0=1f08
step 369
step 369
step 369
step 369
step 369
step 369
step 369
step 369
step 369
step 369
step 369
step 369
step 369
step 369
step 369
step 369
step 369
step 369
step 369
step 369
step 369
step 369
step 369
step 369
step 369
step 369
finish 377
begin 1 range ae8c6d7baa3b0290 20 0
step 378
step 378
step 378
step 378
step 378
step 378
finish 375
step 373
step 373
step 373
step 373
step 373
step 373
step 373
step 373
step 373
step 373
step 373
step 373
step 373
step 373
step 373
begin 2 get e299ac6b2ccb6de8 all
step 379
begin 3 get 636174616c6f672f636174616c6f672f6b75796c7766717574 all
step 378
finish 378
finish 369
finish 378
begin 1 put 73657373696f6e2f73657373696f6e2f6c6e78736e676b6c6562 0=6562
begin 2 put 0000000000000000736270677169656d776d6d77 0=6d77
begin 3 put 878431439b26fd14 0=fd14
begin 1 get 636174616c6f672f all
step 382
step 381
finish 382
step 373
step 380
finish 380
step 383
step 381
step 381
step 381
step 381
step 381
step 381
step 381
step 381
step 381
step 381
step 381
step 381
step 381
step 381
step 381
step 381
finish 381
begin 2 get 8b741ede7f91a99e all
begin 3 put 636174616c6f672f636174616c6f672f74626f756b6e6b6e 0=6b6e
finish 386
begin 1 put 0000000000000000000000000000000000000000000000006264666c6a6965627769 0=7769
step 373
finish 386
step 379
step 384
step 384
finish 384
step 387
finish 373
begin 2 get 0000000000000000000000000000000000000000000000006562746d63726772657372 all
finish 387
step 379
step 379
step 379
step 379
step 379
step 379
step 379
step 379
step 379
step 379
step 379
step 379
step 379
step 379
step 388
step 388
finish 388
begin 3 put 0945aea11b6c3f26 0=3f26
step 389
step 379
step 385
begin 1 put a3b28f7fc0a7d674 0=d674
step 383
step 389
step 383
step 389
begin 2 put 0d085f209a4d8e08 0=8e08
step 391
step 385
step 385
step 385
step 385
step 385
step 385
finish 385
step 390
step 379
finish 389
finish 390
step 379
finish 379
begin 3 put 6e7ce4b0ab36ee8f 0=ee8f
begin 1 put 74d518810579e1ad 1=74
finish 383
step 393
begin 2 put 73657373696f6e2f73657373696f6e2f73657373696f6e2f746172766c6b6f6b7368646f 1=73
finish 394
begin 3 get f9077a3ba9019c02 all
finish 391
begin 1 put 636174616c6f672f636174616c6f672f636174616c6f672f7262726b 1=63
step 392
finish 392
begin 2 put f2aada1c9ec8853c 0=853c
begin 3 get 636174616c6f672f636174616c6f672f74626f756b6e6b6e all
step 395
step 398
step 398
step 393
step 396
step 395
step 395
step 395
step 395
step 395
step 395
step 395
step 395
step 395
begin 1 put 2570e1ec152e54c0 0=54c0
step 393
step 396
step 393
step 393
step 393
step 393
step 393
step 393
step 393
step 393
step 393
step 393
step 393
step 393
step 393
step 393
step 393
step 393
step 393
step 399
begin 2 put 53c5faea75853d85 0=3d85
step 393
finish 397
begin 3 get 00000000000000000000000000000000000000000000000078767479 all
step 395
step 401
step 395
step 393
step 400
finish 396
step 400
finish 400
begin 1 put 636174616c6f672f636174616c6f672f636174616c6f672f6f766669626671746868 0=6868
begin 2 put 57428a3824218924 0=8924
step 403
step 403
step 401
step 403
finish 403
step 399
step 395
step 401
step 401
step 401
step 401
step 401
step 401
step 401
begin 3 get 3c63cf1270c105ab all
step 398
step 398
step 398
step 401
finish 398
begin 1 put 92076ec33c6a2ee0 0=2ee0
step 399
step 405
step 402
finish 395
step 399
step 399
step 399
step 399
step 399
step 399
step 399
step 399
step 399
step 399
step 399
step 399
step 399
step 399
step 399
step 401
step 393
step 399
begin 2 put 29697c1167302a61 0=2a61
step 404
step 404
step 404
step 404
step 404
step 404
step 404
step 404
step 404
step 404
step 401
step 401
step 401
step 401
step 393
finish 393
finish 404
step 401
step 401
step 401
step 401
begin 3 get 51188d96e173e567 all
begin 1 put f1ab4a0b824b8d07 1=f1
step 406
finish 407
step 408
finish 401
step 405
step 399
begin 2 put 17ea1d1b8780e149 0=e149
step 408
begin 3 put 59420f81a6039cf8 0=9cf8
step 405
step 406
step 410
finish 406
finish 409
finish 408
finish 399
begin 1 put 0f41b1506b1985e0 0=85e0
begin 2 get 73657373696f6e2f73657373696f6e2f65786264 all
begin 3 put 1eae3027f810ddea 0=ddea
step 410
step 412
step 412
step 412
step 412
finish 412
step 411
finish 410
step 402
begin 1 put 4c25d19682812588 0=2588
begin 2 get 134607bb960ef16f all
step 405
step 405
step 405
step 405
step 405
step 405
step 405
step 405
step 405
step 405
step 405
step 405
step 405
step 405
finish 405
begin 3 get aa6b9b04b17e5992 all
step 415
step 415
step 415
step 415
step 415
step 415
step 415
step 414
finish 402
step 414
finish 414
begin 1 put 73657373696f6e2f6a6c79717576696c7164 0=7164
begin 2 put 636174616c6f672f636174616c6f672f636174616c6f672f716363 1=63
begin 3 put 00000000000000006377626b6768 0=6768
finish 416
step 419
step 419
begin 1 put 0ed20a93a3f5ee3a 0=ee3a
step 413
step 413
finish 413
step 415
step 415
step 415
step 415
step 415
step 415
step 415
step 415
step 415
finish 415
begin 2 put 5ed94a237e438ab1 0=8ab1
step 411
finish 411
step 421
step 421
finish 421
step 420
finish 420
begin 3 put 7a020e589457e0fa 0=e0fa
begin 1 remove 636174616c6f672f636174616c6f672f636174616c6f672f636f676e6e6c77
step 419
step 419
step 419
step 419
step 419
step 419
step 419
step 419
step 419
step 419
step 419
step 419
step 419
step 419
step 419
step 419
step 419
step 419
step 419
step 417
finish 422
begin 2 put 675c7395003f1a72 0=1a72
step 424
finish 424
step 423
step 417
begin 3 remove 8dfe6d2544aab456
step 425
step 419
begin 1 get 95e6acc2691ab245 all
step 426
step 426
step 426
step 426
begin 2 range 0000000000000000736c6d787276637a 1 0
step 419
finish 419
finish 426
begin 3 put 73657373696f6e2f73657373696f6e2f73657373696f6e2f68656f6a7161776a6963 0=6963
begin 1 get 0d085f209a4d8e08 all
step 423
step 429
finish 418
step 417
step 417
step 417
step 417
step 417
step 417
step 417
step 417
step 417
step 417
step 417
step 417
step 417
step 417
step 417
step 417
step 417
begin 2 remove 263440a3f2e6d26a
step 430
finish 430
finish 425
step 427
step 427
step 427
step 427
step 427
finish 417
begin 3 put 7ab652d1ed773b42 0=3b42
step 431
step 429
step 429
step 429
step 429
step 429
step 429
step 428
finish 431
step 429
step 429
step 429
step 429
step 429
step 429
step 423
step 423
step 423
step 423
step 423
step 423
step 423
step 423
step 423
step 423
step 423
step 423
step 423
step 423
step 423
step 423
step 423
step 423
step 423
begin 1 put 0000000000000000000000000000000000000000000000006b7676787171 1=00
finish 432
step 427
begin 2 get ead3972798600a77 all
step 423
begin 3 put 50b5baa2746ed761 0=d761
begin 1 get c60eaf68838ea06f all
finish 434
step 428
step 429
finish 423
begin 2 put 2ff35a4b6bb2404b 1=2f
begin 3 put 4413475409c58d38 0=8d38
finish 435
begin 1 put 636174616c6f672f77636e696d6e626c767768 0=7768
step 436
finish 427
begin 2 put 000000000000000066687363626d 0=626d
step 437
step 429
step 439
step 438
finish 438
begin 3 range 636174616c6f672f6e687872726d77726c6c7a69 2 0
step 429
step 433
step 428
step 428
step 428
step 428
step 428
step 428
step 428
step 428
step 428
step 428
step 428
step 428
step 428
step 428
step 428
step 428
step 428
step 436
step 437
finish 440
step 428
step 428
step 428
step 428
step 428
step 428
step 428
step 428
step 428
step 428
step 428
step 428
step 428
step 428
step 428
step 428
step 428
step 428
step 428
finish 428
begin 1 put 73657373696f6e2f73657373696f6e2f73657373696f6e2f66756e696575676375736577 0=6577
step 436
step 437
step 439
step 439
step 439
step 439
step 439
step 439
step 439
step 439
step 439
step 439
step 439
step 439
step 439
step 439
step 439
step 439
step 439
step 439
step 439
step 439
begin 2 put 73657373696f6e2f73657373696f6e2f73657373696f6e2f 0=6e2f
finish 441
finish 439
begin 3 put 74f56a5e5cb0ea7d 0=ea7d
finish 437
step 442
begin 1 put 42b22bcafc5a5880 0=5880
finish 436
begin 2 put 636174616c6f672f7a69756a627662646d726574 0=6574
step 443
finish 442
step 445
begin 3 put 571c3d7033d60488 0=0488
begin 1 put cb17958725b6fc83 0=fc83
step 445
step 445
step 445
step 445
step 445
step 445
step 445
step 445
step 445
step 445
step 445
step 445
step 445
step 445
step 445
step 445
step 445
step 445
step 445
step 445
step 443
finish 443
step 444
step 429
step 445
step 433
step 433
step 433
step 447
begin 2 get 636174616c6f672f636174616c6f672f61 all
step 447
step 446
step 447
finish 446
step 433
step 433
step 433
step 433
finish 433
step 448
step 447
step 447
step 447
step 447
step 447
step 447
step 447
step 447
step 447
step 447
step 447
step 447
step 447
step 444
step 444
step 448
step 445
finish 445
step 447
begin 3 get 1ac0a8f8a8375c4e all
finish 429
step 449
step 449
begin 1 put 636174616c6f672f636174616c6f672f636174616c6f672f636f676e6e6c77 0=6c77
finish 450
step 447
step 448
finish 448
step 444
step 444
step 444
step 444
step 444
step 444
step 444
step 444
step 444
step 444
step 444
step 444
step 444
finish 444
begin 2 put a35138c8d45dfa0d 0=fa0d
finish 447
step 451
begin 3 put 0bfa809781974e44 0=4e44
finish 449
step 451
step 452
begin 1 get 6d9df15b45418c0c all
begin 2 remove 9299dfcaf05bb0cc
step 452
step 451
finish 451
begin 3 get 636174616c6f672f7865 all
begin 1 get f2e9bcdd06d2586a all
step 455
step 455
step 455
finish 455
step 453
step 452
step 456
step 452
step 452
step 452
step 452
step 452
step 452
step 452
step 452
step 452
step 452
step 452
step 452
step 452
step 452
step 452
step 452
step 452
step 452
step 452
begin 2 get aefab95bf827d9bc all
finish 453
step 452
step 456
step 456
begin 3 put 84072202a134fddc 0=fddc
step 452
step 454
begin 1 put 000000000000000077667063626b6e7a74786b6f 0=6b6f
finish 456
step 459
step 458
begin 2 put 73657373696f6e2f73657373696f6e2f73657373696f6e2f6479 0=6479
step 459
finish 459
step 458
step 458
step 458
step 458
step 458
step 458
step 458
step 458
step 458
step 458
step 458
step 458
step 458
step 458
step 458
step 458
step 458
step 458
step 458
step 454
begin 3 put 3c9ed13c72342150 0=2150
step 452
step 452
begin 1 remove 3e533c0a174ff987
step 461
finish 461
begin 2 get 954f0e2b954d1b6c all
finish 452
step 458
step 458
begin 3 get 2ecd5d7eb22efe99 all
finish 457
step 463
step 463
step 463
step 463
step 463
begin 1 put 636174616c6f672f636174616c6f672f726e6c74797577686274 0=6274
step 463
step 463
step 463
step 463
step 463
step 463
step 463
step 463
step 463
step 463
step 462
finish 458
step 462
step 463
begin 2 remove f47bfffae55f3c02
finish 454
step 465
step 460
step 465
begin 3 put 636174616c6f672f6b766b7764717a6d6573 0=6573
step 467
finish 464
step 465
step 465
step 465
step 465
step 465
step 465
step 465
step 465
step 465
step 465
step 465
step 465
step 465
step 465
step 465
step 465
step 465
step 465
step 465
step 466
step 465
step 467
finish 467
step 463
begin 1 put 7b8bfd0302cbed98 0=ed98
step 465
step 465
step 465
step 465
step 465
step 465
step 465
step 465
step 465
step 465
step 465
step 465
step 465
step 465
step 465
step 465
step 465
step 465
step 465
step 465
begin 2 put 00000000000000000000000000000000000000000000000076627a 0=627a
finish 462
finish 465
begin 3 get 003b22843793606c all
step 460
step 466
finish 466
begin 1 get 11d1c70e1acab4cc all
step 468
step 460
step 460
step 460
step 460
step 460
step 460
step 460
step 460
step 460
step 460
step 460
step 460
step 460
step 460
step 460
step 460
step 460
step 460
step 468
begin 2 remove fb68f9c8ad052208
step 470
step 470
step 469
step 469
step 463
finish 471
finish 463
step 470
step 470
step 470
step 472
step 472
finish 472
begin 3 put 636174616c6f672f6a667a68657962787963 0=7963
step 460
finish 460
finish 469
finish 473
begin 1 range 636174616c6f672f636174616c6f672f636174616c6f672f6f7172696b6b7463 7 0
begin 2 put 73657373696f6e2f73657373696f6e2f7a 0=2f7a
begin 3 put 7a300fa1e5600308 0=0308
step 475
step 476
finish 475
step 474
step 474
step 474
step 470
step 470
step 470
step 470
step 470
begin 1 put 7119769a1c098a59 1=71
step 470
step 477
begin 2 get 2570e1ec152e54c0 all
step 468
finish 468
step 470
finish 470
step 477
finish 476
finish 478
step 477
step 474
step 474
step 474
step 474
step 474
step 474
begin 3 put 6b2031c6ba4a2d72 0=2d72
step 479
finish 477
begin 1 put 0091fede66df8743 0=8743
begin 2 put f4b343e25b48423b 0=423b
finish 480
begin 3 put 00000000000000000000000000000000757777 0=7777
begin 1 put 000000000000000000000000000000000000000000000000 0=0000
begin 2 put a3013b2298bfd7ae 0=d7ae
step 483
step 479
step 483
finish 481
begin 3 get 000000000000000000000000000000000000000000000000796f6a746d62 all
step 485
finish 484
step 479
step 474
step 483
step 483
step 483
step 483
step 483
step 483
step 483
step 483
step 483
step 483
step 483
step 483
step 483
step 483
finish 474
step 482
step 482
step 483
step 483
begin 1 put 2596bd19d8b16bb0 0=6bb0
begin 2 put 636174616c6f672f636174616c6f672f73786573626e6d647162 0=7162
begin 3 put 636174616c6f672f636174616c6f672f66646268666f66 0=6f66
step 485
step 485
step 485
step 485
step 485
step 485
step 487
step 485
step 485
step 485
step 485
step 485
step 485
step 488
step 483
step 483
step 483
step 483
step 483
step 483
step 483
step 483
step 483
step 483
step 483
step 483
step 483
finish 483
step 488
finish 482
step 479
step 479
step 479
step 479
step 479
step 479
step 479
step 479
step 479
step 479
step 479
step 479
step 479
step 479
step 479
step 479
step 479
step 479
step 479
step 488
step 485
step 485
step 485
step 485
step 485
step 485
finish 487
begin 1 get 76c7a618cb0377f3 all
begin 2 range 73657373696f6e2f6161 1 0
begin 3 get 0000000000000000 all
step 486
step 489
step 489
step 489
step 489
step 489
step 489
step 490
step 490
step 479
step 491
finish 491
begin 1 range 9cdb3153fb269e32 2 0
step 485
step 490
step 490
step 490
step 490
begin 2 get 73657373696f6e2f73657373696f6e2f all
step 493
step 493
step 486
step 493
step 493
step 493
step 493
step 493
step 493
step 485
step 492
finish 492
step 493
step 493
step 490
step 490
step 490
step 485
begin 3 put f4198e84a4605bf0 0=5bf0
finish 479
finish 487
step 488
step 488
step 488
step 488
step 488
step 488
step 488
step 488
step 488
step 488
step 488
step 488
step 488
step 488
step 488
step 488
step 488
step 488
step 488
step 488
step 488
step 488
finish 488
begin 1 put db8d69d31863c290 1=db
step 490
step 490
step 490
step 490
step 490
step 490
step 490
step 490
step 490
step 490
step 490
step 490
step 490
step 490
step 490
step 490
step 490
step 490
step 490
step 490
finish 490
step 493
step 485
step 485
finish 486
begin 2 put 636174616c6f672f636174616c6f672f636174616c6f672f67 0=2f67
step 496
step 495
step 496
finish 496
step 489
step 489
step 489
step 489
step 489
step 489
step 489
step 489
step 489
step 489
step 489
step 489
finish 489
step 485
step 485
step 494
finish 495
begin 3 get d92029bff1762643 all
finish 497
step 485
step 485
step 485
finish 485
step 494
finish 493
step 490
step 494
finish 494
begin 1 put 0f82953e5680e6d6 0=e6d6
step 498
begin 2 put 7db2fbda2168686f 0=686f
step 490
step 498
finish 499
step 498
step 498
step 498
step 498
step 498
step 498
step 498
step 498
step 498
step 498
step 498
step 498
step 498
begin 3 put 5f461e557dc93328 1=5f
step 490
begin 1 range d5e9ba1eaa222cff 20 0
step 498
step 498
step 498
step 490
step 498
step 490
step 500
begin 2 remove 0000000000000000000000000000000000000000000000006b7676787171
begin 3 put 214445c60b60f66c 0=f66c
step 501
step 501
step 501
step 501
step 501
step 501
step 490
begin 1 get 704f63a070328408 all
finish 501
step 500
step 498
finish 498
step 504
step 504
step 504
begin 2 get 32cd2d365edaca4a all
step 490
finish 500
begin 3 put ed907139c5d15ddc 1=ed
step 506
begin 1 put 4b71eeee92c4c211 0=c211
step 490
step 504
step 504
step 506
finish 502
finish 490
begin 2 put 4d4be30544813fc0 0=3fc0
step 506
step 506
finish 505
step 507
begin 3 put 49ca07cafe1c13e6 0=13e6
step 509
step 503
step 509
step 503
step 507
step 503
begin 1 get 73657373696f6e2f616f6261726b6c736d766771 all
step 503
finish 509
finish 510
finish 504
step 507
begin 2 get 209fefc0605cf809 all
step 503
step 503
step 503
step 503
step 503
step 503
step 503
step 503
step 503
step 503
step 503
step 503
step 503
step 503
step 503
step 503
step 503
step 503
step 503
finish 511
step 507
begin 3 remove a3013b2298bfd7ae
step 507
step 507
step 507
step 507
step 507
step 507
step 507
step 507
step 507
step 507
step 507
step 507
step 507
step 507
step 507
step 507
step 507
step 508
finish 508
step 512
begin 1 put 73657373696f6e2f73657373696f6e2f75616e746e 0=746e
finish 506
step 507
step 513
step 503
step 503
step 513
finish 513
begin 2 put 2abe426f14147e42 0=7e42
begin 3 put b7869dcd20ba071f 0=071f
finish 515
begin 1 put 73657373696f6e2f 0=6e2f
step 512
step 507
step 516
step 503
begin 2 get 1b0834d4a008223c all
finish 507
step 517
step 517
finish 517
step 512
step 512
step 514
finish 503
begin 3 put 7afeec550daf237f 0=237f
step 516
begin 1 put 284ddfc0ee362c41 0=2c41
step 518
step 518
step 514
finish 514
step 516
finish 516
step 518
begin 2 put d419efcc617fba1b 0=ba1b
step 519
step 520
step 518
finish 519
begin 3 get 46c937eb816819a3 all
step 520
step 520
step 520
finish 518
step 521
step 521
begin 1 put 05f7aac49d402b2d 0=2b2d
step 520
step 520
step 520
step 520
step 520
step 520
step 520
step 520
step 520
step 520
step 520
step 520
step 520
step 520
step 520
step 520
step 520
step 520
finish 512
begin 2 put 73657373696f6e2f73657373696f6e2f73657373696f6e2f726b6469656e 0=656e
begin 3 put 9769ba984932028d 0=028d
step 523
begin 1 put a3013b2298bfd7ae 1=a3
finish 524
begin 2 put 636174616c6f672f636174616c6f672f62616b7877 0=7877
step 522
begin 3 put 000000000000000000000000000000000000000000000000696a69 0=6a69
step 525
step 523
finish 527
step 526
step 523
step 521
step 521
step 521
step 521
step 525
step 520
finish 525
begin 1 put 5b507524e1d71500 0=1500
step 526
begin 2 get 88b2d59c8e21a912 all
finish 528
step 520
begin 3 get 66a2aba8da2ffbcf all
finish 521
begin 1 put 636174616c6f672f636174616c6f672f656f6c747a7866766e6a7676 0=7676
step 523
step 523
step 523
step 523
step 523
step 523
step 523
step 523
step 523
step 523
step 523
step 523
step 523
step 523
step 523
step 523
step 523
step 523
step 523
finish 523
begin 2 put 000000000000000075726a7862647165797064 0=7064
step 530
step 530
step 526
finish 522
begin 3 get 4f0d4fb49dba0b85 all
step 532
step 529
step 529
finish 532
begin 1 put 1a0c112b0a9dd78f 0=d78f
step 520
finish 530
step 526
step 526
step 526
step 526
step 526
step 526
step 526
step 526
step 526
step 526
step 526
step 526
step 526
step 526
step 533
step 533
step 533
step 533
step 533
step 533
step 533
step 533
step 533
step 534
finish 534
step 531
begin 2 put 71c296a57e0aeee7 0=eee7
finish 529
finish 520
begin 3 put 73657373696f6e2f73657373696f6e2f716f76646f6975 1=73
finish 526
step 531
finish 533
begin 1 put 0000000000000000000000000000000000000000000000006562746d63726772657372 0=7372
begin 2 remove 577f2c202a3db4c2
finish 531
begin 3 put 636174616c6f672f636174616c6f672f737664726f6373 0=6373
begin 1 put 636174616c6f672f636174616c6f672f736c7a6f79717368 0=7368
step 536
step 537
step 540
step 540
step 539
begin 2 put 0000000000000000000000000000000000000000000000006f6875 1=00
step 535
finish 538
begin 3 get 2ff35a4b6bb2404b all
step 542
finish 542
step 539
finish 539
step 540
step 535
finish 537
finish 535
begin 1 put 0ea45d54f0fcaba4 0=aba4
finish 540
finish 541
step 543
begin 2 put d7bb6b33d96da926 0=a926
step 536
step 543
begin 3 put ee5f46166239b5ef 0=b5ef
finish 545
begin 1 put b7778db2ed0c3775 0=3775
begin 2 get 0000000000000000000000000000000000000000000000007a746a766e65626e71647071 all
begin 3 put 4e49fb6be11889fc 1=4e
step 548
begin 1 get 6678eff56b1eab30 all
finish 547
begin 2 put 636174616c6f672f636174616c6f672f636174616c6f672f71756d 1=63
finish 549
step 543
begin 3 put 00000000000000006a6a78746e636179657a 0=657a
step 544
step 543
step 546
step 544
step 550
finish 550
step 546
finish 546
step 548
begin 1 put 1fc6bf90caec3222 1=1f
finish 536
step 551
begin 2 put 73657373696f6e2f786c6975 0=6975
step 552
step 553
finish 553
finish 548
step 551
finish 552
begin 3 put 61a4db6bd7c84e93 0=4e93
finish 551
step 543
step 543
step 543
step 543
step 543
step 543
step 543
step 543
step 543
step 543
step 543
step 543
step 543
finish 543
finish 551
step 554
step 544
begin 1 put 73657373696f6e2f73657373696f6e2f73657373696f6e2f6a73 0=6a73
step 554
begin 2 put 636174616c6f672f666a7a7a7775 1=63
step 544
step 554
begin 3 remove 000000000000000000000000000000000000000000000000
finish 555
step 544
step 544
step 544
step 544
step 544
step 544
step 544
step 544
step 544
step 544
step 544
step 544
step 544
step 544
step 544
step 544
step 544
finish 544
begin 1 put 35e4604c3c11b45f 0=b45f
finish 556
begin 2 range 0c562bb7dabc1b3d 7 0
step 557
finish 557
step 554
begin 3 get c0ed891f768a83c9 all
begin 1 put f47bfffae55f3c02 0=3c02
begin 2 put 7a3c81bd2d9fac6b 1=7a
step 562
step 560
step 562
step 554
step 554
step 554
step 554
step 554
step 554
step 554
step 554
step 554
step 554
step 554
step 554
step 554
step 554
begin 3 put 46b5ce0efbefd2c6 0=d2c6
step 563
step 554
finish 554
finish 562
begin 1 range 8c9b0331139d9e74 20 0
finish 564
begin 2 put ab97e3284f853393 0=3393
step 563
finish 563
step 558
step 561
finish 558
step 561
step 559
step 559
begin 3 put a64b31862410f44a 0=f44a
finish 559
step 566
step 561
step 560
step 560
step 560
step 560
step 560
step 560
begin 1 put 4080e2aa05f17a0b 0=7a0b
finish 566
step 567
finish 565
begin 2 put a64b31862410f44a 1=a6
step 561
begin 3 put 73657373696f6e2f73657373696f6e2f6a6e72657368 0=7368
begin 1 put 636174616c6f672f636174616c6f672f74626f756b6e6b6e 1=63
step 569
begin 2 put 73657373696f6e2f73657373696f6e2f73657373696f6e2f6979 0=6979
step 571
step 569
step 569
finish 570
begin 3 put 636174616c6f672f636174616c6f672f636174616c6f672f70 1=63
step 561
step 561
step 561
step 561
step 561
step 561
step 561
step 561
step 561
step 561
step 561
step 561
step 561
step 561
step 561
step 561
step 561
step 561
step 561
step 572
step 569
step 569
step 569
step 569
step 569
step 569
step 569
step 569
step 569
step 569
step 569
step 569
step 569
step 569
step 569
step 569
step 569
step 569
step 569
step 569
step 571
step 560
step 560
step 571
step 560
step 560
step 560
step 560
step 560
step 560
step 560
step 560
step 569
finish 569
step 572
step 568
finish 572
step 561
finish 561
finish 568
begin 1 put 305e5c01e049df4b 0=df4b
finish 571
step 560
begin 2 put b8b90f56c9e54528 0=4528
step 574
step 573
step 560
step 574
finish 574
begin 3 get eb60b7d2ffd07b4d all
step 573
begin 1 put dac18dae43a31b05 0=1b05
begin 2 put 45a6d6fda937eff1 0=eff1
begin 3 range 0d0ca33edf72de8a 20 0
finish 577
step 567
step 560
step 576
finish 560
begin 1 range 73657373696f6e2f 7 0
finish 578
step 573
finish 567
step 573
step 576
step 576
step 573
step 573
step 573
step 573
step 573
step 573
step 573
step 573
step 573
step 573
step 573
step 573
step 573
step 573
step 573
finish 579
begin 2 get 9c38402a4ef471da all
step 573
finish 575
begin 3 put 00000000000000000000000000000000000000000000000069 0=0069
step 576
step 580
step 580
step 573
begin 1 put 108756764d7341a6 0=41a6
step 573
begin 2 get 0000000000000000686471 all
step 573
step 583
step 583
step 583
step 581
finish 582
begin 3 get f71de97f2fc4a423 all
begin 1 remove 2596bd19d8b16bb0
finish 573
step 585
begin 2 get 49ca07cafe1c13e6 all
finish 585
step 580
step 580
step 580
step 580
step 580
step 580
step 581
step 586
step 586
step 586
finish 586
finish 576
begin 3 put 636174616c6f672f636174616c6f672f636174616c6f672f626b76 0=6b76
begin 1 get 2ebc0a3cf47a4897 all
begin 2 put 2ebc0a3cf47a4897 0=4897
step 588
step 588
step 588
step 584
step 583
step 583
step 588
step 580
step 580
finish 581
step 583
step 583
step 583
step 583
step 583
step 583
step 580
step 580
step 580
step 580
step 580
step 580
step 589
step 584
step 584
step 583
step 583
step 583
step 580
finish 584
step 589
begin 3 put d2300447e5dc0763 1=d2
step 583
step 583
step 589
step 587
finish 580
step 583
step 583
step 583
step 583
step 583
step 583
begin 1 put 00000000000000000000000000000000 0=0000
begin 2 put 577f2c202a3db4c2 0=b4c2
step 588
step 591
finish 590
begin 3 get 7770791c06998f46 all
finish 592
step 593
step 593
step 593
step 593
step 593
step 593
finish 593
begin 1 get 636174616c6f672f636174616c6f672f636174616c6f672f6e62 all
step 583
step 583
begin 2 put 8182fcf31a0ebec8 0=bec8
finish 591
begin 3 put f5fa653d43a750f6 0=50f6
step 583
step 594
step 594
step 594
finish 588
step 587
finish 587
step 594
finish 596
step 594
finish 589
begin 1 put 4f0d4fb49dba0b85 0=0b85
step 595
step 595
begin 2 put f71de97f2fc4a423 0=a423
step 583
step 598
finish 597
begin 3 put 73657373696f6e2f796e706572666f7a7163 0=7163
begin 1 put a2b49c1e34a9062e 0=062e
finish 583
finish 595
step 599
finish 599
begin 2 put 0c562bb7dabc1b3d 0=1b3d
begin 3 put 6fc7ec2f92ed97a8 1=6f
begin 1 get 4659afef24153403 all
step 600
step 603
step 603
step 603
step 603
finish 603
step 600
finish 600
step 598
step 598
finish 601
step 598
step 602
begin 2 put 8b04bfa7da59ed21 0=ed21
step 602
step 598
step 598
step 598
step 598
step 598
step 598
step 598
step 598
step 598
step 598
step 598
step 598
step 598
step 598
step 598
step 598
step 598
step 598
step 598
step 598
step 598
step 598
step 594
step 594
step 598
step 598
step 598
step 598
begin 3 put ae78f058f1c581dd 0=81dd
finish 604
step 598
step 598
step 602
step 594
step 594
step 594
step 594
step 594
step 594
step 598
step 598
step 598
step 598
step 602
step 605
step 605
step 594
begin 1 get 571c3d7033d60488 all
step 602
step 602
step 602
step 602
step 602
step 602
step 602
step 602
step 602
step 602
step 602
step 602
step 602
step 602
step 602
step 602
step 602
step 602
step 602
step 602
step 602
step 602
step 606
step 606
step 606
step 606
begin 2 put 260df281c04f5056 0=5056
finish 607
step 594
step 594
step 594
step 598
finish 606
step 598
step 594
step 598
step 598
begin 3 get 73657373696f6e2f73657373696f6e2f73657373696f6e2f726b6469656e all
step 602
step 602
step 602
step 602
finish 608
step 605
finish 605
finish 602
finish 608
step 598
step 598
finish 598
begin 1 put 66a2aba8da2ffbcf 0=fbcf
begin 2 put 974498adf0849fab 0=9fab
step 609
finish 609
begin 3 put 6efea3512afcd8d0 0=d8d0
begin 1 put 13e5ff255543e892 0=e892
finish 610
step 611
step 612
step 611
finish 611
step 612
begin 2 put f06c0523ae075b8e 0=5b8e
begin 3 put 6053b3164b9ab286 0=b286
step 612
step 612
finish 594
begin 1 get e422ce9c45485b67 all
step 614
finish 612
begin 2 put 00000000000000000000000000000000000000000000000061716d6f 0=6d6f
step 614
finish 614
begin 3 get 636174616c6f672f7a69756a627662646d726574 all
finish 613
begin 1 put 636174616c6f672f636174616c6f672f6a786872746b726b 0=726b
begin 2 remove 4c25d19682812588
begin 3 put 8b13932a9b50ef8e 0=ef8e
begin 1 get 33e86784b05795e8 all
finish 620
finish 615
begin 2 put 636174616c6f672f7865 0=7865
finish 618
step 622
begin 3 put 193e3ad29af0effe 0=effe
step 619
step 619
begin 1 put 0000000000000000726d 0=726d
step 617
step 617
step 617
step 617
finish 624
finish 621
begin 2 remove 000000000000000000000000000000000000000000000000796f6a746d62
step 625
begin 3 get 636174616c6f672f636174616c6f672f68 all
step 623
finish 623
step 617
step 617
step 617
step 617
step 617
step 617
step 616
step 616
begin 1 put 0000000000000000000000000000000000000000000000007a746a766e65626e71647071 0=7071
step 627
step 622
finish 622
step 617
step 617
step 617
step 617
step 617
finish 625
step 619
finish 627
step 617
begin 2 put c924dbe2d9d53f71 0=3f71
step 617
begin 3 put 21a3e828bf1dea3d 1=21
begin 1 put 81919c83533c0b88 0=0b88
step 628
step 617
step 617
step 617
step 617
step 617
step 617
step 617
step 617
finish 617
step 619
step 630
step 628
begin 2 get 0000000000000000726d all
step 629
finish 629
step 619
step 619
step 619
step 619
step 619
step 619
step 619
step 619
step 619
step 619
step 619
begin 3 get 14d1525abf9ace8d all
step 628
step 619
step 628
finish 631
begin 1 put 820ebb5fc7ea7001 0=7001
finish 630
step 632
step 628
step 628
step 628
step 628
step 628
step 628
step 628
step 628
step 628
step 628
step 628
step 628
step 628
step 628
finish 616
step 619
finish 619
step 632
begin 2 put 609a0d7cc7322d16 0=2d16
step 632
finish 632
begin 3 put 77e9339cb090c787 0=c787
finish 633
begin 1 get 0000000000000000000000000000000062636e6e7a6a707766 all
finish 619
step 634
step 628
step 636
step 636
step 636
step 636
step 636
step 636
step 628
finish 628
step 634
finish 634
step 635
begin 2 put abe54e8cdd5054cf 0=54cf
finish 626
begin 3 put bb188960618724f6 0=24f6
begin 1 put df5858293a9601a1 0=01a1
finish 635
finish 637
step 636
step 639
step 636
step 636
step 636
step 636
step 636
step 636
finish 638
step 636
step 636
step 636
begin 2 get 963301156c69cf28 all
begin 3 get b74ef6371ecfc2e0 all
step 641
finish 640
step 641
begin 1 put 8940264d1645743c 0=743c
finish 639
step 641
begin 2 get b976c928f0a169e0 all
begin 3 remove 73657373696f6e2f6161
step 643
step 644
begin 1 put 3dd09254d6f11558 0=1558
finish 641
finish 642
finish 643
finish 636
step 645
finish 645
begin 2 put b1e9a0e0fc00993c 0=993c
step 646
step 644
begin 3 get a292ec2f4a4a66a0 all
begin 1 put 941a0e72507092d1 0=92d1
finish 644
step 646
step 647
step 646
begin 2 get 000000000000000000000000000000006170766a7276 all
finish 646
begin 3 range 000000000000000000000000000000006f6c 2 0
finish 648
step 650
finish 649
begin 1 get e5809f7e3c3b528b all
begin 2 put 636174616c6f672f636174616c6f672f636174616c6f672f6d74746c63626a74736c6f 1=63
step 652
step 650
step 650
step 650
step 650
step 652
finish 651
begin 3 put 43bcf31b91e2cf9a 0=cf9a
finish 653
step 652
begin 1 put 000000000000000000000000000000000000000000000000766172667076647766 0=7766
step 652
step 652
step 652
step 652
step 652
step 652
step 652
step 652
step 652
step 652
step 652
step 652
step 652
step 654
finish 654
step 650
step 650
step 647
step 647
begin 2 put e73000ab3e9a1b1e 0=1b1e
finish 650
finish 647
step 655
begin 3 put 58778bb1a57281e0 0=81e0
finish 655
step 656
begin 1 get ec14733c08442572 all
begin 2 put 636174616c6f672f636174616c6f672f766b73617863737a6869646e 0=646e
finish 658
begin 3 get 58778bb1a57281e0 all
begin 1 put 73657373696f6e2f6762787678626d6a70 0=6a70
finish 660
step 657
finish 657
begin 2 put 8949fd907ae30876 0=0876
step 656
finish 656
begin 3 get 21a3e828bf1dea3d all
step 659
step 659
step 662
step 662
step 659
step 659
finish 659
begin 1 put 000000000000000074657978776f676a687a62 0=7a62
step 663
begin 2 get cfcdf5c8c3948dee all
finish 662
step 652
begin 3 put 73657373696f6e2f697069776e7571697666 0=7666
step 665
begin 1 remove 88b2d59c8e21a912
step 665
finish 664
begin 2 put 1fc6bf90caec3222 0=3222
step 667
step 667
begin 3 put 593d8baafde69e02 1=59
step 667
finish 667
finish 661
finish 668
step 663
begin 1 put e422ce9c45485b67 0=5b67
step 669
begin 2 put 0000000000000000716b78696a7a7875617370 0=7370
step 663
step 663
step 663
step 663
step 663
step 663
step 663
step 663
step 663
step 663
step 663
step 663
step 663
step 663
step 663
step 663
step 663
step 663
begin 3 put 963301156c69cf28 0=cf28
step 669
step 669
step 669
step 670
finish 670
finish 652
step 669
step 669
step 669
step 669
step 669
step 669
step 669
step 669
step 669
step 669
step 669
step 669
step 671
begin 1 get f8e9a376e0883588 all
begin 2 put 636174616c6f672f636174616c6f672f637769 0=7769
step 673
finish 673
step 665
step 666
begin 3 put 11d1c70e1acab4cc 0=b4cc
step 672
step 672
step 671
finish 671
begin 1 put 73657373696f6e2f727a63716c7a6a74 0=6a74
step 666
step 663
finish 663
step 672
step 672
step 672
begin 2 get 0000000000000000716b78696a7a7875617370 all
finish 669
step 665
step 665
step 665
step 665
step 665
step 665
step 665
step 665
step 665
step 665
step 665
step 665
step 665
finish 672
step 665
step 675
step 665
step 674
step 676
step 676
finish 676
step 675
finish 675
begin 3 get 577f2c202a3db4c2 all
step 674
step 665
step 665
step 665
step 665
step 665
step 665
step 665
step 665
step 665
step 665
step 665
step 665
step 665
step 665
step 665
step 665
step 665
step 665
finish 665
step 674
step 677
step 677
step 677
step 677
finish 677
step 674
finish 674
begin 1 get 365d0713b133e2d0 all
finish 666
finish 678
begin 2 put 636174616c6f672f636174616c6f672f796e6669697871 0=7871
begin 3 put 11800c81dbfc161f 0=161f
begin 1 put 8c9b0331139d9e74 0=9e74
begin 2 put 636174616c6f672f636174616c6f672f78 0=2f78
step 681
begin 3 get 40d68c37c6326f7a all
step 679
step 680
finish 681
step 682
step 683
finish 683
begin 1 remove 636174616c6f672f636174616c6f672f636174616c6f672f6e62
step 680
step 682
step 684
finish 680
step 684
step 682
step 682
step 682
step 682
step 682
step 682
step 682
step 682
step 682
step 682
step 682
step 682
step 682
step 682
step 682
begin 2 put 73657373696f6e2f73657373696f6e2f73657373696f6e2f746172766c6b6f6b7368646f 0=646f
step 682
finish 679
begin 3 put 0d637006500c459f 0=459f
begin 1 get 878431439b26fd14 all
finish 682
finish 684
step 686
finish 686
begin 2 put 15c807f31e0e7eaa 0=7eaa
step 688
finish 687
begin 3 remove 15c807f31e0e7eaa
begin 1 put e3bc2e1b53e1eeeb 0=eeeb
begin 2 get 4080e2aa05f17a0b all
step 689
finish 689
finish 691
begin 3 put 73657373696f6e2f73657373696f6e2f73657373696f6e2f 0=6e2f
step 685
step 690
step 688
finish 688
begin 1 put 6bce54d839844887 0=4887
step 693
finish 693
begin 2 put 73657373696f6e2f73657373696f6e2f7978646a696c777270726a 0=726a
begin 3 put 67a05d7a9d948735 0=8735
step 694
finish 685
step 692
begin 1 put 000000000000000000000000000000000000000000000000756f7a71656568727565 1=00
begin 2 put 636174616c6f672f636174616c6f672f65 0=2f65
begin 3 put 41c52e7d4deea8eb 0=a8eb
step 696
step 696
step 690
step 696
step 692
step 692
step 690
step 694
step 692
step 692
step 692
step 692
step 692
step 692
step 692
step 692
step 692
step 692
step 692
step 692
step 692
step 695
step 695
step 698
step 695
finish 694
step 695
step 695
step 695
step 695
step 695
step 695
step 695
step 695
step 695
step 695
step 695
step 695
step 695
step 695
step 695
step 695
step 696
step 696
step 696
step 696
step 696
step 696
step 696
step 696
step 696
step 696
step 696
step 696
step 696
step 696
step 696
step 696
step 696
step 696
begin 1 put 6fc7ec2f92ed97a8 0=97a8
finish 697
step 698
step 692
finish 692
begin 2 get 636174616c6f672f6b7964656a7a all
step 700
step 699
finish 699
step 698
finish 690
begin 3 put 636174616c6f672f636174616c6f672f666273727772667078 0=7078
begin 1 put 59fb2df02326c11e 0=c11e
step 700
step 700
step 700
step 698
finish 695
finish 697
finish 701
finish 700
step 702
finish 702
step 696
begin 2 get 2056616419ed7689 all
begin 3 put 00000000000000007775636c6a6f786d636b 0=636b
begin 1 get 00000000000000000000000000000000000000000000000061716d6f all
step 703
step 703
step 703
step 703
step 703
step 703
begin 2 put 551ce72d0c920f82 0=0f82
finish 705
begin 3 put 636174616c6f672f636174616c6f672f636174616c6f672f 1=63
step 698
step 698
step 698
step 698
step 698
step 698
step 698
step 698
step 698
step 698
step 698
step 698
step 698
step 698
finish 698
step 696
step 706
step 706
finish 707
begin 1 get fb68f9c8ad052208 all
begin 2 get 636174616c6f672f636174616c6f672f636174616c6f672f67 all
begin 3 put 636174616c6f672f636174616c6f672f7177646c 0=646c
step 703
step 703
step 703
step 703
step 704
step 708
step 706
step 704
finish 704
step 706
step 706
step 706
step 706
step 706
step 706
step 706
step 706
step 706
step 706
step 706
step 706
step 706
step 706
step 706
step 706
step 706
step 703
step 703
finish 703
finish 710
step 708
step 706
begin 1 get 636174616c6f672f636174616c6f672f726e6c74797577686274 all
finish 711
step 709
step 709
step 709
step 709
step 709
step 709
finish 709
begin 2 get f84dd9a51425cab5 all
begin 3 put 73657373696f6e2f73657373696f6e2f73657373696f6e2f 0=6e2f
begin 1 get 636174616c6f672f7a62656b746a74 all
begin 2 put 9663cf55bd663423 0=3423
step 706
finish 696
finish 708
step 713
finish 713
step 712
finish 715
step 706
finish 706
begin 3 put f5de35b7c75f02d6 0=02d6
begin 1 get b1843df9f27eeea7 all
finish 717
begin 2 get 636174616c6f672f all
step 714
step 718
step 712
finish 714
begin 3 get 855d0625a0388294 all
step 719
begin 1 put 49f26f18f7830137 0=0137
begin 2 put 9cdb3153fb269e32 0=9e32
begin 3 put 5820b9321b291a46 0=1a46
step 721
finish 719
finish 721
step 722
step 720
finish 720
step 718
step 718
step 718
step 718
step 718
step 718
begin 1 put 73657373696f6e2f73657373696f6e2f73657373696f6e2f6674 0=6674
step 723
step 716
begin 2 put 73657373696f6e2f616f6261726b6c736d766771 0=6771
step 724
begin 3 put b1121abf8e24f266 0=f266
step 724
finish 716
step 725
step 724
step 722
finish 723
begin 1 put 0000000000000000000000000000000000000000000000006562746d63726772657372 1=00
step 724
step 724
step 724
step 724
step 724
step 724
step 724
step 724
step 724
step 724
step 724
step 724
step 724
step 725
begin 2 get 00000000000000006165 all
step 724
step 727
finish 727
begin 3 put 0c4a43de6e022bb8 0=2bb8
step 724
step 725
step 728
step 724
step 724
step 724
step 724
step 724
step 724
step 724
step 724
step 724
step 724
step 724
step 724
step 724
step 724
step 724
step 724
step 724
step 725
step 726
finish 728
begin 1 get 5357fc2998fe2a2a all
step 718
step 726
finish 722
begin 2 put 7a3c81bd2d9fac6b 0=ac6b
finish 725
step 718
step 730
finish 730
step 718
finish 718
step 726
begin 3 get 73657373696f6e2f all
finish 726
finish 724
begin 1 put 000000000000000000000000000000000000000000000000726f6978746b676162736173 0=6173
step 732
finish 729
step 731
step 731
step 731
begin 2 put 9e831ad586653c74 0=3c74
begin 3 remove 73657373696f6e2f73657373696f6e2f62646b69736275706a7a61
begin 1 put 5e37b8be9abbee94 0=ee94
step 732
step 732
begin 2 get 1f5738764a08e03b all
step 736
step 736
step 736
step 736
step 736
step 736
step 731
finish 731
finish 732
step 733
step 712
step 712
step 712
step 712
step 712
step 712
step 712
begin 3 put 7ef2cdbaa9e991f4 0=91f4
begin 1 put 73657373696f6e2f7962777a656a7678627172 1=73
step 736
step 736
step 733
step 712
finish 712
begin 2 get feefa64ce9cc210c all
step 733
step 738
finish 735
finish 739
step 737
finish 737
step 733
finish 734
begin 3 put 57e9e2f74e5b6167 0=6167
finish 738
step 733
step 733
step 733
step 733
step 733
step 733
step 733
step 733
step 733
step 733
step 733
step 733
step 733
step 733
step 733
step 733
step 733
step 733
step 733
begin 1 remove 59420f81a6039cf8
step 736
step 741
finish 740
step 741
begin 2 remove 00000000000000000000000000000000000000000000000061
step 741
begin 3 put 000000000000000000000000000000000000000000000000766172667076647766 1=00
step 743
finish 743
step 742
step 736
step 742
finish 741
begin 1 get f7d6d91a5aed3d1a all
step 744
step 744
step 744
finish 744
step 733
step 736
finish 733
begin 2 put 88b2d59c8e21a912 0=a912
begin 3 remove 0945aea11b6c3f26
step 736
step 746
begin 1 put 73657373696f6e2f656966706e656d76 0=6d76
step 745
step 747
step 742
begin 2 put 636174616c6f672f636174616c6f672f636174616c6f672f71756d 0=756d
step 745
step 742
step 742
step 742
step 742
step 742
step 742
step 742
step 742
step 742
step 742
step 742
step 742
step 742
step 742
step 742
step 742
step 742
step 742
step 742
step 742
finish 742
step 746
step 746
begin 3 put 3c5643c75226c396 0=c396
begin 1 put c0f800d98db12562 0=2562
step 750
step 736
step 746
finish 748
begin 2 put de76c7c338ad20a6 0=20a6
step 751
step 745
step 751
step 750
step 745
step 750
step 750
step 747
step 750
step 750
step 750
step 750
step 750
step 750
step 750
step 750
step 750
step 750
step 750
step 750
step 750
step 750
step 750
step 750
step 747
step 749
step 751
finish 749
finish 746
step 751
begin 3 get 8b13932a9b50ef8e all
finish 751
step 750
begin 1 put 6d7ab07b9307b1c9 0=b1c9
finish 753
step 752
step 736
step 745
step 745
step 745
step 745
step 745
step 745
step 745
step 745
step 745
step 745
step 745
step 745
step 745
step 745
step 745
step 745
step 745
step 752
step 752
step 752
step 752
step 752
step 752
step 747
step 747
step 747
step 747
step 747
step 747
step 747
step 747
step 747
step 747
step 747
step 747
step 747
finish 745
step 736
step 736
step 736
begin 2 put 57418f2dea08634e 0=634e
begin 3 get 29697c1167302a61 all
begin 1 put 636174616c6f672f636174616c6f672f6e6b686961626d6b6a67 0=6a67
finish 754
begin 2 get 6fc7ec2f92ed97a8 all
step 747
step 736
step 757
step 755
step 747
finish 747
finish 752
finish 736
finish 757
finish 755
step 750
begin 3 get 0000000000000000000000000000000000000000000000006d67 all
step 750
step 750
begin 1 put 00000000000000000000000000000000666b6862 0=6862
step 756
begin 2 put 636174616c6f672f636174616c6f672f636174616c6f672f70 0=2f70
step 758
step 758
step 758
step 758
step 758
step 758
step 758
step 758
step 758
begin 3 put 6c8eb23a1a29b847 0=b847
step 761
step 759
begin 1 put 636174616c6f672f636174616c6f672f636174616c6f672f78796275746f686e7164 0=7164
step 750
finish 756
step 759
finish 759
step 750
begin 2 put 000000000000000000000000000000000000000000000000 0=0000
begin 3 put c0e2eb24d967eda7 0=eda7
step 764
step 761
finish 761
step 750
begin 1 get 01fe62529e38a31c all
step 763
step 760
step 762
step 765
step 765
step 762
finish 765
step 762
step 750
step 760
begin 2 put 53ee028e2dac8097 0=8097
step 763
finish 763
step 762
step 762
step 762
step 762
step 762
step 762
step 762
step 762
step 762
step 762
step 762
step 762
step 762
step 762
step 762
finish 762
begin 3 put 2f778dea989e7c28 0=7c28
step 767
begin 1 put eb8f2bdb240cc908 0=c908
step 767
finish 767
begin 2 get aed5d3a184d6eb9c all
finish 760
step 768
finish 750
begin 3 put 76c7a618cb0377f3 0=77f3
step 758
step 758
step 766
finish 769
begin 1 put 00000000000000000000000000000000000000000000000067706e72 0=6e72
begin 2 put 73657373696f6e2f73657373696f6e2f73657373696f6e2f656a 0=656a
step 772
step 772
step 764
step 772
step 768
step 764
finish 770
step 758
step 758
step 758
step 758
step 758
step 758
finish 758
finish 771
step 768
finish 768
begin 3 put 1ac0a8f8a8375c4e 1=1a
step 764
begin 1 put 1611998c4f1055aa 1=16
begin 2 put 000000000000000000000000000000006a64716c7872666778 1=00
step 764
step 764
step 764
step 764
step 764
step 764
step 764
step 764
step 764
step 764
step 764
step 764
step 764
step 764
step 764
step 764
step 764
step 775
begin 3 get 6c3c9004773235ff all
step 776
step 776
step 776
step 776
step 776
step 776
finish 773
step 766
begin 1 put 73657373696f6e2f73657373696f6e2f73657373696f6e2f616b76 0=6b76
step 766
step 777
step 774
step 772
step 772
step 772
step 772
step 772
step 772
step 772
step 772
step 772
step 772
step 772
step 772
step 772
step 772
step 774
finish 775
finish 774
step 766
step 764
step 772
step 776
step 776
begin 2 put 636174616c6f672f636174616c6f672f61 0=2f61
step 764
step 777
begin 3 put 8fa1ff26708f0c9c 0=0c9c
step 766
step 766
step 766
step 766
step 766
step 766
step 766
step 766
step 766
step 766
step 766
step 766
step 766
step 766
step 766
step 766
step 766
step 766
step 764
finish 764
step 766
step 778
finish 778
finish 772
finish 766
step 776
finish 776
step 777
begin 1 get 8681c8ba2989356b all
begin 2 range 81919c83533c0b88 1 0
begin 3 put 636174616c6f672f69756a666b6166 0=6166
begin 1 put 602771804861cb9a 0=cb9a
step 781
step 781
step 780
step 780
step 780
step 780
step 780
step 780
begin 2 get 73657373696f6e2f73657373696f6e2f73657373696f6e2f74657a63746873616c627a67 all
step 782
step 779
step 777
step 777
step 777
step 777
step 777
step 777
step 777
step 777
step 777
step 777
step 777
step 777
step 777
step 777
step 784
finish 784
begin 3 get e1938b0a7e0c2855 all
step 780
step 780
step 780
step 780
finish 780
step 779
begin 1 get 73657373696f6e2f73657373696f6e2f73657373696f6e2f71 all
step 785
step 785
step 785
step 785
step 785
finish 785
step 779
finish 782
step 786
step 786
step 786
step 786
step 786
step 786
step 786
step 786
step 786
begin 2 put 506e7d667a921443 0=1443
finish 786
step 777
step 781
step 779
step 787
finish 781
begin 3 get 636174616c6f672f636174616c6f672f636174616c6f672f7262726b all
step 787
step 779
step 779
step 779
step 779
step 779
step 779
step 779
step 779
step 779
step 779
step 779
step 779
step 779
step 779
step 779
step 779
step 779
step 779
step 779
step 779
step 779
step 779
finish 779
step 788
step 788
finish 788
step 787
step 787
finish 787
begin 1 put 3b5cf6e0ef81460b 0=460b
begin 2 get 00000000000000000000000000000000000000000000000069 all
step 777
finish 777
step 783
finish 783
begin 3 put eb60b7d2ffd07b4d 0=7b4d
finish 789
begin 1 put 01fe62529e38a31c 0=a31c
step 790
step 790
step 790
step 790
begin 2 put 73657373696f6e2f73657373696f6e2f73657373696f6e2f70646f637679666e6c7375 0=7375
step 792
finish 792
step 793
finish 793
step 791
begin 3 get 73657373696f6e2f6762787678626d6a70 all
begin 1 put a04871c605bd37ef 0=37ef
begin 2 put 636174616c6f672f656a6a676c6867676d 0=676d
step 791
step 794
step 795
step 794
step 794
step 791
finish 794
begin 3 range 74d518810579e1ad 1 0
step 797
step 797
begin 1 put d28295a8573fd523 0=d523
begin 2 put 2056616419ed7689 0=7689
step 795
finish 791
begin 3 get 6d7ab07b9307b1c9 all
step 795
finish 800
step 790
step 797
step 798
begin 1 get f490b52385cc6ee6 all
finish 795
begin 2 get 8c773c30e4ddab79 all
step 796
step 799
finish 801
begin 3 get 38ee74404f01c01a all
finish 799
begin 1 put 0f374184f3dc8256 0=8256
step 803
step 803
step 803
step 798
step 796
step 798
step 797
step 798
step 803
step 803
finish 803
step 804
step 797
step 797
step 797
step 797
step 797
step 797
step 797
step 797
step 797
step 797
step 797
step 797
step 797
step 797
step 797
step 797
step 797
step 797
step 797
step 797
finish 797
step 804
step 802
step 797
step 802
step 802
step 802
step 802
step 802
step 802
step 797
begin 2 put a7483f891361bdc8 0=bdc8
step 790
step 790
finish 790
finish 790
finish 802
begin 3 put fa6c2e8d20516d98 0=6d98
finish 797
step 806
begin 1 put b158360ee3bc6c33 0=6c33
step 798
step 798
step 798
step 798
step 798
step 798
step 798
step 798
step 798
step 798
step 798
step 798
step 798
step 805
step 804
begin 2 put 73657373696f6e2f626a766e6c6b64727069726d 0=726d
step 796
step 808
finish 798
step 808
step 808
step 808
step 808
step 808
step 808
step 808
step 808
step 808
step 808
step 808
step 808
step 808
step 808
step 808
step 808
step 807
finish 807
begin 3 put 000000000000000071756a65 0=6a65
begin 1 put a04eb246376f0cb5 0=0cb5
step 810
step 809
finish 809
step 806
step 796
step 796
step 796
step 796
step 796
step 796
step 796
step 796
step 796
step 796
step 796
step 796
step 796
step 796
step 796
finish 796
step 804
finish 804
finish 810
finish 808
begin 2 get e081505b043e9012 all
begin 3 get 57e9e2f74e5b6167 all
finish 806
begin 1 put 73657373696f6e2f73657373696f6e2f656b757479 1=73
step 805
finish 813
begin 2 put df5858293a9601a1 1=df
step 811
finish 812
begin 3 range f47bfffae55f3c02 7 0
step 811
step 811
step 811
step 811
step 815
step 815
step 815
step 815
step 815
step 815
begin 1 remove b799925486746b4c
step 805
begin 2 put 676e75a1d837e8a1 0=e8a1
step 805
begin 3 put e5f9015b609fcf30 0=cf30
step 814
step 811
finish 818
finish 811
finish 805
step 814
step 817
step 815
step 815
finish 817
begin 1 range 636174616c6f672f636174616c6f672f636174616c6f672f67 7 0
step 819
step 819
step 819
step 819
step 819
begin 2 get 55b243801f32a205 all
step 819
step 819
step 819
step 819
begin 3 put e5809f7e3c3b528b 0=528b
begin 1 put 73657373696f6e2f73657373696f6e2f65 0=2f65
step 816
step 819
step 819
step 819
finish 820
step 816
finish 819
finish 821
step 814
step 822
step 814
step 822
step 822
step 814
step 814
step 814
step 814
step 814
step 814
step 814
step 814
step 814
step 814
step 814
step 814
step 814
step 814
step 814
step 814
step 814
step 814
step 816
step 815
step 815
step 815
step 815
begin 2 put 954f0e2b954d1b6c 0=1b6c
begin 3 get eea6ec3fa6f0c337 all
begin 1 put 000000000000000077667063626b6e7a74786b6f 1=00
step 825
step 823
finish 825
begin 2 get 263440a3f2e6d26a all
step 814
step 823
finish 824
finish 822
step 823
begin 3 put e57ec8c694972afc 0=2afc
step 815
step 815
step 815
step 815
step 815
step 815
step 815
step 815
step 815
step 815
step 815
step 815
step 815
finish 814
begin 1 put 4659afef24153403 0=3403
begin 2 get 636174616c6f672f636174616c6f672f636174616c6f672f6f766669626671746868 all
step 823
finish 823
begin 3 put 67336d22b41cae4f 0=ae4f
finish 828
step 815
finish 827
begin 1 put 636174616c6f672f6b766b7764717a6d6573 1=63
step 831
finish 831
begin 2 put 1f919bab46a5f7de 0=f7de
step 829
step 829
step 826
step 826
step 826
step 816
finish 816
finish 815
step 826
step 826
step 826
begin 3 range 8fdc21e161657786 2 0
step 832
finish 832
step 830
finish 830
begin 1 put 211719c7efa38554 0=8554
finish 826
finish 826
begin 2 get 636174616c6f672f77636e696d6e626c767768 all
begin 3 put 8606cf37ee43ddbf 0=ddbf
begin 1 get 3d40dbb0723b1a63 all
step 833
finish 833
step 837
step 837
step 837
step 836
begin 2 put f944adf16fbc9870 0=9870
finish 837
step 829
finish 834
finish 836
step 838
begin 3 put b03b7b9b6c6bcbff 0=cbff
step 829
step 829
step 829
begin 1 put 2a99ebc9289d6fac 0=6fac
step 840
begin 2 put e6dbfb897492db7e 0=db7e
begin 3 put 74d518810579e1ad 0=e1ad
step 841
step 835
step 835
step 835
step 835
step 835
step 835
step 829
step 829
step 829
step 829
step 829
step 829
finish 829
finish 838
step 839
step 835
finish 839
step 841
step 841
step 841
step 842
finish 842
step 835
step 835
step 835
step 835
begin 1 get b7869dcd20ba071f all
finish 835
step 840
begin 2 put 0000000000000000737964786e6e696a796f6b72 0=6b72
begin 3 put 73657373696f6e2f73657373696f6e2f726561686e68646c636b6d72 0=6d72
step 840
step 840
begin 1 put 1f5738764a08e03b 0=e03b
step 843
step 843
step 843
begin 2 put af0c092c1792df2d 0=df2d
step 840
step 840
step 840
step 840
step 840
step 840
step 840
step 840
step 840
step 840
step 840
step 840
step 840
finish 847
finish 843
step 845
begin 3 put 4080e2aa05f17a0b 1=40
step 848
step 848
step 841
step 841
step 841
step 841
step 841
step 841
step 841
step 841
step 841
step 841
step 841
step 841
step 841
step 841
step 841
step 841
step 841
step 841
step 841
step 845
step 846
finish 846
step 848
finish 845
begin 1 put 0000000000000000737964786e6e696a796f6b72 1=00
step 848
step 841
step 841
finish 849
step 841
step 848
step 848
step 848
step 848
step 848
step 848
step 848
step 848
step 848
step 848
step 848
step 848
step 848
step 848
step 848
step 848
finish 840
begin 2 get 73657373696f6e2f73657373696f6e2f73657373696f6e2f68656f6a7161776a6963 all
step 841
finish 841
begin 3 put 73657373696f6e2f73657373696f6e2f73657373696f6e2f6f716c756e6e757a7565 0=7565
step 848
step 844
step 848
step 848
step 851
finish 848
begin 1 remove 0c6c2ea97a16f975
begin 2 put 9d6638f84e795cd4 1=9d
begin 3 put aacfa4eaacda6177 0=6177
begin 1 put 636174616c6f672f636174616c6f672f636174616c6f672f6d74746c63626a74736c6f 0=6c6f
finish 854
step 853
begin 2 put 636174616c6f672f636174616c6f672f636174616c6f672f 0=672f
step 852
step 852
step 851
step 856
finish 856
step 844
begin 3 get a35138c8d45dfa0d all
finish 844
begin 1 range 3e533c0a174ff987 1 0
step 857
step 857
step 858
finish 857
step 851
finish 851
step 852
finish 852
finish 855
begin 2 get 73657373696f6e2f73657373696f6e2f716267776478 all
begin 3 get d28295a8573fd523 all
begin 1 put e2754b27035cdf47 0=df47
finish 850
step 860
begin 2 put 73657373696f6e2f73657373696f6e2f73657373696f6e2f6164746b636973656d 1=73
step 853
finish 861
begin 3 get 9d221faa6592fa48 all
finish 860
step 859
step 859
step 863
step 863
finish 863
begin 1 remove 193e3ad29af0effe
step 859
step 859
begin 2 put 0347bab34b0975dd 0=75dd
step 859
step 859
step 864
step 865
step 862
step 865
finish 853
finish 864
step 862
finish 859
step 862
begin 3 get 000000000000000000000000000000000000000000000000646474777571787267707367 all
step 866
step 866
begin 1 put 73657373696f6e2f73657373696f6e2f73657373696f6e2f 0=6e2f
step 866
step 866
step 858
step 858
step 858
step 858
step 858
step 867
finish 867
step 866
step 866
step 858
step 858
step 858
step 858
step 858
step 858
step 858
step 858
step 858
step 858
step 858
step 858
step 858
step 858
step 858
step 858
step 858
step 858
step 858
step 858
finish 858
begin 2 put 04f3a73e1ad173a9 0=73a9
step 866
step 866
step 866
step 866
step 858
begin 3 put 636174616c6f672f636174616c6f672f7777656e676a7475 0=7475
step 865
finish 866
begin 1 remove 8949fd907ae30876
step 858
step 869
finish 862
step 869
step 869
begin 2 put 66b9a40cc6a89289 0=9289
begin 3 range f0a719a3a8c43509 20 0
step 871
step 858
step 868
step 869
step 869
step 869
step 869
step 869
step 869
step 869
step 869
step 869
step 869
step 869
step 869
step 869
step 869
step 869
step 869
step 869
finish 869
begin 1 get 1f919bab46a5f7de all
step 873
finish 873
begin 2 put cbbcac31223563d5 0=63d5
step 872
step 872
step 872
step 872
step 872
step 872
step 870
step 872
step 872
step 872
step 872
finish 872
step 874
step 858
step 871
step 865
finish 865
step 871
begin 3 get 7a020e589457e0fa all
step 871
begin 1 put aefab95bf827d9bc 1=ae
step 874
finish 874
step 868
step 876
step 876
step 876
step 876
finish 876
step 871
step 871
step 871
step 871
step 871
step 871
step 871
step 871
step 871
step 871
step 871
step 871
step 871
step 871
step 871
finish 871
step 858
finish 868
begin 2 put 636174616c6f672f6a 0=2f6a
finish 875
begin 3 get 9d6638f84e795cd4 all
finish 878
step 858
begin 1 put 4b1d873ab41f020c 0=020c
finish 858
finish 879
step 870
begin 2 remove e299ac6b2ccb6de8
begin 3 put cfcdf5c8c3948dee 0=8dee
begin 1 get 5e37b8be9abbee94 all
step 881
begin 2 put aa6b9b04b17e5992 1=aa
step 880
begin 3 remove 023c08be8d9de5d4
step 870
finish 883
finish 877
finish 882
step 884
step 870
step 870
step 870
step 870
step 870
step 870
step 870
step 870
step 870
step 870
step 870
step 870
begin 1 put 73657373696f6e2f76776c73637479686972 1=73
begin 2 put 636174616c6f672f6d636e666c77 0=6c77
finish 885
step 886
step 884
step 884
step 880
step 884
begin 3 put 0000000000000000686471 0=6471
begin 1 put 636174616c6f672f757075666864647870736d 0=736d
step 887
finish 888
step 884
step 884
step 884
step 884
step 884
step 884
step 884
step 884
step 884
step 884
step 884
step 884
step 884
begin 2 get 73657373696f6e2f73657373696f6e2f73657373696f6e2f all
finish 881
step 880
finish 886
step 887
finish 884
begin 3 put 855d0625a0388294 0=8294
step 887
begin 1 put 636174616c6f672f636174616c6f672f 0=672f
finish 870
step 880
step 889
step 889
begin 2 get 5f461e557dc93328 all
step 890
begin 3 put a67c7319e5a1df31 0=df31
finish 880
step 890
step 890
step 893
finish 890
finish 892
step 891
step 887
step 887
step 887
step 887
step 887
step 887
step 887
step 887
step 887
step 887
step 887
step 887
step 887
finish 889
step 893
begin 1 put 73657373696f6e2f73657373696f6e2f 0=6e2f
begin 2 put 284ddfc0ee362c41 1=28
step 887
finish 887
finish 891
finish 895
step 894
begin 3 put 023c08be8d9de5d4 0=e5d4
step 893
step 894
begin 1 put 8f051ed5b12dca38 0=ca38
finish 893
step 894
begin 2 get c66491bb53f0ec80 all
step 897
begin 3 put f0a719a3a8c43509 0=3509
step 899
begin 1 put 636174616c6f672f63627961746273 0=6273
step 898
step 900
finish 900
finish 897
finish 898
step 896
begin 2 put 8255f6e65eb80e73 0=0e73
step 894
step 894
step 894
step 894
step 894
step 894
step 894
step 894
step 894
step 894
step 894
step 894
step 894
step 894
step 901
finish 896
step 899
finish 899
step 894
step 894
finish 894
begin 3 remove 99479294bb5addbd
begin 1 put 000000000000000000000000000000006170766a7276 0=7276
finish 902
finish 903
begin 2 get 84072202a134fddc all
finish 904
begin 3 get 73657373696f6e2f6e7571627571676d646b all
begin 1 put 0000000000000000000000000000000062636e6e7a6a707766 0=7766
begin 2 put 636174616c6f672f636174616c6f672f636174616c6f672f6a7a6a727a737868 0=7868
step 907
finish 906
finish 907
begin 3 put 8681c8ba2989356b 0=356b
finish 908
begin 1 remove 636174616c6f672f636174616c6f672f636174616c6f672f6361
begin 2 remove 284ddfc0ee362c41
finish 910
begin 3 put 134607bb960ef16f 1=13
begin 1 get 636174616c6f672f636174616c6f672f636174616c6f672f777170687473666d72 all
begin 2 put f955a6eee26814e4 0=14e4
finish 905
finish 909
step 911
begin 3 put 003b22843793606c 0=606c
begin 1 put 636174616c6f672f636174616c6f672f636174616c6f672f6f6b6d646178746b6e6e75 0=6e75
begin 2 put 0000000000000000000000000000000061726766777078766579646b 0=646b
step 913
step 913
finish 913
step 912
begin 3 put 93f5fec0789eb093 0=b093
step 911
step 915
finish 901
step 916
step 916
begin 1 put 16595830fe98517c 0=517c
step 918
step 918
step 915
step 912
step 912
step 912
step 912
finish 911
finish 917
begin 2 put 73657373696f6e2f76776c73637479686972 0=6972
step 916
step 912
step 919
step 916
step 916
step 916
step 916
step 916
step 916
step 916
step 916
step 916
step 916
step 916
step 916
step 916
step 916
step 918
step 919
step 912
step 912
step 915
step 918
step 919
step 919
step 919
step 919
step 919
step 919
step 919
step 919
step 919
step 919
step 919
step 919
step 919
step 919
step 919
step 914
finish 915
finish 919
begin 3 get 9e831ad586653c74 all
step 920
finish 918
finish 920
begin 1 put a868025c53d4f2d8 0=f2d8
begin 2 get 73657373696f6e2f73657373696f6e2f66776d6f7976766c6b all
finish 921
step 914
step 912
finish 914
step 912
step 912
step 916
finish 922
step 916
finish 916
begin 3 put d92029bff1762643 0=2643
begin 1 remove c88bc5bd30905689
step 923
begin 2 get 636174616c6f672f636174616c6f672f636174616c6f672f636f676e6e6c77 all
step 912
begin 3 get 00000000000000000000000000000000000000000000000076627a all
step 923
begin 1 range a04eb246376f0cb5 2 0
begin 2 put becd5d9b27f2d86a 0=d86a
step 925
step 925
finish 925
step 928
finish 928
step 924
finish 927
step 923
begin 3 get 636174616c6f672f636174616c6f672f636174616c6f672f777a717a73786a78666e all
step 912
begin 1 put 95e6acc2691ab245 0=b245
step 926
step 926
finish 930
begin 2 put 73657373696f6e2f73657373696f6e2f74727362 0=7362
step 929
step 931
begin 3 remove 29e6328954a28ba8
step 923
step 931
step 924
step 932
finish 912
finish 931
step 926
step 926
step 926
step 926
step 926
step 926
finish 926
step 923
step 923
step 923
step 923
step 923
step 923
step 923
step 923
step 923
step 923
step 923
step 923
step 923
step 923
step 923
step 923
step 923
step 923
finish 924
finish 923
begin 1 get 9663cf55bd663423 all
begin 2 put 636174616c6f672f6a716d7a 0=6d7a
begin 3 put 0000000000000000000000000000000000000000000000006c676b6c7566 0=7566
begin 1 put cc296e900173399c 0=399c
step 936
finish 934
step 936
step 929
step 936
step 929
step 929
step 929
finish 929
finish 935
step 933
step 933
step 933
step 933
begin 2 get 73657373696f6e2f73657373696f6e2f all
begin 3 put c66491bb53f0ec80 0=ec80
step 932
step 932
finish 933
begin 1 get c60437e89a0c2b1b all
begin 2 put 000000000000000000000000000000006c746f776b6f616a 0=616a
step 940
step 937
step 937
step 940
finish 940
begin 3 get 000000000000000075726a7862647165797064 all
step 937
begin 1 put 000000000000000000000000000000000000000000000000796f6a746d62 1=00
step 942
step 936
step 939
step 938
step 942
finish 942
step 932
step 941
step 941
step 936
step 936
step 936
step 936
step 936
step 936
step 936
step 936
step 936
step 936
step 936
step 936
step 936
step 936
step 941
step 939
step 938
step 941
step 941
finish 938
step 939
step 937
finish 932
step 937
step 937
step 936
step 941
step 941
finish 939
begin 2 put 0cd0938b09a07afe 0=7afe
step 936
finish 939
step 941
step 941
step 943
step 941
step 941
finish 941
begin 3 get 73657373696f6e2f73657373696f6e2f6d6c6d697871 all
step 936
step 937
step 937
begin 1 get c88bc5bd30905689 all
step 937
step 937
step 937
step 937
step 937
step 937
step 943
step 944
step 944
step 944
begin 2 put c9a25bbdd9988bdf 0=8bdf
step 945
step 945
step 945
begin 3 put 73657373696f6e2f73657373696f6e2f73657373696f6e2f63776d61 0=6d61
step 936
step 943
finish 937
finish 946
step 945
begin 1 put 636174616c6f672f636174616c6f672f636174616c6f672f67776c66686f657666 0=7666
step 944
step 944
finish 947
begin 2 get 73657373696f6e2f73657373696f6e2f62646b69736275706a7a61 all
begin 3 put 73657373696f6e2f73657373696f6e2f73657373696f6e2f686a7569667a6d6e6e6173 0=6173
step 950
step 943
step 943
step 943
step 943
step 943
step 943
step 943
step 943
step 943
step 943
step 943
step 943
step 943
step 948
finish 950
step 943
begin 1 put 9c38402a4ef471da 1=9c
step 944
step 948
finish 948
step 944
step 943
step 949
begin 2 range 704f63a070328408 1 0
step 949
step 949
finish 936
step 949
step 949
step 949
step 949
step 949
step 949
step 949
step 949
begin 3 put 000000000000000000000000000000007876 0=7876
finish 943
step 952
step 952
step 952
step 952
step 952
step 952
finish 949
step 951
finish 951
step 945
step 945
step 945
step 945
step 945
step 945
step 952
step 952
step 952
step 952
begin 1 put 227bc7ff1b050bf4 0=0bf4
step 953
begin 2 put 0000000000000000000000000000000072 0=0072
finish 944
begin 3 get de76c7c338ad20a6 all
step 945
finish 945
begin 1 range 636174616c6f672f636174616c6f672f636174616c6f672f67776c66686f657666 1 0
step 955
step 957
step 957
step 957
step 957
step 957
step 957
step 956
step 956
step 956
step 956
finish 956
finish 955
begin 2 put 636174616c6f672f636174616c6f672f636174616c6f672f 0=672f
step 952
step 952
begin 3 put b865914b5b1e7782 0=7782
step 959
step 957
step 957
step 959
begin 1 put 73657373696f6e2f73657373696f6e2f716267776478 0=6478
step 959
step 957
step 957
step 952
step 952
step 952
step 952
step 952
step 952
step 952
step 952
step 952
step 952
step 952
step 952
step 952
step 952
step 952
step 952
step 952
step 952
step 952
step 958
step 952
step 959
finish 959
step 953
step 953
step 952
finish 952
step 957
step 957
step 957
begin 2 range 636174616c6f672f7a62656b746a74 7 0
begin 3 put 1b0834d4a008223c 0=223c
step 962
finish 962
begin 1 put 2f1c21010da2f173 0=f173
step 953
step 953
step 953
step 953
step 953
step 953
step 953
step 953
step 953
step 953
step 953
step 953
step 953
step 953
step 953
step 961
step 961
finish 961
begin 2 put 0d0e871d780d8f11 0=8f11
step 954
step 964
step 960
step 954
step 957
step 953
step 958
finish 953
begin 3 get 2951a156c30f635e all
step 960
finish 954
step 960
finish 965
step 963
finish 963
step 960
step 960
step 960
step 960
step 960
step 960
step 960
step 960
step 960
step 960
step 960
step 960
step 960
step 960
step 960
finish 960
begin 1 get edc8641c10d01c8f all
begin 2 put a868025c53d4f2d8 1=a8
begin 3 get 0b83f1d5bfbd7d8c all
step 957
step 957
step 957
step 957
finish 967
begin 1 get 73657373696f6e2f73657373696f6e2f73657373696f6e2f697a70616667 all
step 968
step 968
step 968
finish 968
step 957
begin 2 put abc14b9141215b12 0=5b12
begin 3 put 2c9ae740c256a969 0=a969
finish 970
finish 964
begin 1 put 43fecfddd097ff21 0=ff21
step 958
step 972
finish 971
begin 2 put f0a719a3a8c43509 1=f0
begin 3 put 636174616c6f672f 0=672f
step 958
step 958
step 958
step 958
step 958
step 958
step 958
step 958
step 958
step 958
step 958
step 958
step 958
step 958
step 958
step 958
step 958
step 958
finish 958
finish 969
step 973
step 966
begin 1 remove 0000000000000000736c6d787276637a
begin 2 put 190a151e05c73e22 0=3e22
step 957
step 972
step 976
finish 957
finish 975
begin 3 put f032c92b3e17757b 0=757b
begin 1 put 263440a3f2e6d26a 0=d26a
step 977
finish 978
step 973
finish 972
finish 966
step 976
step 973
finish 973
step 977
begin 2 put 41c52e7d4deea8eb 1=41
step 977
finish 977
begin 3 put 73657373696f6e2f73657373696f6e2f716f76646f6975 0=6975
step 980
step 979
begin 1 get 000000000000000066687363626d all
step 974
step 976
finish 974
step 981
begin 2 get 7119769a1c098a59 all
step 981
step 981
finish 982
step 979
step 979
begin 3 range f490b52385cc6ee6 7 0
step 976
step 976
step 976
step 976
step 976
step 976
step 976
step 976
step 976
step 976
step 976
step 976
step 976
step 976
step 976
step 979
step 976
finish 976
finish 980
begin 1 remove e507fc8dcb06f2a1
finish 981
step 979
step 979
step 979
step 979
step 979
step 979
step 979
step 979
step 979
step 979
step 979
step 979
step 979
step 979
step 979
step 979
step 979
begin 2 put f1ab4a0b824b8d07 0=8d07
step 985
finish 983
begin 3 put 000000000000000000000000000000007064707974756876746c 0=746c
step 984
begin 1 put f1a420ce09003cf8 0=3cf8
step 985
finish 985
step 986
begin 2 put 16f3f1c830449fd6 1=16
step 984
begin 3 put 7fb2be233c217d80 0=7d80
step 988
begin 1 remove 8201ea2efba37566
step 987
step 990
finish 989
begin 2 put 00000000000000006d75727a6d61687664656767 0=6767
step 988
finish 988
step 984
finish 984
step 986
finish 986
step 991
step 990
finish 990
begin 3 put 73657373696f6e2f69 0=2f69
step 987
begin 1 put 73657373696f6e2f6b65737975797677 0=7677
step 992
step 993
begin 2 put 636174616c6f672f666a7a7a7775 0=7775
begin 3 put cdea1b543ce9aa06 0=aa06
step 994
step 994
step 979
step 994
step 992
finish 995
step 994
step 994
step 994
step 994
step 994
step 994
step 994
step 994
step 994
step 994
step 994
step 994
step 994
step 994
step 994
step 994
step 994
step 994
begin 1 get 42c79e01602ac3e1 all
finish 993
begin 2 get 8c9b0331139d9e74 all
finish 996
step 987
step 991
step 991
step 997
step 997
step 997
step 997
begin 3 get 15c807f31e0e7eaa all
step 991
step 991
step 991
step 991
step 991
step 991
step 991
step 991
step 991
step 991
step 991
step 991
step 991
step 991
step 991
step 991
step 991
finish 992
finish 979
step 997
begin 1 put 636174616c6f672f636174616c6f672f6a6e74 0=6e74
finish 991
step 998
begin 2 put e1938b0a7e0c2855 0=2855
begin 3 put 8ea95563471c478a 0=478a
finish 987
finish 997
finish 999
step 998
step 998
step 998
step 998
step 998
begin 1 put 636174616c6f672f636174616c6f672f636174616c6f672f6f7172696b6b7463 0=7463
step 994
step 1001
begin 2 put 21a3e828bf1dea3d 0=ea3d
step 994
begin 3 get ee5f46166239b5ef all
step 1002
step 1003
step 994
step 998
step 998
step 998
step 998
step 998
finish 994
begin 1 get 73657373696f6e2f73657373696f6e2f73657373696f6e2f686a7569667a6d6e6e6173 all
step 998
step 1003
finish 1005
begin 2 get 93f5fec0789eb093 all
step 1006
step 1006
step 1000
step 1004
step 1004
finish 1004
begin 3 get e8472b1721c07a57 all
step 1006
step 1006
step 1007
step 1006
step 1006
step 1006
step 1006
step 1006
step 1006
step 998
finish 998
finish 1007
step 1002
finish 1001
step 1000
begin 1 put 55b243801f32a205 0=a205
step 1008
step 1002
finish 1000
finish 1002
begin 2 get 636174616c6f672f636174616c6f672f6e6c77666b6d all
step 1006
step 1006
step 1006
step 1006
step 1006
step 1006
step 1006
step 1006
step 1006
step 1006
step 1006
step 1006
step 1006
step 1006
step 1006
step 1006
step 1006
step 1006
step 1006
step 1006
finish 1006
finish 1006
begin 3 put 636174616c6f672f6e687872726d77726c6c7a69 0=7a69
finish 1008
step 1010
begin 1 put 0b83f1d5bfbd7d8c 0=7d8c
begin 2 put f2e9bcdd06d2586a 0=586a
step 1003
begin 3 put fa7752de9a95b3dd 0=b3dd
step 1003
step 1003
step 1003
step 1003
step 1003
step 1003
step 1003
step 1003
step 1003
step 1003
step 1003
step 1003
step 1003
begin 1 remove 73657373696f6e2f796e706572666f7a7163
step 1011
step 1014
step 1012
step 1003
finish 1011
step 1003
finish 1003
begin 2 get 59420f81a6039cf8 all
step 1013
begin 3 get 73657373696f6e2f73657373696f6e2f73657373696f6e2f656a all
step 1013
step 1016
finish 1014
step 1016
finish 1010
step 1015
step 1015
begin 1 put a530f6cbbdb28dbd 0=8dbd
finish 1013
step 1017
step 1009
step 1009
step 1009
step 1009
step 1009
step 1009
step 1015
begin 2 put 73657373696f6e2f73657373696f6e2f73657373696f6e2f6471656d75746a676e 0=676e
step 1016
step 1016
step 1009
step 1009
step 1009
begin 3 put 16f3f1c830449fd6 0=9fd6
step 1015
step 1015
step 1015
step 1017
step 1009
step 1009
step 1009
step 1012
finish 1009
begin 1 put 28b5ca001a434990 0=4990
step 1015
step 1015
step 1015
step 1015
step 1015
step 1015
step 1015
step 1019
finish 1019
begin 2 put 9533579bee682b3c 0=2b3c
step 1018
step 1018
finish 1012
step 1020
finish 1016
begin 3 put 73657373696f6e2f73657373696f6e2f73657373696f6e2f6f7a646d 0=646d
begin 1 put 7bdb06168bc0b71b 0=b71b
step 1018
finish 1018
step 1017
step 1021
step 1017
finish 1017
begin 2 put a1002e4c486de3c5 0=e3c5
step 1021
step 1020
begin 3 put aed5d3a184d6eb9c 0=eb9c
step 1025
step 1020
step 1021
finish 1021
step 1020
begin 1 put 190e84fe4321f833 0=f833
step 1023
step 1023
step 1023
finish 1020
step 1026
finish 1022
step 1015
step 1026
step 1015
finish 1015
begin 2 get 00000000000000000000000000000000000000000000000069 all
begin 3 put 73657373696f6e2f73657373696f6e2f68747162736466646c746772 0=6772
step 1028
finish 1028
step 1026
finish 1025
begin 1 put a511cc04d17ab083 0=b083
step 1027
step 1027
finish 1027
finish 1023
step 1029
step 1024
finish 1024
step 1029
begin 2 put e15c23e24064a2dc 0=a2dc
step 1026
begin 3 put 000000000000000074 0=0074
step 1030
step 1031
step 1031
finish 1026
begin 1 put 637868c87b55507d 0=507d
step 1031
step 1032
finish 1032
begin 2 put 1ac0a8f8a8375c4e 0=5c4e
finish 1030
begin 3 get 636174616c6f672f6d636e666c77 all
step 1033
finish 1031
finish 1034
begin 1 put 704f63a070328408 0=8408
step 1033
finish 1033
begin 2 get 59ee67a73535d639 all
finish 1029
begin 3 get 636174616c6f672f636174616c6f672f6f6d7867676b6c6866 all
begin 1 put 6573319a40c7472a 0=472a
step 1038
step 1036
finish 1036
step 1037
step 1037
finish 1035
begin 2 put 9c38402a4ef471da 0=71da
step 1038
begin 3 remove 636174616c6f672f77636e696d6e626c767768
finish 1037
finish 1038
step 1040
begin 1 put 052cfc3c05c2ae3a 0=ae3a
step 1040
begin 2 get 636174616c6f672f636174616c6f672f636174616c6f672f7168776878 all
finish 1040
begin 3 put 3fe90aa1fe88eab9 0=eab9
begin 1 get 636174616c6f672f636174616c6f672f636174616c6f672f716363 all
begin 2 get 1611998c4f1055aa all
step 1042
step 1042
begin 3 put 000000000000000000000000000000000000000000000000 0=0000
step 1039
step 1044
step 1044
step 1044
finish 1041
step 1043
step 1046
begin 1 put 5b8ceb0067904b36 0=4b36
finish 1047
begin 2 put 73657373696f6e2f73657373696f6e2f73657373696f6e2f74657a63746873616c627a67 0=7a67
step 1043
step 1048
step 1045
finish 1044
step 1046
step 1046
begin 3 get 61a4db6bd7c84e93 all
step 1048
step 1042
finish 1049
step 1046
step 1046
step 1046
step 1046
step 1046
step 1046
step 1046
step 1046
step 1046
step 1046
step 1046
step 1046
step 1046
step 1046
step 1046
step 1046
step 1046
step 1045
step 1045
step 1045
step 1039
step 1048
begin 1 remove 73657373696f6e2f73657373696f6e2f6d6c6d697871
finish 1043
begin 2 put 636174616c6f672f636174616c6f672f736c7a6f79717368 1=63
step 1051
finish 1051
step 1045
step 1045
step 1045
step 1045
step 1046
begin 3 remove 74f56a5e5cb0ea7d
step 1052
finish 1050
begin 1 put 44c7ec78cb36db3b 0=db3b
step 1048
step 1048
step 1048
step 1048
step 1048
step 1048
step 1048
step 1048
step 1048
step 1048
step 1048
step 1048
step 1048
step 1048
step 1042
step 1045
step 1045
step 1045
step 1045
step 1046
step 1048
step 1039
finish 1039
step 1042
step 1042
step 1042
step 1042
step 1042
step 1042
begin 2 put 000000000000000000000000000000006c6461 0=6461
step 1052
finish 1052
step 1048
finish 1042
finish 1046
finish 1053
step 1054
finish 1054
finish 1045
step 1048
step 1048
step 1048
step 1048
step 1048
step 1048
step 1048
step 1048
step 1048
step 1048
step 1048
step 1048
step 1048
step 1048
begin 3 put e04385626dd9c60a 0=c60a
finish 1048
begin 1 put 636174616c6f672f636174616c6f672f636174616c6f672f6a7a6a727a737868 1=63
step 1056
step 1056
finish 1056
begin 2 put 000000000000000062 0=0062
finish 1055
step 1057
step 1057
begin 3 get 3c5643c75226c396 all
begin 1 remove d7a7bd292dcaf25b
step 1058
step 1058
begin 2 put e6d240f0033fc1cf 0=c1cf
step 1060
begin 3 remove 000000000000000074657978776f676a687a62
step 1061
step 1061
step 1060
finish 1061
finish 1059
step 1060
step 1057
finish 1057
step 1060
begin 1 put 73657373696f6e2f73657373696f6e2f73657373696f6e2f656b78647278737368 0=7368
begin 2 get 6da1592138718385 all
step 1058
step 1058
step 1058
step 1058
finish 1058
begin 3 put d9d01bb76836e9de 0=e9de
step 1062
step 1062
begin 1 get c0f800d98db12562 all
step 1065
step 1060
step 1060
step 1060
step 1060
step 1060
step 1060
step 1060
step 1060
step 1060
step 1065
finish 1064
step 1065
step 1065
finish 1065
begin 2 range 000000000000000000000000000000000000000000000000756f7a71656568727565 2 0
step 1066
finish 1060
step 1062
begin 3 get 16f3f1c830449fd6 all
begin 1 get 28b5ca001a434990 all
finish 1067
finish 1068
begin 2 put 7517e1b0f9dfb662 0=b662
finish 1069
step 1063
step 1062
step 1062
step 1062
step 1062
step 1062
step 1062
step 1062
step 1062
step 1062
step 1062
step 1062
step 1062
step 1062
step 1062
step 1062
step 1062
begin 3 get ff51b065bd2c44e4 all
finish 1066
finish 1063
step 1070
step 1070
step 1070
step 1070
step 1062
step 1062
step 1062
step 1062
step 1062
step 1062
step 1062
step 1062
step 1062
step 1062
step 1062
step 1062
begin 1 put b890e21946c0cbc9 0=cbc9
begin 2 put 8322223d36ae5b3a 0=5b3a
step 1062
begin 3 remove abe54e8cdd5054cf
step 1071
step 1073
finish 1073
step 1071
step 1062
step 1062
step 1062
step 1062
step 1062
step 1062
step 1062
step 1062
step 1062
step 1062
step 1062
step 1062
step 1062
step 1062
step 1062
step 1072
begin 1 get f955a6eee26814e4 all
finish 1074
begin 2 put 000000000000000070656c77667167 0=7167
begin 3 put 19f877a0ed54e3d8 0=e3d8
step 1075
begin 1 put 3a6f699c6a93dff2 0=dff2
step 1071
step 1075
step 1072
step 1071
finish 1070
step 1071
step 1071
step 1071
step 1071
step 1071
step 1071
step 1071
step 1071
step 1071
step 1071
step 1071
step 1071
step 1071
step 1071
step 1071
step 1071
step 1071
step 1071
step 1071
step 1072
step 1075
step 1072
finish 1075
step 1062
step 1071
step 1062
step 1071
step 1076
finish 1071
step 1072
step 1072
step 1072
step 1072
step 1072
step 1072
step 1072
step 1072
step 1072
step 1072
step 1072
step 1072
step 1072
step 1072
finish 1072
step 1062
begin 2 put 636174616c6f672f636174616c6f672f6f6d7867676b6c6866 0=6866
begin 3 range 4413475409c58d38 2 0
step 1077
finish 1078
step 1079
finish 1077
begin 1 put 636174616c6f672f636174616c6f672f636174616c6f672f7262726b 0=726b
begin 2 put 73657373696f6e2f 0=6e2f
begin 3 put 000000000000000000000000000000006f 0=006f
step 1076
step 1079
step 1079
step 1079
step 1079
finish 1080
step 1062
step 1062
step 1062
step 1062
step 1062
step 1062
step 1062
step 1062
step 1062
step 1062
step 1062
step 1062
step 1062
step 1062
step 1062
step 1062
begin 1 put 0e19e8599474ca58 0=ca58
begin 2 put 00000000000000006e63747068726277 0=6277
step 1079
step 1079
step 1079
step 1081
step 1076
finish 1062
begin 3 get 636174616c6f672f7270666f all
finish 1079
finish 1076
step 1081
finish 1082
step 1085
step 1085
step 1085
step 1085
begin 1 get 73657373696f6e2f73657373696f6e2f73657373696f6e2f6a73 all
step 1086
begin 2 get b7303f6fb606e56f all
step 1085
step 1087
step 1087
step 1087
step 1087
begin 3 put 9d221faa6592fa48 0=fa48
step 1081
step 1087
step 1087
step 1087
step 1087
step 1085
step 1085
step 1085
finish 1087
finish 1086
step 1081
begin 1 range 636174616c6f672f 1 0
step 1085
finish 1089
begin 2 get 73657373696f6e2f73657373696f6e2f73657373696f6e2f6674 all
begin 3 put 73657373696f6e2f73657373696f6e2f73657373696f6e2f6164746b636973656d 0=656d
step 1091
step 1085
step 1085
step 1085
step 1085
step 1085
step 1085
step 1085
step 1085
step 1085
step 1085
step 1085
step 1085
finish 1083
step 1084
step 1081
step 1081
step 1081
step 1081
step 1081
step 1081
step 1081
step 1081
step 1081
step 1081
step 1081
step 1081
step 1081
step 1088
finish 1088
step 1091
begin 1 get 0f41b1506b1985e0 all
begin 2 put 73657373696f6e2f7a656f68766f75637363 1=73
step 1090
step 1081
step 1085
step 1093
finish 1093
begin 3 get 636174616c6f672f636174616c6f672f636174616c6f672f71756d all
step 1084
step 1084
step 1085
step 1084
step 1084
step 1084
step 1084
step 1084
step 1084
step 1084
step 1084
step 1084
step 1084
step 1084
step 1084
step 1084
step 1084
step 1084
step 1084
step 1084
step 1085
step 1085
step 1085
step 1085
step 1091
step 1092
step 1092
step 1092
step 1092
step 1090
finish 1090
step 1094
finish 1094
step 1084
step 1085
begin 1 put 6c3e661a0b2a0dba 0=0dba
step 1084
finish 1084
begin 2 put 73657373696f6e2f73657373696f6e2f62646b69736275706a7a61 0=7a61
finish 1092
step 1096
step 1096
begin 3 put cef6d56b452c45c9 0=45c9
begin 1 put 73657373696f6e2f73657373696f6e2f73657373696f6e2f6479 1=73
finish 1091
step 1085
step 1096
step 1098
begin 2 remove 636174616c6f672f636174616c6f672f6c6b677677657273
step 1095
step 1099
step 1097
step 1099
finish 1098
step 1085
step 1099
step 1097
step 1099
step 1099
step 1099
step 1099
step 1099
step 1099
step 1099
step 1099
step 1099
step 1099
step 1099
step 1099
step 1099
step 1099
step 1099
step 1099
step 1099
step 1099
step 1099
step 1099
finish 1095
finish 1099
begin 3 put c60eaf68838ea06f 0=a06f
finish 1100
step 1097
begin 1 get 05987722328db902 all
step 1085
step 1096
step 1097
begin 2 put 8606cf37ee43ddbf 1=86
step 1101
step 1101
step 1081
finish 1091
finish 1093
step 1096
step 1096
step 1096
step 1096
step 1096
step 1096
step 1096
step 1096
step 1096
step 1096
step 1096
step 1096
step 1096
step 1096
finish 1098
finish 1081
begin 3 put c53794b7f8112291 0=2291
step 1097
step 1097
step 1097
step 1097
step 1097
step 1097
step 1097
step 1097
step 1097
step 1097
step 1097
step 1097
step 1097
step 1097
step 1097
step 1097
step 1097
step 1097
finish 1102
begin 1 get 73657373696f6e2f73657373696f6e2f78 all
step 1085
step 1096
step 1101
finish 1104
step 1085
begin 2 range a8c367f5e6ca7522 1 0
step 1097
step 1103
begin 3 get abe54e8cdd5054cf all
step 1101
step 1105
step 1105
step 1106
step 1106
step 1106
finish 1085
begin 1 put 0de400a392f0e89f 0=e89f
finish 1101
begin 2 put 0000000000000000 0=0000
step 1106
step 1096
step 1105
step 1105
step 1105
step 1105
finish 1108
finish 1103
step 1097
finish 1097
finish 1106
begin 3 put f490b52385cc6ee6 0=6ee6
step 1105
step 1105
step 1105
step 1105
step 1105
step 1105
step 1105
step 1105
step 1105
step 1105
step 1105
step 1105
step 1105
step 1105
step 1105
step 1105
step 1105
step 1105
step 1105
step 1105
finish 1105
finish 1105
step 1109
step 1096
step 1096
step 1096
step 1096
step 1096
step 1096
step 1096
step 1096
step 1096
step 1096
step 1096
step 1096
step 1109
begin 1 put 73657373696f6e2f73657373696f6e2f73657373696f6e2f697a70616667 0=6667
finish 1109
step 1107
step 1107
finish 1107
begin 2 put 636174616c6f672f78666468646a67677a 0=677a
step 1111
finish 1111
finish 1110
begin 3 put 636174616c6f672f7a62656b746a74 0=6a74
begin 1 get 636174616c6f672f6e687872726d77726c6c7a69 all
finish 1112
begin 2 put 0d524005df494c9f 0=4c9f
step 1114
step 1113
step 1113
step 1113
step 1113
step 1113
step 1113
begin 3 get 8322223d36ae5b3a all
step 1113
finish 1113
step 1114
finish 1114
finish 1096
finish 1115
begin 1 range - 1000 0,1
finish 1116
