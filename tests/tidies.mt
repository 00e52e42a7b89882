alone put 0000000000000000 0=-
begin 1 put 0000000000000001 0=c26b30
step 2
begin 1 put 0000000000000002 0=dd01e4
step 2
begin 3 put 0000000000000003 0=34a20f0b
begin 1 put 0000000000000004 0=6ed80e
begin 2 put 0000000000000005 0=77b076
begin 2 put 0000000000000006 0=0bd5
step 7
step 7
finish 2
advance
begin 1 put 0000000000000007 0=3daa
step 5
step 4
step 4
step 5
step 3
step 6
step 7
step 3
step 6
step 4
step 4
step 4
step 4
step 4
step 5
finish 4
begin 1 put 0000000000000008 0=91ff
finish 6
finish 3
collect
begin 1 put 0000000000000009 0=7cced4
advance
step 9
begin 2 put 000000000000000a 0=bf2ce037
finish 9
begin 1 put 000000000000000b 0=fa0f
finish 5
finish 8
finish 12
step 7
step 10
step 11
step 10
begin 1 put 000000000000000c 0=c957
step 13
begin 3 put 000000000000000d 0=-
step 14
finish 7
finish 14
begin 2 put 000000000000000e 0=b0b4eb
begin 3 put 000000000000000f 0=4269da
step 10
step 10
step 10
step 10
step 10
step 10
step 10
step 10
step 10
step 10
step 10
step 10
step 10
step 10
step 10
step 16
begin 2 put 0000000000000010 0=66d3
finish 10
finish 17
finish 15
finish 11
finish 16
begin 3 put 0000000000000011 0=b100a9
feed 4 10
begin 1 put 0000000000000012 0=5a
begin 2 put 0000000000000013 0=8210242a
finish 20
begin 3 put 0000000000000014 0=-
begin 1 put 0000000000000015 0=385e
begin 1 put 0000000000000016 0=-
finish 18
begin 2 put 0000000000000017 0=568b
finish 24
begin 1 put 0000000000000018 0=fef2
step 21
step 19
step 22
finish 25
finish 19
begin 2 put 0000000000000019 0=c5af
finish 13
begin 3 put 000000000000001a 0=3781
finish 26
finish 22
step 27
finish 23
collect
finish 27
begin 1 put 000000000000001b 0=-
begin 3 put 000000000000001c 0=4a1252
finish 21
finish 29
finish 28
alone put 000000000000001d 0=70e6720f
alone put 000000000000001e 0=1e9840
alone put 000000000000001f 0=2427
begin 2 build range 00000000000000d9 none any
begin 3 put 0000000000000020 0=d5
finish 33
begin 2 put 0000000000000021 0=-
collect
begin 3 get 00000000000001db all
begin 2 put 0000000000000022 0=eb5713c1
finish 37
begin 2 put 0000000000000023 0=-
begin 2 put 0000000000000024 0=63fc35c7
finish 38
step 34
step 36
step 36
step 36
finish 34
finish 39
step 35
begin 2 put 0000000000000025 0=-
begin 3 put 0000000000000026 0=0950
step 41
finish 36
finish 35
step 41
begin 2 put 0000000000000027 0=45addb6d
finish 42
begin 3 put 0000000000000028 0=b0f878
step 41
begin 2 put 0000000000000029 0=-
begin 1 put 000000000000002a 0=6d
step 44
step 40
step 40
step 40
begin 2 put 000000000000002b 0=82bcadae
step 43
finish 41
begin 3 put 000000000000002c 0=fa
finish 47
finish 43
step 46
begin 3 put 000000000000002d 0=14d0
begin 2 put 000000000000002e 0=40
finish 48
begin 3 put 000000000000002f 0=c1277229
finish 46
begin 3 put 0000000000000030 0=3aea
finish 51
begin 1 put 0000000000000031 0=-
finish 44
begin 2 put 0000000000000032 0=072ed33a
finish 45
finish 40
finish 53
begin 2 put 0000000000000033 0=d7
advance
begin 1 put 0000000000000034 0=557b51
finish 50
finish 52
begin 1 tidy 0000000000000173
drop 1
begin 2 put 0000000000000035 0=9681f4
step 57
begin 3 put 0000000000000036 0=a2
step 57
step 56
step 49
step 54
finish 56
begin 1 put 0000000000000037 0=-
finish 54
step 49
step 59
begin 1 put 0000000000000038 0=c8a0cc
finish 49
begin 2 put 0000000000000039 0=e939
finish 55
begin 3 put 000000000000003a 0=f0b6845d
step 62
step 59
advance
finish 60
finish 62
feed 20 10
begin 3 put 000000000000003b 0=7e
begin 1 put 000000000000003c 0=2de5
finish 61
finish 57
begin 2 put 000000000000003d 0=c7
advance
begin 2 put 000000000000003e 0=5fa2
step 65
feed 6 10
finish 63
finish 65
begin 3 get 00000000000000df all
begin 2 put 000000000000003f 0=332f
step 58
finish 67
step 59
step 59
step 59
begin 3 put 0000000000000040 0=-
finish 69
begin 3 put 0000000000000041 0=-
step 59
step 58
step 70
step 70
step 66
step 64
step 66
step 66
step 64
step 68
step 66
step 59
step 59
step 59
step 59
step 59
step 59
step 59
step 59
step 59
step 59
step 59
step 59
step 59
step 59
step 59
step 59
step 59
step 59
step 58
step 64
step 66
step 58
step 58
step 66
feed 16 3
step 64
step 58
step 64
step 66
step 66
step 59
finish 68
begin 2 put 0000000000000042 0=-
begin 2 put 0000000000000043 0=b7fc
finish 72
begin 3 put 0000000000000044 0=-
finish 73
finish 58
finish 70
feed 48 3
step 66
step 66
step 66
begin 1 put 0000000000000045 0=585b4c48
step 66
feed 58 3
begin 2 put 0000000000000046 0=-
begin 2 put 0000000000000047 0=48
step 76
step 66
step 66
step 66
step 66
step 66
step 66
step 66
step 66
step 66
step 66
step 66
step 66
step 66
step 66
feed 34 3
step 74
step 74
step 76
step 66
step 66
begin 3 put 0000000000000048 0=695b99dd
step 76
step 64
step 64
step 64
step 77
step 75
step 77
step 75
step 76
step 76
step 76
step 76
step 76
step 76
step 76
step 76
step 76
step 76
step 76
step 76
step 76
step 76
step 76
step 75
step 74
step 77
step 71
collect
step 74
step 76
finish 76
begin 1 put 0000000000000049 0=81
finish 78
begin 3 put 000000000000004a 0=80e0e8
finish 71
step 64
step 77
begin 2 put 000000000000004b 0=5784
step 75
step 79
step 79
step 74
step 79
step 79
step 80
step 64
step 64
step 64
step 64
step 64
step 64
step 64
step 64
step 64
step 64
step 64
step 64
step 64
step 64
step 64
step 64
step 64
step 64
step 75
step 77
step 64
step 74
step 80
step 74
finish 64
begin 2 put 000000000000004c 0=091fb5
feed 56 10
finish 79
begin 1 put 000000000000004d 0=84
step 77
step 81
step 75
step 82
step 77
step 77
step 77
step 77
step 77
step 77
step 77
step 77
step 77
step 77
step 77
step 77
step 77
step 77
step 77
step 77
step 77
step 77
step 77
step 77
step 77
step 77
step 81
step 81
step 80
step 77
step 77
step 77
step 77
step 75
step 74
step 74
step 81
step 82
step 75
step 80
finish 77
begin 1 put 000000000000004e 0=cd582d77
finish 82
begin 3 put 000000000000004f 0=a2
step 80
step 80
step 80
finish 84
finish 80
feed 20 1
collect
begin 3 put 0000000000000050 0=a0
begin 1 put 0000000000000051 0=d3
step 74
step 74
step 74
step 75
step 75
step 75
step 81
step 81
step 81
finish 75
finish 86
step 83
step 83
begin 2 put 0000000000000052 0=18
finish 85
begin 3 put 0000000000000053 0=68
finish 87
begin 2 put 0000000000000054 0=be54
finish 83
step 74
begin 1 put 0000000000000055 0=-
step 90
begin 1 put 0000000000000056 0=80
step 88
step 88
step 74
step 74
step 74
step 74
step 74
step 74
step 74
step 74
step 74
step 74
step 74
step 74
step 74
step 81
step 89
step 88
step 90
step 91
step 91
step 74
step 91
step 74
step 81
step 81
step 81
step 81
begin 2 put 0000000000000057 0=1afdc9b2
step 90
feed 10 10
step 89
step 92
step 89
step 89
step 88
step 88
step 88
step 88
step 88
step 88
step 88
step 88
step 88
step 88
step 88
step 92
finish 88
begin 1 put 0000000000000058 0=142e8233
step 90
finish 90
step 91
begin 1 put 0000000000000059 0=29
step 81
step 92
step 92
step 94
step 93
step 91
step 91
step 91
step 91
step 91
step 91
step 91
step 91
step 91
step 91
step 91
step 91
step 91
step 92
advance
step 89
finish 91
begin 2 put 000000000000005a 0=ddcb54
collect
finish 93
step 95
finish 94
begin 1 put 000000000000005b 0=f9
finish 89
finish 95
finish 81
begin 2 put 000000000000005c 0=d13c97
finish 92
finish 96
collect
step 97
feed 63 1
begin 3 put 000000000000005d 0=0261e0
step 97
finish 98
step 97
finish 97
begin 2 put 000000000000005e 0=7c856958
step 99
advance
finish 99
begin 3 put 000000000000005f 0=668b9f80
finish 100
begin 1 put 0000000000000060 0=b6fbd73e
begin 2 put 0000000000000061 0=91
begin 2 put 0000000000000062 0=-
begin 3 put 0000000000000063 0=26
begin 3 put 0000000000000064 0=b6a500
finish 101
finish 104
finish 105
begin 3 put 0000000000000065 0=b39ccc
begin 1 get 0000000000000086 all
begin 2 put 0000000000000066 0=-
begin 1 put 0000000000000067 0=01
finish 103
begin 3 put 0000000000000068 0=d19c57
feed 18 10
finish 107
step 106
step 109
begin 2 put 0000000000000069 0=01c7
step 110
step 106
finish 108
step 109
step 110
begin 2 remove 000000000000009e
finish 111
begin 2 put 000000000000006a 0=22fc
finish 110
begin 3 put 000000000000006b 0=-
finish 113
step 112
begin 2 put 000000000000006c 0=8a5b25
step 112
finish 106
begin 1 put 000000000000006d 0=d29b
step 102
finish 114
feed 29 1
begin 3 put 000000000000006e 0=f856
step 116
step 115
finish 112
finish 115
step 102
begin 3 put 000000000000006f 0=32d8
begin 2 put 0000000000000070 0=-
step 109
step 109
step 109
finish 118
finish 109
begin 3 put 0000000000000071 0=52
finish 116
begin 2 put 0000000000000072 0=9b6a
begin 2 put 0000000000000073 0=8923
finish 121
begin 2 put 0000000000000074 0=195698
step 120
step 102
finish 102
collect
finish 120
step 119
step 123
step 119
begin 1 put 0000000000000075 0=76c8cc58
begin 2 put 0000000000000076 0=a871847d
finish 123
finish 125
begin 1 put 0000000000000077 0=dd7f
begin 2 put 0000000000000078 0=-
finish 117
begin 1 put 0000000000000079 0=4b86eb53
step 122
step 128
step 126
finish 124
finish 126
feed 60 1
step 119
step 119
step 119
advance
step 128
begin 2 put 000000000000007a 0=b89ecd
begin 2 put 000000000000007b 0=9c
finish 127
begin 3 put 000000000000007c 0=cb
finish 128
finish 131
advance
begin 2 range 0000000000000299 10 all
begin 1 put 000000000000007d 0=-
finish 132
finish 133
step 119
step 130
begin 3 put 000000000000007e 0=-
begin 3 put 000000000000007f 0=-
step 135
step 130
step 129
step 122
step 135
step 135
feed 33 3
finish 119
step 129
finish 135
finish 130
finish 122
step 134
step 134
finish 129
finish 134
begin 1 put 0000000000000080 0=8c3c
begin 3 put 0000000000000081 0=cc
finish 137
advance
begin 3 put 0000000000000082 0=c15676
advance
begin 2 put 0000000000000083 0=c76ce7
begin 1 put 0000000000000084 0=386d28
begin 2 put 0000000000000085 0=-
advance
step 136
step 136
feed 79 3
begin 2 put 0000000000000086 0=9364cc
finish 138
begin 1 put 0000000000000087 0=-
step 143
finish 143
finish 139
step 142
step 142
begin 2 put 0000000000000088 0=1d
feed 29 1
step 142
step 144
begin 3 put 0000000000000089 0=28
step 145
step 141
step 142
step 142
step 142
step 142
step 142
step 142
step 142
step 142
step 142
step 142
step 142
step 142
step 142
step 142
step 142
step 142
step 142
step 142
step 142
step 142
step 142
step 142
step 140
step 144
feed 81 1
step 141
step 141
step 145
step 144
step 145
step 136
step 141
feed 19 3
step 145
step 136
step 144
step 144
finish 142
finish 144
finish 140
step 136
step 136
step 136
finish 145
begin 3 put 000000000000008a 0=-
finish 146
step 136
begin 3 put 000000000000008b 0=42158c3c
step 147
begin 2 put 000000000000008c 0=0e
finish 136
begin 1 put 000000000000008d 0=62e5
begin 2 put 000000000000008e 0=857c
begin 1 put 000000000000008f 0=59b3db1f
step 150
step 150
step 149
advance
step 141
step 141
step 141
advance
finish 149
step 147
begin 2 put 0000000000000090 0=66d92388
finish 150
step 152
finish 152
begin 3 put 0000000000000091 0=31
finish 148
step 141
step 141
step 141
step 141
step 141
step 141
step 141
step 141
step 141
step 141
step 141
step 141
step 151
step 153
finish 141
finish 153
feed 31 3
step 151
begin 3 put 0000000000000092 0=db
finish 154
feed 101 10
begin 1 put 0000000000000093 0=-
begin 3 put 0000000000000094 0=-
begin 2 put 0000000000000095 0=10
begin 3 put 0000000000000096 0=e40c8a
step 151
step 155
finish 147
begin 2 remove 000000000000012b
collect
finish 156
begin 3 put 0000000000000097 0=2b9a
step 160
step 158
step 157
feed 51 3
step 155
step 151
step 158
step 158
step 158
step 159
step 159
finish 151
finish 158
finish 157
begin 2 put 0000000000000098 0=-
begin 1 put 0000000000000099 0=85
finish 159
step 160
begin 1 put 000000000000009a 0=30d9
begin 3 put 000000000000009b 0=adc8
finish 162
step 160
step 163
begin 3 put 000000000000009c 0=e5
step 155
step 160
step 155
step 165
step 164
step 155
step 164
step 155
step 163
step 164
step 164
step 165
step 165
finish 160
begin 2 put 000000000000009d 0=66
finish 155
begin 1 put 000000000000009e 0=a631d1b0
finish 167
begin 3 put 000000000000009f 0=-
step 166
finish 165
begin 1 put 00000000000000a0 0=98a3b4
step 163
step 163
step 168
step 168
step 161
step 169
finish 163
step 169
finish 166
finish 164
finish 168
begin 2 put 00000000000000a1 0=043e4ca2
finish 170
begin 2 put 00000000000000a2 0=23e78ff5
begin 1 put 00000000000000a3 0=281c44
step 169
begin 3 put 00000000000000a4 0=807dadb9
advance
finish 172
begin 1 put 00000000000000a5 0=edae
begin 2 put 00000000000000a6 0=80
finish 171
begin 1 put 00000000000000a7 0=-
finish 161
begin 3 put 00000000000000a8 0=19328836
finish 177
step 176
begin 2 put 00000000000000a9 0=-
finish 175
step 178
feed 21 3
begin 3 put 00000000000000aa 0=58
finish 179
finish 169
begin 2 put 00000000000000ab 0=bcf99170
begin 2 put 00000000000000ac 0=d9
finish 176
finish 173
step 178
begin 1 put 00000000000000ad 0=60f62583
begin 1 put 00000000000000ae 0=-
finish 178
begin 3 put 00000000000000af 0=-
step 174
finish 183
begin 1 put 00000000000000b0 0=-
finish 182
begin 2 put 00000000000000b1 0=-
step 181
step 181
step 181
step 185
finish 186
begin 3 put 00000000000000b2 0=-
finish 180
step 174
feed 114 3
step 174
finish 181
step 184
finish 174
step 187
begin 3 put 00000000000000b3 0=a190d2d1
step 184
begin 3 put 00000000000000b4 0=43e3
finish 187
begin 2 put 00000000000000b5 0=04d9
begin 1 put 00000000000000b6 0=cd9009
step 189
finish 189
finish 185
finish 184
begin 3 put 00000000000000b7 0=-
finish 192
begin 3 put 00000000000000b8 0=8bbef6
step 191
finish 191
finish 193
finish 188
finish 190
begin 3 put 00000000000000b9 0=3bf7b5
begin 3 put 00000000000000ba 0=09
begin 3 put 00000000000000bb 0=4193
feed 142 3
finish 194
finish 196
begin 1 put 00000000000000bc 0=93d78cdd
finish 197
begin 3 put 00000000000000bd 0=fb
begin 3 put 00000000000000be 0=-
finish 198
finish 195
step 199
begin 3 put 00000000000000bf 0=4c
step 199
begin 2 put 00000000000000c0 0=-
finish 201
step 199
begin 1 put 00000000000000c1 0=32cc5f
begin 3 range 0000000000000267 1 all
begin 3 put 00000000000000c2 0=1a6fd8
finish 204
finish 202
begin 1 put 00000000000000c3 0=-
begin 2 put 00000000000000c4 0=8e5b
begin 2 put 00000000000000c5 0=2c
step 203
finish 199
begin 2 put 00000000000000c6 0=96fec9
step 207
finish 206
step 200
begin 3 put 00000000000000c7 0=-
finish 203
finish 207
begin 1 put 00000000000000c8 0=675583d5
advance
step 205
step 208
begin 3 put 00000000000000c9 0=6dacf834
step 205
step 211
feed 187 3
finish 211
step 205
finish 200
begin 3 put 00000000000000ca 0=1ce1
begin 2 put 00000000000000cb 0=8c
finish 208
begin 2 put 00000000000000cc 0=4b4283
step 210
step 205
step 205
step 205
finish 213
begin 2 put 00000000000000cd 0=1d4cd38a
finish 209
step 210
finish 212
step 214
begin 1 put 00000000000000ce 0=88fb
step 210
begin 2 put 00000000000000cf 0=f07b
finish 217
finish 214
begin 2 put 00000000000000d0 0=5ce64c1d
begin 1 put 00000000000000d1 0=a1
advance
step 210
finish 210
finish 215
begin 1 put 00000000000000d2 0=3c41
finish 219
collect
step 220
begin 1 put 00000000000000d3 0=2d
begin 3 put 00000000000000d4 0=-
collect
step 216
finish 205
step 218
finish 220
step 216
step 216
begin 3 put 00000000000000d5 0=9dd8a702
finish 223
step 221
begin 2 put 00000000000000d6 0=702b728f
begin 1 put 00000000000000d7 0=c20b3ea8
step 225
finish 225
begin 3 put 00000000000000d8 0=-
step 216
step 226
step 221
step 221
step 218
step 226
step 222
finish 216
begin 3 put 00000000000000d9 0=15b1272f
step 226
finish 226
step 218
finish 221
feed 53 1
collect
finish 227
begin 2 put 00000000000000da 0=7f89
finish 218
step 222
begin 2 put 00000000000000db 0=-
step 222
begin 2 put 00000000000000dc 0=be7b30
finish 224
begin 2 put 00000000000000dd 0=-
begin 1 put 00000000000000de 0=408a
advance
collect
finish 228
finish 231
finish 230
begin 1 put 00000000000000df 0=f3d6c99a
step 222
step 229
finish 222
finish 229
feed 100 10
begin 3 put 00000000000000e0 0=441b3859
finish 233
begin 1 put 00000000000000e1 0=8c0a80
begin 2 put 00000000000000e2 0=40ce35
finish 236
begin 1 put 00000000000000e3 0=b90f9de4
feed 34 3
begin 1 put 00000000000000e4 0=-
feed 74 3
feed 128 10
begin 1 put 00000000000000e5 0=abba95
step 232
finish 235
begin 2 put 00000000000000e6 0=e1cf3c
step 238
step 232
step 238
finish 232
begin 1 put 00000000000000e7 0=0404
finish 239
finish 238
finish 241
step 234
advance
begin 2 put 00000000000000e8 0=33eb0fdd
begin 3 put 00000000000000e9 0=d1cf
begin 1 put 00000000000000ea 0=-
step 243
step 244
finish 244
begin 3 put 00000000000000eb 0=-
step 245
finish 245
begin 1 put 00000000000000ec 0=47b68ab6
step 240
finish 237
begin 1 put 00000000000000ed 0=7a36b751
finish 247
step 246
begin 2 put 00000000000000ee 0=d8b1
finish 246
finish 242
finish 243
finish 240
feed 231 1
finish 248
finish 234
begin 1 tidy 0000000000000066
finish 249
alone put 00000000000000ef 0=ded4c0b7
begin 1 put 00000000000000f0 0=79491c
begin 1 put 00000000000000f1 0=58f9ae3e
begin 1 put 00000000000000f2 0=c4
begin 3 put 00000000000000f3 0=33
step 251
begin 3 put 00000000000000f4 0=7dec
finish 252
finish 253
begin 3 put 00000000000000f5 0=63dde1
begin 2 put 00000000000000f6 0=f988404c
begin 1 put 00000000000000f7 0=370d26
finish 251
collect
begin 1 put 00000000000000f8 0=934f4e
finish 258
begin 2 get 000000000000009f all
step 260
step 260
step 260
step 260
step 257
finish 254
begin 1 put 00000000000000f9 0=-
step 255
finish 257
begin 1 put 00000000000000fa 0=c8
finish 256
begin 3 put 00000000000000fb 0=515baf
finish 261
begin 2 put 00000000000000fc 0=5259c00b
step 259
step 264
step 259
finish 263
step 260
begin 1 put 00000000000000fd 0=14
finish 262
begin 3 tidy 0000000000000006
finish 259
step 264
begin 3 put 00000000000000fe 0=cb
step 266
step 266
finish 255
begin 1 put 00000000000000ff 0=18c62d30
finish 264
begin 2 put 0000000000000100 0=7a060a9f
step 267
step 269
finish 267
begin 3 put 0000000000000101 0=5544a2
finish 270
begin 2 put 0000000000000102 0=55cac766
finish 269
begin 1 put 0000000000000103 0=4d84
finish 268
begin 3 put 0000000000000104 0=2ab8ac49
feed 252 3
step 260
finish 272
step 273
finish 273
begin 3 put 0000000000000105 0=b2c4
begin 2 put 0000000000000106 0=-
collect
step 274
finish 271
finish 265
finish 260
step 266
collect
begin 1 put 0000000000000107 0=7364
begin 3 put 0000000000000108 0=db7a47eb
step 277
begin 3 put 0000000000000109 0=-
step 278
step 278
step 276
finish 266
begin 1 range 000000000000000c 10 all
finish 275
begin 3 put 000000000000010a 0=-
step 280
finish 280
finish 278
finish 279
step 274
begin 1 tidy 000000000000003a
collect
step 281
finish 277
begin 2 put 000000000000010b 0=d54642
begin 3 put 000000000000010c 0=479267
feed 148 1
begin 1 put 000000000000010d 0=73
step 284
step 284
step 276
feed 170 10
finish 282
step 274
step 281
finish 274
collect
begin 3 put 000000000000010e 0=fb95
step 281
finish 285
begin 1 put 000000000000010f 0=ed
finish 283
begin 3 put 0000000000000110 0=34bee382
begin 2 put 0000000000000111 0=5143
step 288
advance
step 288
finish 284
step 288
finish 276
step 287
begin 2 put 0000000000000112 0=7d6acb
begin 2 get 000000000000010f all
finish 287
begin 3 put 00000000000001e4 0=99f9
step 288
step 286
step 290
step 289
step 281
step 281
step 281
step 281
step 281
step 281
begin 1 put 0000000000000113 0=448201
step 286
step 292
step 288
step 288
step 288
step 288
step 288
step 288
step 288
step 288
step 288
step 288
step 288
step 288
step 288
step 288
step 288
step 288
step 288
step 291
step 286
step 286
step 286
finish 288
step 292
advance
begin 3 put 0000000000000114 0=c1f67689
step 286
step 286
step 286
step 286
step 286
step 286
step 286
step 286
step 286
step 286
step 286
step 286
step 286
step 286
step 286
step 286
step 286
step 286
step 286
step 286
step 286
step 286
step 286
step 292
advance
step 290
step 290
step 290
step 289
step 290
step 289
step 290
step 290
step 290
step 290
step 290
step 290
step 290
step 290
step 290
step 290
step 290
step 290
step 290
step 290
step 290
step 290
step 293
begin 2 put 0000000000000115 0=77d28cd7
step 291
step 294
step 294
finish 286
finish 290
begin 1 put 0000000000000116 0=32425f
finish 291
begin 2 put 0000000000000117 0=-
advance
finish 293
begin 1 put 0000000000000118 0=ac7c30
step 292
step 292
step 292
finish 296
finish 294
finish 297
step 289
step 289
step 289
collect
finish 289
finish 292
begin 1 put 0000000000000119 0=e26058
begin 2 put 000000000000011a 0=b86477b8
begin 3 put 000000000000011b 0=-
begin 1 put 000000000000011c 0=5a4b92f0
begin 1 put 000000000000011d 0=ca2fcc9a
finish 301
begin 2 put 000000000000011e 0=f019
finish 303
step 302
begin 1 put 000000000000011f 0=9ba24c
finish 304
begin 1 put 0000000000000120 0=b8d4c80c
collect
finish 298
begin 2 put 0000000000000121 0=0733aaac
step 300
step 305
finish 295
begin 3 put 0000000000000122 0=25f8
step 306
finish 305
step 302
collect
step 306
finish 299
finish 307
begin 3 put 0000000000000123 0=0152
begin 1 put 0000000000000124 0=4a
begin 2 put 0000000000000125 0=a2d7b8
finish 300
finish 302
step 309
finish 309
finish 310
finish 308
step 306
step 306
begin 1 put 0000000000000126 0=bc13207e
step 311
begin 1 put 0000000000000127 0=912a2657
begin 1 put 0000000000000128 0=-
finish 306
feed 238 3
begin 1 put 0000000000000129 0=86786b32
step 314
step 312
finish 311
finish 314
step 313
finish 312
step 313
step 313
begin 2 put 000000000000012a 0=-
finish 313
begin 3 put 000000000000012b 0=26a1ad97
finish 316
begin 3 put 000000000000012c 0=ba130e
begin 1 put 000000000000012d 0=14
finish 317
step 318
step 315
begin 2 put 000000000000012e 0=77
begin 3 put 000000000000012f 0=3e88ea64
begin 1 put 0000000000000130 0=abb570
step 319
step 318
step 319
begin 1 put 0000000000000131 0=105481
collect
step 315
finish 318
finish 321
begin 3 put 0000000000000132 0=2b
begin 1 put 0000000000000133 0=666be293
finish 315
begin 3 put 0000000000000134 0=bea6c825
finish 323
begin 1 put 0000000000000135 0=98
finish 325
begin 2 put 0000000000000136 0=0bf9
finish 327
begin 2 put 0000000000000137 0=ddafad25
step 320
finish 320
begin 1 put 0000000000000138 0=fdf4e6f1
finish 328
step 326
begin 1 put 0000000000000139 0=9aca8482
step 329
finish 324
finish 319
step 322
finish 322
finish 329
begin 3 put 000000000000013a 0=17eaeab6
begin 2 put 000000000000013b 0=f3
step 331
step 330
begin 1 put 000000000000013c 0=df1b38
step 332
begin 2 put 000000000000013d 0=1b9c
finish 332
step 334
begin 3 put 000000000000013e 0=ad9e
finish 326
finish 333
begin 1 put 000000000000013f 0=-
begin 2 put 0000000000000140 0=-
finish 330
finish 331
finish 336
step 334
begin 3 put 0000000000000141 0=ae770d
finish 335
step 334
finish 338
finish 334
finish 337
begin 3 put 0000000000000142 0=96c1
finish 339
begin 2 range 0000000000000023 1000 all
begin 2 put 0000000000000143 0=-
finish 341
finish 340
collect
alone put 0000000000000144 0=15
feed 196 3
begin 2 put 0000000000000145 0=ca
begin 2 put 0000000000000146 0=4d99b800
finish 344
step 343
finish 343
begin 1 put 0000000000000147 0=574a0f
finish 345
begin 1 put 0000000000000148 0=affaa239
begin 1 put 0000000000000149 0=059f2c
begin 2 put 000000000000014a 0=7087dfbe
begin 1 put 000000000000014b 0=-
finish 348
begin 3 put 000000000000014c 0=1822
feed 227 3
finish 349
finish 347
begin 1 put 000000000000014d 0=-
finish 346
begin 2 put 000000000000014e 0=-
begin 2 put 000000000000014f 0=-
finish 351
begin 3 put 0000000000000150 0=-
finish 354
finish 350
step 352
advance
finish 352
begin 1 put 0000000000000151 0=668897
begin 1 put 00000000000000b1 0=-
finish 355
begin 1 put 0000000000000152 0=6b
begin 2 put 0000000000000153 0=e7
collect
begin 3 put 0000000000000154 0=d03d
step 359
begin 3 put 0000000000000155 0=2f5e6f73
finish 358
begin 1 put 0000000000000156 0=-
finish 356
begin 1 put 0000000000000157 0=20
collect
step 359
step 362
finish 359
step 362
begin 3 put 0000000000000158 0=16
finish 362
step 360
begin 1 put 0000000000000159 0=-
finish 360
step 357
begin 3 put 000000000000015a 0=74
step 357
finish 364
finish 363
begin 2 put 000000000000015b 0=-
finish 366
begin 1 put 000000000000015c 0=-
begin 3 get 000000000000011c all
finish 368
begin 2 put 000000000000015d 0=81d8
finish 361
begin 2 put 000000000000015e 0=63a6
finish 365
begin 3 put 000000000000015f 0=c3c52d
finish 357
begin 2 put 0000000000000160 0=af5b3a
finish 370
advance
finish 353
begin 1 put 0000000000000161 0=8d9bab
begin 2 put 0000000000000162 0=bab4a1
finish 367
begin 2 put 0000000000000163 0=08bd419a
finish 373
begin 3 put 0000000000000164 0=404c55ea
finish 371
begin 2 build prefix 00000000 any
finish 375
feed 63 1
begin 3 put 0000000000000165 0=28
feed 86 1
finish 378
begin 3 put 0000000000000166 0=a157
finish 376
begin 3 put 0000000000000167 0=27db
finish 380
begin 1 put 0000000000000168 0=374fa1
step 372
finish 372
finish 379
step 381
finish 369
step 377
step 377
begin 3 put 0000000000000169 0=111762
finish 382
begin 1 put 000000000000016a 0=b5bfaf3d
step 381
begin 3 put 000000000000016b 0=-
begin 3 put 000000000000016c 0=-
finish 381
begin 3 put 000000000000016d 0=ce7d
finish 385
begin 3 put 000000000000016e 0=94
finish 387
finish 384
finish 377
begin 1 put 000000000000016f 0=-
begin 2 put 0000000000000170 0=8848
apply 0
begin 2 put 0000000000000171 0=-
finish 389
finish 390
begin 2 put 0000000000000172 0=f35db6
begin 3 put 0000000000000173 0=-
step 383
finish 392
finish 388
begin 2 put 0000000000000174 0=48
step 393
finish 383
begin 1 put 0000000000000175 0=-
finish 374
step 386
begin 1 put 0000000000000176 0=5e19
begin 2 put 0000000000000177 0=796c2ce1
finish 391
begin 2 put 0000000000000178 0=09
finish 396
begin 2 put 0000000000000179 0=121abb
step 386
step 395
step 397
finish 386
finish 395
begin 3 put 000000000000017a 0=f9
begin 1 put 000000000000017b 0=9fa22df6
finish 394
finish 397
finish 393
begin 3 put 000000000000017c 0=-
begin 1 put 000000000000017d 0=095c
begin 1 put 000000000000017e 0=8681
collect
apply 0
finish 402
begin 3 put 000000000000017f 0=069653
finish 403
finish 401
finish 404
step 398
drop 2
begin 1 put 0000000000000180 0=-
step 399
finish 400
begin 2 put 0000000000000181 0=6f8eb6fd
begin 1 put 0000000000000182 0=a5
begin 3 put 0000000000000183 0=-
finish 399
finish 406
begin 2 put 0000000000000184 0=62cae64c
step 407
begin 3 put 0000000000000185 0=-
step 407
step 405
finish 398
begin 1 put 0000000000000186 0=-
finish 405
begin 2 put 0000000000000187 0=f7a757fe
step 407
step 412
step 410
finish 407
begin 1 put 0000000000000188 0=e654bf
finish 413
begin 2 put 0000000000000189 0=e079
finish 409
collect
begin 1 get 0000000000000140 all
finish 412
begin 2 put 000000000000018a 0=b66352
step 408
finish 414
finish 408
step 410
begin 1 put 000000000000018b 0=-
begin 3 put 000000000000018c 0=fb
step 411
finish 418
begin 1 put 000000000000018d 0=771ee353
finish 416
collect
finish 419
begin 3 put 000000000000018e 0=3fa186
finish 417
begin 2 put 000000000000018f 0=435c
begin 3 put 0000000000000190 0=daefea9f
step 420
finish 411
begin 1 put 0000000000000191 0=69904f03
finish 422
finish 410
begin 1 put 0000000000000192 0=c25be1
finish 420
finish 423
begin 2 get 0000000000000172 all
advance
finish 421
begin 2 put 0000000000000193 0=691b
finish 415
begin 1 put 0000000000000194 0=-
begin 1 put 0000000000000195 0=cb5df3
begin 2 put 0000000000000196 0=63e6fac7
step 425
finish 427
step 428
step 428
begin 1 put 0000000000000197 0=8b
finish 424
step 425
step 430
step 428
finish 428
finish 425
finish 430
collect
begin 3 put 0000000000000198 0=1f2175e4
step 429
begin 3 put 0000000000000199 0=34c6
step 429
finish 432
step 429
begin 2 put 000000000000019a 0=d1ee
step 426
begin 3 put 000000000000019b 0=cd
finish 426
begin 3 put 000000000000019c 0=4ca34ab3
begin 2 put 000000000000019d 0=6e
step 434
finish 436
finish 429
finish 434
begin 2 put 000000000000019e 0=-
finish 437
begin 1 put 000000000000019f 0=-
step 433
step 438
finish 435
feed 42 10
begin 1 put 00000000000001a0 0=a48f
advance
finish 438
finish 431
finish 439
finish 433
begin 3 put 00000000000001a1 0=f9e49a
finish 440
begin 1 put 00000000000001a2 0=9459
step 441
finish 441
begin 3 put 00000000000001a3 0=e4
finish 442
alone put 00000000000001a4 0=-
begin 3 put 00000000000001a5 0=fdae
begin 1 put 00000000000001a6 0=f8c9
begin 1 put 00000000000001a7 0=66
step 445
begin 2 put 00000000000001a8 0=1fa8
begin 1 put 00000000000001a9 0=b8b9
begin 3 put 00000000000001aa 0=72a0
step 447
feed 161 3
finish 444
begin 2 put 00000000000001ab 0=04
finish 445
begin 1 put 00000000000001ac 0=717721a3
step 448
step 449
finish 446
begin 1 get 000000000000007c all
finish 452
begin 2 put 00000000000001ad 0=31de
finish 451
begin 1 put 00000000000001ae 0=-
collect
step 454
finish 450
step 454
finish 453
begin 2 put 00000000000001af 0=-
step 454
finish 448
begin 2 put 00000000000001b0 0=c0
step 455
begin 2 put 00000000000001b1 0=8d6a6351
step 456
finish 449
begin 1 put 00000000000001b2 0=3d
step 458
feed 415 1
finish 457
finish 458
begin 2 put 00000000000001b3 0=44aaa2
finish 456
finish 459
feed 347 1
begin 3 put 00000000000001b4 0=5973
step 460
finish 447
finish 455
feed 174 10
begin 3 put 00000000000001b5 0=fa112d44
begin 2 put 00000000000001b6 0=b8
finish 460
finish 454
finish 462
finish 461
begin 2 put 00000000000001b7 0=21c4
begin 3 put 00000000000001b8 0=ec647b69
step 464
begin 3 put 00000000000001b9 0=-
feed 381 1
begin 3 put 00000000000001ba 0=-
step 464
begin 2 put 00000000000001bb 0=a935e4
finish 465
begin 3 put 00000000000001bc 0=dc
begin 3 put 00000000000001bd 0=d2dfbc
advance
finish 468
begin 3 put 00000000000001be 0=-
finish 470
collect
finish 464
finish 463
finish 467
begin 1 put 00000000000001bf 0=0a
begin 2 put 00000000000001c0 0=e1301b
step 469
finish 471
step 472
step 466
finish 466
begin 3 put 00000000000001c1 0=-
begin 2 put 00000000000001c2 0=4378bf
begin 2 put 00000000000001c3 0=18e842ba
finish 473
finish 469
step 472
step 472
advance
begin 1 put 00000000000001c4 0=-
begin 3 put 00000000000001c5 0=4c09bb
begin 2 put 00000000000001c6 0=0cf1
finish 472
step 475
step 477
finish 477
finish 474
begin 1 put 00000000000001c7 0=-
begin 3 put 00000000000001c8 0=3141c9
begin 3 put 00000000000001c9 0=c2f4a2e0
finish 478
collect
begin 2 put 00000000000001ca 0=bd
finish 475
finish 481
finish 480
step 476
begin 2 put 00000000000001cb 0=3664
begin 3 put 00000000000001cc 0=-
step 476
finish 482
finish 479
begin 2 put 00000000000001cd 0=-
finish 485
begin 3 put 00000000000001ce 0=1fdb98c8
begin 2 put 00000000000001cf 0=f4e0
finish 484
begin 1 remove 0000000000000107
finish 483
step 476
finish 487
finish 476
begin 1 put 00000000000001d0 0=f4e2
finish 488
begin 2 tidy 00000000000000c5
finish 486
collect
begin 2 put 00000000000001d1 0=58e0e997
feed 17 10
step 490
begin 1 put 00000000000001d2 0=cbd3cbf4
begin 1 put 00000000000001d3 0=-
step 492
begin 2 put 00000000000001d4 0=3bb884
step 489
finish 490
begin 1 put 00000000000001d5 0=36
step 489
step 494
step 495
step 489
finish 492
begin 1 put 00000000000001d6 0=-
finish 493
finish 489
step 491
begin 3 put 00000000000001d7 0=a6be4007
begin 3 put 00000000000001d8 0=21ec9106
step 491
advance
step 497
feed 266 10
feed 287 3
finish 494
begin 2 put 00000000000001d9 0=cd3932a4
finish 497
finish 499
begin 2 put 00000000000001da 0=ffaf1660
finish 498
begin 2 put 00000000000001db 0=3b153c9c
begin 3 get 0000000000000077 all
finish 496
begin 1 put 00000000000001dc 0=4c746f2d
step 503
finish 503
step 501
begin 2 put 00000000000001dd 0=4492
finish 500
begin 1 put 00000000000001de 0=871d0bdd
step 505
step 505
finish 504
finish 505
begin 3 put 00000000000001df 0=df225e
step 501
begin 1 put 00000000000001e0 0=d4b5b5
finish 501
begin 2 put 00000000000001e1 0=75
step 495
finish 507
begin 2 put 00000000000001e2 0=-
finish 509
begin 3 put 00000000000001e3 0=70
finish 506
begin 1 put 00000000000001e4 0=c336f400
step 495
feed 296 10
finish 508
begin 2 put 00000000000001e5 0=956a
step 495
step 491
step 512
step 502
step 502
step 502
step 502
finish 495
begin 1 put 00000000000001e6 0=-
finish 491
step 511
begin 2 put 00000000000001e7 0=0c4376fc
step 514
step 510
finish 514
begin 1 put 00000000000001e8 0=df66aa32
step 513
finish 512
finish 511
begin 2 put 00000000000001e9 0=3b5bfe
advance
step 515
finish 510
begin 1 put 00000000000001ea 0=d70ccc
step 516
finish 515
begin 3 put 00000000000001eb 0=1f
finish 518
finish 513
begin 2 put 00000000000001ec 0=dc30678a
begin 3 put 00000000000001ed 0=36a6
step 517
begin 2 put 00000000000001ee 0=-
step 517
finish 520
finish 502
finish 516
begin 3 put 00000000000001ef 0=873091
advance
step 519
begin 2 put 00000000000001f0 0=c20ef5
finish 517
begin 3 put 00000000000001f1 0=770ec0
finish 521
begin 1 put 00000000000001f2 0=2b7f14e8
begin 3 put 00000000000001f3 0=14b11522
step 523
finish 524
begin 3 put 00000000000001f4 0=9db59d2e
finish 526
finish 523
finish 522
begin 2 put 00000000000001f5 0=57b5
step 519
begin 3 put 00000000000001f6 0=777f6f9f
finish 519
begin 3 get 00000000000001d9 all
begin 1 put 00000000000001f7 0=02f6
feed 188 10
step 531
finish 525
finish 527
step 529
begin 3 put 00000000000001f8 0=7b
begin 3 put 00000000000001f9 0=cc67
finish 529
finish 531
finish 528
finish 530
finish 533
begin 3 put 00000000000001fa 0=25a1c56c
begin 2 put 00000000000001fb 0=6ecd39
finish 534
step 535
begin 2 put 00000000000001fc 0=e4ac
begin 1 put 00000000000001fd 0=-
step 532
begin 2 put 00000000000001fe 0=edea0555
begin 2 put 00000000000001ff 0=3862077c
finish 535
finish 537
finish 539
finish 536
finish 532
step 538
finish 538
alone put 0000000000000200 0=969d87b2
feed 231 3
advance
alone put 0000000000000201 0=-
alone put 0000000000000202 0=156927
begin 3 put 0000000000000203 0=3a7e
finish 543
alone put 0000000000000204 0=-
feed 91 1
feed 367 3
begin 1 put 0000000000000205 0=0de10e74
begin 3 put 0000000000000206 0=04724620
step 545
step 546
step 545
step 546
begin 2 put 0000000000000207 0=2b85
step 546
begin 1 put 0000000000000208 0=-
begin 3 put 0000000000000209 0=c5ce
step 546
step 549
step 547
begin 1 put 000000000000020a 0=-
step 547
step 547
step 545
step 549
finish 546
finish 550
begin 1 put 000000000000020b 0=c9446a0d
begin 1 get 0000000000000054 all
finish 549
step 548
finish 548
finish 545
begin 3 put 000000000000020c 0=70
begin 1 put 000000000000020d 0=-
begin 2 put 000000000000020e 0=211143d2
step 553
step 553
step 552
step 552
step 552
step 552
finish 552
finish 547
step 555
begin 3 put 000000000000020f 0=166f639b
step 554
step 553
begin 3 put 0000000000000210 0=0b886153
step 556
step 551
finish 554
begin 1 put 0000000000000211 0=f5
finish 551
begin 3 get 0000000000000291 all
collect
feed 144 1
finish 553
begin 1 put 0000000000000212 0=90074d
finish 557
begin 1 put 0000000000000213 0=dcf3596f
step 555
advance
finish 561
begin 3 remove 0000000000000067
finish 558
begin 1 put 0000000000000214 0=722041
finish 562
finish 555
finish 556
finish 563
begin 3 put 0000000000000215 0=bcdd7f
begin 2 put 0000000000000216 0=b6c575
begin 2 put 0000000000000217 0=b0
finish 560
begin 1 put 0000000000000218 0=fc1feb
finish 567
advance
advance
begin 3 put 0000000000000219 0=b32eab
begin 1 put 000000000000021a 0=ab4255dc
finish 565
begin 1 put 000000000000021b 0=fa
finish 564
begin 3 put 000000000000021c 0=823d9284
step 566
step 568
step 571
step 570
finish 569
finish 568
finish 559
finish 570
finish 571
begin 3 put 000000000000021d 0=5c70
finish 566
begin 2 put 000000000000021e 0=e9
finish 572
begin 2 put 000000000000021f 0=f134fa
begin 1 put 0000000000000220 0=-
begin 1 put 0000000000000221 0=-
finish 575
begin 1 put 0000000000000222 0=f4
begin 1 put 0000000000000223 0=af7973
begin 2 put 0000000000000224 0=-
step 579
step 573
finish 579
collect
begin 3 put 0000000000000225 0=4e5b76
finish 576
advance
finish 578
begin 3 get 0000000000000289 all
finish 580
advance
begin 3 put 0000000000000226 0=-
begin 1 put 0000000000000227 0=-
finish 574
begin 2 put 0000000000000228 0=-
step 584
step 577
collect
finish 581
finish 583
step 577
finish 573
step 584
begin 3 put 0000000000000229 0=e060
begin 2 tidy 0000000000000026
begin 3 put 000000000000022a 0=ccda8b
step 584
finish 584
finish 587
step 582
begin 1 put 000000000000022b 0=0c28f1d6
finish 588
begin 1 put 000000000000022c 0=58
begin 1 put 000000000000022d 0=92b1e9
step 590
step 589
step 586
step 590
step 590
finish 585
finish 577
begin 1 put 000000000000022e 0=7ab7
finish 591
finish 589
step 582
begin 2 put 000000000000022f 0=-
begin 1 put 0000000000000230 0=528781
begin 1 put 0000000000000231 0=f7
advance
finish 594
begin 1 put 0000000000000232 0=39
finish 582
step 595
begin 2 put 0000000000000233 0=22
step 590
step 590
step 590
step 590
step 586
step 596
finish 590
finish 595
begin 1 put 0000000000000234 0=ef0c1d8a
begin 2 put 0000000000000235 0=b6
finish 598
begin 1 put 0000000000000236 0=a3c3
step 592
finish 593
begin 1 put 0000000000000237 0=-
finish 592
finish 600
begin 2 put 0000000000000238 0=b2dadcdf
begin 2 put 0000000000000239 0=1b
finish 597
begin 3 put 000000000000023a 0=22a25a
step 596
finish 599
finish 602
begin 3 put 000000000000023b 0=68f477b7
finish 603
begin 1 tidy 000000000000010c
begin 2 put 000000000000023c 0=5746
finish 604
step 606
begin 2 put 000000000000023d 0=b31126
step 596
finish 607
collect
finish 586
step 601
step 605
step 601
begin 2 put 000000000000023e 0=4f
step 601
begin 1 put 000000000000023f 0=8bdaad
finish 606
finish 601
step 608
begin 3 put 0000000000000240 0=-
begin 3 put 0000000000000241 0=f05a2e04
step 611
finish 609
finish 611
finish 610
begin 2 put 0000000000000242 0=8e
begin 3 put 0000000000000243 0=8a87c4
begin 1 put 0000000000000244 0=7b24a0
finish 614
begin 2 put 0000000000000245 0=1c94b0
feed 207 3
finish 596
step 612
step 605
begin 1 put 0000000000000246 0=05a1
finish 605
begin 2 put 0000000000000247 0=e431d8cf
step 608
step 608
finish 616
finish 615
finish 612
step 617
begin 2 put 0000000000000248 0=-
collect
finish 613
begin 2 put 0000000000000249 0=cf
finish 617
begin 2 put 000000000000024a 0=d255
step 618
begin 1 put 000000000000024b 0=8311c8d2
step 621
begin 3 put 000000000000024c 0=e8
finish 608
finish 622
step 619
finish 618
finish 621
finish 619
begin 3 put 000000000000024d 0=28c985c8
begin 1 put 000000000000024e 0=5189
step 623
finish 624
step 623
finish 623
finish 620
collect
begin 2 put 000000000000024f 0=-
begin 1 put 0000000000000250 0=-
finish 625
begin 1 put 0000000000000251 0=ee
begin 3 put 0000000000000252 0=-
finish 627
begin 3 put 0000000000000253 0=-
begin 2 put 0000000000000254 0=3a1681d4
begin 2 put 0000000000000255 0=-
step 626
finish 630
step 626
step 628
step 626
begin 1 put 0000000000000256 0=7251fa57
collect
finish 626
begin 1 put 0000000000000257 0=57a62419
advance
begin 2 put 0000000000000258 0=-
step 634
finish 631
finish 629
step 632
begin 1 put 0000000000000259 0=-
begin 2 put 000000000000025a 0=9c82eac4
step 628
step 633
step 633
finish 636
finish 628
step 635
begin 1 put 000000000000025b 0=400c
finish 637
finish 633
finish 634
finish 635
begin 2 put 000000000000025c 0=-
finish 632
begin 2 put 000000000000025d 0=3abf
finish 638
begin 2 put 000000000000025e 0=4872
finish 640
begin 1 put 000000000000025f 0=b741d1
finish 639
feed 458 1
begin 1 put 0000000000000260 0=e139801b
finish 642
step 641
finish 641
alone get 00000000000001cb all
begin 3 put 0000000000000261 0=6a
begin 2 put 0000000000000262 0=b18300
finish 645
finish 644
begin 2 put 0000000000000263 0=f72e8d
finish 646
alone put 0000000000000264 0=-
begin 3 put 0000000000000265 0=3a
begin 3 put 0000000000000266 0=6e
finish 649
begin 2 put 0000000000000267 0=b180
begin 3 put 0000000000000268 0=83
step 648
finish 651
begin 1 put 0000000000000269 0=0859
step 650
begin 3 put 000000000000026a 0=25
begin 2 put 000000000000026b 0=6136
step 650
step 654
begin 1 put 000000000000026c 0=a8d2
step 652
step 655
finish 652
step 654
begin 1 put 000000000000026d 0=8db426
finish 648
begin 1 put 000000000000026e 0=f1b1900e
finish 653
finish 655
begin 2 put 000000000000026f 0=73
finish 654
begin 1 put 0000000000000270 0=cc0222
begin 1 put 0000000000000271 0=6af2c9fc
finish 656
begin 2 put 0000000000000272 0=fc
step 650
finish 658
begin 2 put 0000000000000273 0=12989647
finish 662
begin 2 put 0000000000000274 0=44dfaa
step 660
step 657
finish 659
begin 2 put 0000000000000275 0=149f
step 661
step 661
finish 663
begin 3 put 0000000000000276 0=8751
step 665
step 664
finish 657
begin 3 put 0000000000000277 0=4c84
step 665
step 661
step 665
finish 665
step 661
step 666
begin 3 put 0000000000000278 0=56c414
step 664
step 664
step 666
advance
step 660
feed 582 1
step 664
step 667
step 666
step 660
step 650
step 660
step 664
step 664
step 667
step 664
step 664
step 660
step 650
step 660
step 667
step 666
step 667
step 650
step 650
finish 661
begin 2 put 0000000000000279 0=1a9c
finish 667
finish 666
advance
collect
begin 1 put 000000000000027a 0=-
begin 2 put 000000000000027b 0=-
finish 668
begin 1 put 000000000000027c 0=b5de7b2a
step 664
step 664
step 664
finish 660
finish 671
step 670
step 669
finish 669
begin 2 put 000000000000027d 0=-
advance
step 650
step 672
step 670
begin 3 put 000000000000027e 0=8f
begin 1 put 000000000000027f 0=5416
step 664
step 673
step 664
step 664
step 664
step 664
step 664
step 664
step 664
step 664
step 664
step 664
step 664
step 664
step 664
step 664
step 664
step 664
step 664
step 664
step 650
step 650
step 650
step 650
step 650
step 650
step 650
step 650
step 650
step 650
step 650
step 650
step 650
step 672
step 650
step 664
step 674
step 673
step 672
step 672
step 650
begin 1 put 0000000000000280 0=39c293
feed 210 3
step 673
finish 664
begin 2 put 0000000000000281 0=aa
finish 675
step 676
feed 608 10
begin 1 get 0000000000000145 all
finish 676
finish 677
step 672
step 672
step 672
begin 2 put 0000000000000282 0=682daccf
finish 673
finish 678
step 674
begin 2 put 0000000000000283 0=f824d6ca
begin 2 put 0000000000000284 0=-
finish 674
begin 3 put 0000000000000285 0=2b5c
begin 2 put 0000000000000286 0=9c3398
finish 672
feed 404 3
finish 681
begin 2 put 0000000000000287 0=82
begin 1 put 0000000000000288 0=-
step 680
finish 679
begin 3 put 0000000000000289 0=9801c3ae
step 685
finish 684
finish 685
begin 2 put 000000000000028a 0=66
begin 1 put 000000000000028b 0=c10b70cf
finish 670
begin 2 put 000000000000028c 0=d4591bca
step 682
finish 686
begin 3 put 000000000000028d 0=71
step 687
finish 680
begin 1 put 000000000000028e 0=ab806282
feed 497 3
finish 688
finish 687
begin 3 put 000000000000028f 0=834b
step 689
begin 2 put 0000000000000290 0=8d70600b
finish 683
finish 692
finish 691
begin 3 tidy 00000000000002ab
begin 2 put 0000000000000291 0=56a4
step 682
begin 3 put 0000000000000292 0=-
step 695
finish 694
finish 690
begin 3 put 0000000000000293 0=836c
step 696
step 689
begin 2 put 0000000000000294 0=-
advance
finish 696
begin 2 put 0000000000000295 0=df9abb
finish 695
step 693
finish 697
step 698
begin 2 put 0000000000000296 0=65928f87
begin 3 put 0000000000000297 0=b648c71f
finish 682
begin 2 put 0000000000000298 0=-
advance
step 699
feed 337 10
finish 698
step 699
feed 129 3
begin 1 put 0000000000000299 0=9d1489
step 700
finish 701
step 700
finish 689
begin 2 put 000000000000029a 0=fddcdcd8
finish 699
begin 1 put 000000000000029b 0=dd
begin 2 put 000000000000029c 0=-
step 693
finish 700
finish 702
step 704
begin 2 put 000000000000029d 0=bbdb
begin 1 put 000000000000029e 0=1ade66
finish 706
begin 1 put 000000000000029f 0=c45844
finish 708
begin 3 put 00000000000002a0 0=a5e1
step 704
finish 703
step 704
begin 3 put 00000000000002a1 0=5e1365
step 704
step 693
advance
step 710
finish 704
finish 709
finish 707
step 705
begin 3 put 00000000000002a2 0=-
finish 693
step 711
begin 1 put 00000000000002a3 0=-
finish 712
begin 3 put 00000000000002a4 0=1b
finish 711
begin 2 put 00000000000002a5 0=22
begin 1 put 00000000000002a6 0=4225
finish 705
begin 2 put 00000000000002a7 0=d56ec9fa
finish 713
step 716
begin 3 put 00000000000002a8 0=7c6825
finish 716
step 714
step 714
begin 1 put 00000000000002a9 0=4b
begin 1 put 00000000000002aa 0=be28b68e
step 719
step 717
finish 715
begin 2 get 0000000000000122 all
step 719
finish 714
begin 1 put 00000000000002ab 0=71403c
finish 717
finish 721
step 719
finish 720
begin 3 put 00000000000002ac 0=72e3
begin 3 put 00000000000002ad 0=5d1a18bc
finish 723
finish 718
finish 722
begin 1 put 00000000000002ae 0=bfb44f
begin 1 put 00000000000002af 0=f4906a41
begin 1 put 00000000000002b0 0=-
step 719
begin 2 put 00000000000002b1 0=6d99fc
step 726
finish 719
finish 727
begin 1 put 00000000000002b2 0=1b
finish 710
begin 3 put 00000000000002b3 0=6bdb06e9
begin 1 put 00000000000002b4 0=35
finish 724
begin 1 put 00000000000002b5 0=5308fd
finish 730
advance
begin 3 put 00000000000002b6 0=da0edfc7
finish 731
step 729
collect
finish 729
begin 2 put 00000000000002b7 0=1666a112
step 728
finish 732
begin 3 put 00000000000002b8 0=e7
begin 1 put 00000000000002b9 0=c32f
advance
step 728
finish 735
feed 591 3
begin 2 put 00000000000002ba 0=f7bb6b
step 736
finish 728
finish 733
finish 734
begin 1 put 00000000000002bb 0=f6
begin 3 remove 0000000000000081
begin 1 remove 0000000000000152
finish 725
advance
begin 2 remove 00000000000001d4
step 740
step 740
finish 739
begin 2 remove 000000000000019e
finish 726
begin 1 remove 00000000000000ee
step 742
finish 737
finish 741
collect
begin 1 remove 0000000000000143
feed 630 3
begin 2 remove 0000000000000053
step 743
finish 743
finish 736
begin 1 remove 0000000000000043
finish 740
begin 3 remove 0000000000000282
begin 3 remove 0000000000000190
step 747
collect
finish 747
begin 3 remove 00000000000002bb
finish 738
begin 2 remove 0000000000000027
finish 748
begin 3 remove 00000000000001c6
finish 750
collect
finish 746
begin 2 remove 000000000000026e
begin 2 remove 00000000000002a2
step 745
finish 752
advance
begin 1 remove 00000000000001bd
finish 749
finish 745
begin 3 remove 00000000000000b0
begin 2 remove 0000000000000046
finish 754
begin 2 remove 000000000000010a
collect
finish 756
step 744
begin 1 remove 000000000000018a
step 751
finish 755
begin 2 remove 0000000000000211
collect
step 751
finish 742
finish 753
step 758
finish 744
finish 757
begin 3 remove 0000000000000176
step 759
begin 2 remove 000000000000016e
finish 751
begin 2 remove 0000000000000189
finish 758
feed 497 1
begin 3 remove 000000000000000f
begin 1 remove 0000000000000181
begin 1 remove 00000000000000de
step 763
finish 760
finish 763
finish 759
step 764
begin 1 remove 000000000000015f
finish 762
begin 1 remove 0000000000000119
collect
begin 2 remove 000000000000022a
begin 2 remove 0000000000000208
finish 761
begin 1 remove 000000000000023d
finish 766
step 765
finish 765
finish 764
begin 2 remove 000000000000017e
finish 767
begin 3 remove 0000000000000153
step 770
begin 1 remove 0000000000000164
finish 770
step 769
begin 2 remove 0000000000000249
finish 768
step 771
begin 2 remove 000000000000015b
finish 773
begin 1 remove 000000000000005d
begin 2 remove 000000000000017d
finish 769
begin 2 remove 0000000000000037
finish 771
begin 3 remove 0000000000000002
step 774
finish 778
begin 3 remove 000000000000002a
finish 776
begin 3 remove 000000000000004f
finish 774
begin 2 remove 00000000000001e5
finish 772
finish 777
finish 781
begin 1 remove 00000000000000e4
begin 2 remove 00000000000002ab
begin 3 remove 0000000000000165
step 779
step 784
finish 779
advance
finish 783
finish 780
step 782
begin 1 remove 00000000000000bf
begin 1 remove 0000000000000147
begin 3 remove 00000000000000cc
finish 786
finish 787
finish 782
step 785
finish 775
finish 785
feed 82 3
finish 784
begin 2 remove 00000000000001e1
step 788
begin 2 remove 000000000000001c
finish 789
begin 3 remove 0000000000000196
begin 1 remove 000000000000022d
begin 2 remove 0000000000000238
finish 792
begin 3 remove 00000000000001b7
step 793
begin 2 remove 00000000000000eb
finish 791
step 790
begin 1 remove 0000000000000230
begin 2 remove 000000000000006c
step 788
step 790
finish 788
begin 1 remove 000000000000028a
finish 790
step 797
step 795
finish 795
begin 2 remove 000000000000021e
finish 793
feed 478 10
step 794
begin 3 remove 0000000000000097
finish 798
step 799
begin 3 remove 00000000000001cf
finish 796
begin 2 remove 00000000000000f3
collect
step 794
begin 2 remove 00000000000000a9
feed 170 3
finish 800
step 801
begin 3 remove 00000000000001b8
finish 794
step 801
begin 2 remove 0000000000000269
step 804
finish 802
finish 797
collect
step 801
finish 801
begin 2 remove 0000000000000054
begin 1 remove 00000000000001d5
step 799
step 799
begin 2 remove 00000000000001f7
feed 317 3
step 803
finish 799
step 803
begin 2 remove 0000000000000023
step 804
finish 807
step 808
step 805
begin 3 remove 00000000000000cd
step 803
feed 746 1
finish 805
finish 806
finish 808
begin 3 remove 0000000000000125
step 810
finish 809
collect
feed 34 3
begin 3 remove 00000000000000b4
finish 804
finish 803
begin 1 remove 00000000000000b7
begin 2 remove 000000000000001b
finish 812
begin 1 remove 00000000000000db
finish 814
begin 1 remove 00000000000001d3
begin 1 remove 00000000000002b3
begin 2 remove 000000000000008e
finish 815
begin 1 remove 00000000000000c1
step 817
finish 816
begin 3 remove 00000000000001c1
finish 813
collect
finish 818
begin 3 remove 00000000000001d1
finish 811
step 817
begin 2 remove 000000000000029f
begin 1 remove 0000000000000157
step 820
finish 810
step 821
begin 2 remove 0000000000000073
step 821
step 822
finish 820
begin 1 remove 0000000000000013
step 823
finish 817
begin 2 remove 000000000000018e
finish 824
begin 1 remove 0000000000000218
finish 826
begin 1 remove 0000000000000273
finish 819
finish 821
begin 2 remove 00000000000000ea
finish 827
collect
step 823
finish 825
begin 2 remove 0000000000000071
begin 3 remove 0000000000000132
begin 2 remove 0000000000000028
finish 822
finish 823
begin 3 remove 0000000000000100
begin 1 remove 0000000000000092
step 831
finish 829
begin 1 remove 00000000000001e2
collect
finish 832
finish 831
begin 3 remove 000000000000006e
finish 834
step 835
finish 833
begin 3 remove 0000000000000021
finish 828
step 830
begin 1 remove 00000000000001be
step 837
begin 2 remove 00000000000000cb
begin 2 remove 00000000000001ab
step 837
finish 837
begin 1 remove 00000000000000b1
finish 838
collect
step 830
begin 1 range 00000000000001cf 1 all
step 840
step 840
finish 836
begin 2 remove 00000000000001fa
step 839
step 839
step 842
finish 840
finish 839
begin 1 remove 000000000000010c
step 843
feed 486 3
begin 3 remove 0000000000000274
finish 830
step 841
finish 842
finish 841
begin 2 remove 00000000000000bd
begin 3 remove 0000000000000227
step 845
step 835
finish 844
finish 845
begin 3 remove 00000000000000c5
finish 835
begin 1 remove 0000000000000114
advance
begin 3 remove 0000000000000220
begin 2 remove 0000000000000159
finish 843
begin 2 remove 000000000000007b
finish 847
finish 851
step 848
step 850
feed 157 1
begin 2 remove 000000000000018b
begin 3 remove 000000000000016a
finish 852
begin 2 remove 00000000000001c9
finish 853
begin 1 remove 00000000000002b2
step 848
step 854
finish 855
finish 849
step 846
finish 850
step 848
begin 2 remove 000000000000020e
begin 3 remove 0000000000000130
collect
finish 856
begin 2 remove 00000000000001ff
begin 3 remove 0000000000000221
finish 846
step 857
finish 854
advance
finish 858
begin 1 remove 000000000000005c
begin 3 remove 00000000000002a3
finish 861
begin 2 remove 00000000000000f8
step 848
finish 848
begin 2 remove 000000000000014d
begin 1 remove 0000000000000133
finish 859
step 863
finish 863
finish 864
begin 3 remove 0000000000000063
finish 862
begin 1 remove 00000000000000a2
finish 860
begin 3 remove 0000000000000138
finish 857
begin 3 remove 00000000000000d9
finish 866
finish 867
finish 865
finish 868
alone remove 00000000000002a5
begin 3 remove 0000000000000214
begin 1 remove 000000000000008c
begin 1 remove 0000000000000005
begin 2 remove 00000000000001f5
begin 1 remove 00000000000002a0
finish 871
finish 873
begin 3 remove 000000000000010f
begin 3 remove 0000000000000198
finish 876
begin 1 remove 00000000000000fc
begin 2 remove 0000000000000104
finish 878
begin 3 range 00000000000000c6 1000 all
finish 875
begin 3 remove 000000000000029b
finish 877
finish 872
advance
begin 1 remove 000000000000008d
begin 1 remove 0000000000000074
finish 881
step 874
begin 3 remove 0000000000000217
finish 879
begin 1 remove 0000000000000257
finish 870
begin 1 get 000000000000002c all
feed 281 1
step 883
step 880
finish 884
begin 2 remove 0000000000000083
step 883
step 883
finish 883
feed 526 1
finish 886
finish 885
step 882
begin 3 remove 000000000000019b
begin 2 remove 00000000000000c6
finish 874
finish 888
step 882
begin 3 remove 000000000000017f
begin 2 remove 00000000000001d8
finish 889
finish 890
step 880
finish 882
advance
begin 2 remove 000000000000009f
begin 1 get 000000000000023d all
begin 1 remove 0000000000000172
begin 1 remove 00000000000000fa
step 892
step 892
finish 880
begin 2 remove 0000000000000177
finish 894
finish 887
finish 895
begin 1 remove 00000000000001b2
finish 896
finish 892
step 891
advance
begin 1 remove 00000000000001de
begin 1 remove 00000000000002ac
begin 2 remove 0000000000000141
finish 899
finish 893
finish 891
step 897
begin 2 remove 00000000000001a4
finish 900
finish 898
begin 1 remove 0000000000000066
finish 901
begin 3 remove 0000000000000126
begin 2 remove 0000000000000199
begin 1 remove 0000000000000098
finish 902
begin 1 remove 000000000000028c
begin 2 remove 00000000000001c8
begin 2 put 00000000000001ef 0=bb1d
step 905
finish 903
collect
begin 3 remove 0000000000000250
finish 907
step 906
begin 2 remove 00000000000002b5
finish 908
step 897
finish 906
finish 897
begin 1 remove 00000000000001f9
begin 3 remove 0000000000000264
step 904
finish 911
feed 771 1
begin 3 remove 00000000000002a7
step 905
finish 912
begin 3 remove 0000000000000272
finish 905
begin 3 remove 000000000000011c
finish 914
begin 1 remove 0000000000000271
finish 910
step 909
finish 904
advance
begin 2 remove 00000000000000f6
begin 1 remove 0000000000000102
finish 913
begin 1 remove 000000000000000c
feed 838 10
begin 3 remove 0000000000000144
finish 918
begin 1 remove 0000000000000261
finish 909
feed 784 10
begin 3 remove 00000000000000dc
finish 919
finish 916
step 915
step 917
begin 1 remove 0000000000000203
begin 3 remove 000000000000011e
step 921
finish 917
finish 915
feed 112 1
step 923
finish 921
finish 920
step 922
begin 3 remove 000000000000024f
begin 3 remove 0000000000000107
advance
step 923
begin 2 remove 00000000000000e2
begin 2 remove 00000000000001ef
finish 924
finish 926
feed 863 10
step 927
advance
feed 184 3
finish 922
step 925
begin 1 remove 00000000000002ba
begin 3 remove 00000000000000fd
begin 3 remove 0000000000000213
step 928
step 927
finish 928
finish 925
begin 2 remove 0000000000000288
step 930
begin 2 remove 0000000000000185
finish 927
step 929
begin 1 remove 000000000000022c
feed 839 10
step 930
finish 933
step 931
begin 1 remove 00000000000000fe
finish 932
step 929
step 923
feed 117 10
finish 923
begin 2 remove 0000000000000110
begin 3 remove 0000000000000209
step 930
finish 935
begin 1 remove 000000000000014a
finish 930
finish 931
finish 937
begin 2 remove 000000000000006b
step 934
collect
begin 2 remove 0000000000000068
finish 939
finish 936
advance
finish 938
begin 3 remove 0000000000000235
finish 929
begin 2 remove 0000000000000200
finish 934
begin 2 remove 0000000000000086
feed 122 10
begin 1 remove 00000000000000df
begin 2 remove 0000000000000058
begin 1 remove 00000000000000b5
finish 941
finish 942
finish 944
step 943
finish 945
finish 943
begin 2 remove 00000000000000cf
begin 2 remove 0000000000000174
begin 2 remove 0000000000000231
begin 3 remove 0000000000000128
collect
begin 3 remove 000000000000005f
step 946
finish 947
begin 1 remove 00000000000001cb
finish 946
begin 1 remove 0000000000000265
step 940
finish 951
step 950
begin 2 remove 000000000000021c
finish 949
finish 952
begin 3 remove 0000000000000154
begin 1 remove 00000000000001e0
step 955
finish 954
begin 1 remove 0000000000000180
step 950
finish 953
finish 956
finish 940
begin 1 remove 000000000000018f
finish 955
begin 3 remove 00000000000002ad
step 948
finish 957
finish 950
step 958
begin 1 remove 0000000000000277
step 958
step 958
begin 1 remove 0000000000000239
finish 959
finish 958
begin 2 remove 00000000000000d5
finish 960
begin 1 remove 0000000000000008
finish 948
step 962
finish 962
finish 961
begin 3 remove 0000000000000182
finish 963
begin 1 remove 00000000000002af
finish 964
alone remove 00000000000000a7
begin 1 remove 00000000000000ac
step 966
begin 2 remove 000000000000001a
begin 2 remove 00000000000001a6
step 966
finish 967
finish 968
step 966
begin 1 remove 0000000000000207
begin 1 remove 0000000000000161
finish 970
begin 3 remove 000000000000002c
begin 2 remove 0000000000000111
advance
finish 971
finish 969
finish 966
begin 2 remove 0000000000000236
step 972
begin 1 remove 00000000000001f1
begin 1 remove 000000000000023a
begin 3 get 0000000000000087 all
begin 1 get 000000000000024a all
finish 973
step 976
begin 2 remove 000000000000008f
finish 972
begin 1 remove 0000000000000228
finish 976
begin 3 remove 0000000000000014
finish 975
begin 3 remove 00000000000000c3
finish 977
finish 979
begin 1 remove 0000000000000032
finish 974
step 982
begin 2 remove 000000000000029e
step 982
begin 1 remove 0000000000000253
finish 982
begin 2 remove 0000000000000099
finish 980
finish 978
finish 983
begin 2 remove 000000000000017a
begin 1 remove 0000000000000106
begin 2 remove 0000000000000060
step 987
finish 981
begin 2 remove 00000000000000d6
finish 988
begin 2 remove 0000000000000124
finish 989
begin 2 remove 0000000000000055
finish 991
finish 985
begin 3 remove 0000000000000234
begin 1 remove 00000000000001ae
finish 993
feed 640 1
begin 2 remove 00000000000000e6
finish 987
feed 96 3
finish 986
begin 2 remove 000000000000023b
feed 441 1
finish 992
begin 3 get 0000000000000172 all
begin 1 remove 000000000000003f
finish 990
finish 995
begin 3 remove 000000000000011b
begin 1 remove 00000000000000ff
step 994
collect
finish 994
step 998
finish 984
begin 3 remove 0000000000000258
begin 3 remove 00000000000001ee
finish 999
finish 1000
begin 1 remove 000000000000003a
step 998
begin 1 remove 00000000000001c3
step 998
finish 998
collect
begin 2 remove 00000000000000f2
finish 1002
finish 1001
begin 3 remove 0000000000000193
begin 2 remove 000000000000025c
step 1006
step 1005
collect
step 1004
step 1004
finish 1004
finish 1003
finish 997
step 1005
begin 2 remove 0000000000000078
step 1005
begin 2 remove 00000000000001dc
begin 3 remove 000000000000009a
finish 996
begin 3 remove 0000000000000137
finish 1008
begin 3 remove 0000000000000057
advance
finish 1011
finish 1010
begin 1 remove 0000000000000178
step 1007
finish 1006
begin 3 remove 00000000000001d9
begin 3 remove 00000000000001ad
step 1009
step 1014
step 1005
step 1014
step 1009
finish 1005
begin 3 remove 00000000000001a2
finish 1012
begin 1 remove 000000000000013e
step 1015
step 1015
step 1014
finish 1013
finish 1016
finish 1015
begin 3 remove 0000000000000051
begin 3 remove 000000000000002d
begin 1 remove 00000000000000ec
step 1017
finish 1007
finish 1014
advance
finish 1009
begin 2 remove 0000000000000003
finish 1020
begin 1 remove 000000000000027c
step 1019
collect
finish 1019
feed 922 10
begin 2 remove 00000000000000e0
begin 2 get 0000000000000290 all
finish 1018
step 1023
step 1023
step 1023
step 1023
finish 1023
begin 2 remove 00000000000002b1
step 1022
step 1022
step 1024
finish 1024
begin 1 remove 0000000000000287
begin 3 remove 00000000000001f6
advance
finish 1017
begin 3 remove 0000000000000067
finish 1026
begin 3 remove 0000000000000123
feed 792 10
step 1027
finish 1022
begin 3 remove 000000000000028b
begin 2 remove 00000000000001ce
finish 1027
begin 3 remove 0000000000000175
finish 1029
begin 1 remove 00000000000000fb
finish 1030
step 1031
finish 1025
finish 1031
finish 1021
finish 1028
begin 3 remove 00000000000002b4
finish 1033
step 1032
finish 1032
begin 3 remove 0000000000000041
begin 1 remove 0000000000000004
begin 2 remove 00000000000001a8
begin 1 remove 0000000000000283
step 1035
step 1035
begin 1 remove 0000000000000276
finish 1034
advance
begin 3 remove 00000000000002a6
step 1039
step 1035
begin 1 remove 00000000000000bc
finish 1038
finish 1037
advance
feed 273 3
finish 1039
begin 3 remove 0000000000000256
begin 1 get 00000000000000cd all
finish 1035
finish 1040
finish 1042
finish 1036
begin 3 remove 0000000000000246
step 1041
step 1041
finish 1041
begin 3 remove 0000000000000186
begin 1 remove 0000000000000108
begin 1 remove 0000000000000036
begin 3 remove 00000000000002b0
finish 1043
finish 1046
finish 1044
step 1047
advance
begin 3 remove 000000000000020f
begin 1 remove 000000000000015d
begin 3 remove 0000000000000169
begin 3 remove 0000000000000061
finish 1047
finish 1051
collect
begin 3 remove 00000000000000e5
begin 1 build range 000000000000021c none any
step 1052
finish 1052
begin 1 remove 00000000000001f3
finish 1054
finish 1048
step 1045
begin 3 remove 00000000000000a6
begin 1 remove 000000000000009e
step 1053
finish 1049
finish 1053
finish 1055
step 1056
step 1045
begin 1 remove 0000000000000105
begin 2 remove 0000000000000015
finish 1050
advance
begin 3 remove 0000000000000115
finish 1059
begin 3 remove 0000000000000225
begin 2 remove 0000000000000194
step 1061
step 1058
collect
finish 1045
finish 1060
finish 1058
begin 2 remove 000000000000016b
begin 3 remove 0000000000000056
collect
begin 3 remove 0000000000000243
finish 1064
begin 3 remove 00000000000001b3
step 1065
finish 1065
step 1063
begin 2 remove 000000000000012f
finish 1066
begin 3 remove 000000000000014e
finish 1062
advance
finish 1063
finish 1056
begin 3 remove 000000000000024c
finish 1067
begin 1 remove 000000000000011d
begin 3 remove 000000000000026b
finish 1057
apply 0
begin 1 remove 000000000000001f
step 1070
finish 1068
finish 1061
begin 3 get 000000000000001d all
begin 3 remove 000000000000021d
step 1071
begin 3 remove 000000000000005e
step 1071
step 1072
step 1071
step 1074
finish 1071
begin 1 get 00000000000002ac all
step 1073
finish 1072
begin 1 remove 0000000000000160
step 1070
finish 1073
step 1070
begin 2 remove 000000000000019a
step 1070
step 1069
view 3 0 - 10
step 1074
step 1070
step 1070
step 1070
step 1070
step 1070
step 1070
step 1070
step 1070
step 1070
step 1070
step 1070
step 1074
step 1075
step 1075
step 1070
step 1069
step 1069
collect
step 1074
step 1070
finish 1070
begin 2 remove 0000000000000009
step 1078
step 1069
step 1075
step 1075
step 1075
step 1075
step 1075
step 1077
step 1078
step 1075
step 1075
step 1075
step 1075
step 1078
step 1074
step 1074
step 1074
step 1074
step 1074
step 1074
step 1074
advance
begin 2 remove 000000000000029a
step 1069
step 1069
step 1069
step 1069
step 1069
step 1069
step 1069
step 1069
step 1069
step 1069
step 1076
view 3 0 - 1000
step 1078
step 1069
finish 1069
step 1074
begin 3 remove 000000000000021b
step 1077
step 1076
step 1080
step 1077
view 3 0 - 1
step 1079
step 1077
step 1076
step 1077
step 1077
step 1077
step 1077
step 1077
step 1077
step 1077
step 1077
step 1077
step 1076
step 1074
finish 1074
step 1076
step 1076
step 1076
step 1076
step 1076
step 1076
step 1076
step 1076
step 1076
step 1078
step 1078
step 1078
step 1078
step 1078
step 1078
step 1078
step 1078
step 1078
begin 3 remove 00000000000001a5
step 1077
step 1078
step 1079
step 1077
finish 1077
begin 3 remove 0000000000000163
step 1079
step 1080
step 1082
step 1081
step 1078
finish 1078
apply 3
begin 1 remove 0000000000000188
step 1083
step 1076
step 1082
step 1076
finish 1076
begin 3 remove 00000000000000bb
step 1083
finish 1082
finish 1084
begin 2 remove 00000000000002a1
finish 1081
advance
begin 3 remove 00000000000001e8
advance
apply 0
step 1080
step 1086
finish 1086
step 1079
step 1085
begin 1 remove 0000000000000116
begin 3 remove 000000000000028d
finish 1079
step 1080
begin 3 remove 0000000000000030
finish 1080
begin 2 remove 00000000000001e6
step 1090
finish 1085
advance
begin 2 remove 00000000000001a3
finish 1089
begin 2 remove 0000000000000263
step 1091
finish 1091
begin 3 remove 00000000000001f0
apply 0
finish 1088
begin 1 remove 00000000000002b7
step 1090
finish 1087
finish 1090
finish 1094
finish 1093
begin 3 remove 00000000000000f0
begin 1 remove 0000000000000291
begin 1 remove 0000000000000022
begin 3 remove 00000000000000d1
finish 1097
step 1098
apply 3
begin 2 remove 0000000000000252
finish 1096
step 1083
finish 1083
step 1098
begin 1 remove 0000000000000285
begin 2 put 0000000000000251 0=-
finish 1100
step 1095
finish 1099
begin 3 remove 000000000000028e
begin 2 remove 00000000000000c7
finish 1101
begin 1 remove 0000000000000170
finish 1103
finish 1095
begin 1 remove 000000000000020d
begin 3 remove 00000000000001bc
finish 1098
finish 1106
finish 1092
step 1105
finish 1102
finish 1104
begin 2 remove 0000000000000034
finish 1105
step 1107
begin 1 remove 0000000000000238
apply 0
step 1107
finish 1108
finish 1107
begin 2 remove 0000000000000032
finish 1109
begin 3 put 00000000000000a5 0=-
finish 1110
begin 3 remove 0000000000000210
begin 1 remove 00000000000000ad
step 1112
step 1112
step 1112
step 1112
step 1111
begin 1 remove 00000000000000d4
step 1111
step 1113
begin 3 remove 00000000000000d0
step 1111
step 1113
begin 3 remove 00000000000002a4
begin 1 remove 0000000000000233
apply 0
step 1114
step 1113
step 1113
step 1112
step 1112
step 1112
step 1112
step 1112
step 1112
step 1112
step 1112
step 1112
step 1116
step 1113
step 1113
step 1113
step 1113
step 1113
step 1113
step 1113
step 1113
step 1113
step 1112
step 1114
step 1112
finish 1112
begin 1 remove 0000000000000267
step 1111
step 1111
step 1111
step 1111
step 1111
step 1111
step 1111
step 1111
step 1115
step 1113
step 1114
step 1114
feed 398 1
step 1111
step 1115
step 1116
step 1116
step 1115
step 1117
step 1115
step 1115
step 1115
step 1115
step 1115
step 1115
step 1116
step 1111
finish 1111
begin 1 remove 000000000000007d
step 1114
step 1114
step 1114
step 1114
step 1114
step 1114
step 1114
step 1114
step 1114
step 1114
step 1113
finish 1113
begin 3 remove 00000000000001bb
step 1117
step 1119
step 1119
step 1118
step 1114
finish 1114
step 1115
step 1118
begin 1 remove 00000000000001bf
step 1119
step 1120
step 1116
step 1116
step 1116
step 1116
step 1116
step 1116
step 1116
step 1116
step 1118
apply 0
step 1118
step 1116
step 1118
step 1118
step 1118
step 1118
step 1118
step 1118
step 1118
step 1118
step 1118
step 1118
step 1118
step 1117
step 1120
step 1115
finish 1115
step 1116
finish 1116
apply 0
begin 3 remove 00000000000000c0
step 1117
step 1117
step 1117
step 1117
step 1117
step 1117
step 1117
step 1117
step 1117
step 1117
step 1117
begin 3 remove 0000000000000223
step 1121
step 1122
collect
step 1117
step 1117
finish 1117
step 1122
step 1118
begin 3 put 00000000000001ef 0=95ff40
step 1118
finish 1118
begin 1 remove 00000000000000f1
step 1119
finish 1119
begin 2 remove 0000000000000082
finish 1122
finish 1120
begin 3 remove 000000000000007f
step 1123
begin 3 remove 000000000000002f
step 1127
finish 1125
begin 1 remove 000000000000026c
finish 1126
begin 3 remove 000000000000027f
step 1124
step 1121
step 1121
finish 1121
begin 2 remove 000000000000012c
step 1124
finish 1130
begin 2 remove 000000000000016c
finish 1128
collect
finish 1129
finish 1124
finish 1131
begin 2 remove 00000000000000da
begin 3 remove 000000000000022e
finish 1127
step 1123
finish 1133
finish 1132
step 1123
begin 2 remove 00000000000000e1
step 1123
step 1134
begin 1 remove 0000000000000259
begin 1 remove 0000000000000184
begin 1 remove 00000000000001cd
step 1135
step 1136
step 1135
step 1136
begin 2 remove 000000000000004d
step 1134
step 1138
step 1136
step 1138
step 1137
step 1136
step 1138
step 1136
step 1136
step 1136
step 1136
step 1136
step 1136
step 1136
step 1134
apply 0
step 1135
step 1134
step 1136
step 1136
finish 1136
begin 1 remove 00000000000001ed
step 1135
step 1123
step 1123
step 1123
step 1123
step 1123
step 1123
step 1123
step 1123
step 1134
step 1134
step 1134
step 1134
step 1134
step 1134
step 1138
step 1138
step 1138
step 1138
step 1138
step 1138
step 1138
step 1138
step 1138
step 1138
step 1138
step 1138
step 1138
step 1137
step 1138
finish 1138
step 1139
step 1135
step 1135
step 1135
step 1135
step 1135
step 1135
step 1135
step 1135
step 1135
begin 2 remove 0000000000000298
step 1134
step 1135
finish 1135
step 1139
begin 2 remove 0000000000000085
step 1123
step 1123
step 1141
step 1141
step 1137
begin 3 remove 0000000000000089
step 1137
collect
step 1139
step 1142
step 1139
step 1141
step 1140
step 1140
step 1141
step 1139
step 1139
step 1139
step 1139
step 1139
step 1139
step 1139
step 1139
step 1139
step 1141
step 1141
step 1141
step 1141
step 1141
step 1141
step 1141
step 1141
step 1139
finish 1139
step 1142
step 1137
step 1137
step 1137
step 1137
step 1137
step 1137
step 1137
step 1137
step 1137
begin 3 remove 00000000000000f9
step 1141
step 1137
step 1142
step 1140
step 1143
step 1142
advance
step 1141
finish 1141
begin 3 remove 000000000000029c
step 1142
step 1142
step 1142
step 1142
step 1142
step 1142
step 1142
step 1142
step 1142
step 1143
step 1140
collect
step 1144
step 1134
finish 1134
begin 1 remove 0000000000000044
step 1143
step 1145
step 1137
finish 1137
begin 1 remove 000000000000008a
step 1145
step 1145
step 1143
step 1142
step 1144
step 1140
step 1140
step 1140
step 1140
step 1140
step 1140
step 1140
step 1140
step 1142
finish 1142
begin 3 remove 0000000000000018
step 1147
step 1140
step 1147
step 1144
step 1140
finish 1140
begin 1 remove 000000000000002b
step 1145
step 1144
step 1147
step 1146
step 1147
step 1147
step 1147
step 1147
step 1147
step 1147
step 1147
step 1147
step 1147
step 1146
step 1145
step 1145
step 1145
step 1145
step 1145
step 1145
step 1145
step 1145
step 1145
step 1145
step 1144
step 1144
step 1144
step 1144
step 1144
step 1144
step 1144
apply 3
step 1145
step 1143
step 1143
step 1143
step 1143
step 1143
step 1143
step 1143
step 1143
step 1148
step 1144
step 1144
finish 1144
begin 2 remove 00000000000002b8
advance
step 1148
step 1149
step 1147
step 1148
step 1147
finish 1147
step 1145
finish 1145
step 1148
step 1148
step 1148
step 1148
step 1148
step 1148
step 1148
step 1148
begin 2 remove 00000000000001ec
step 1146
step 1149
step 1143
begin 1 remove 00000000000001d0
step 1149
step 1149
step 1151
step 1148
step 1150
step 1146
step 1143
finish 1143
view 3 0 - 1
step 1151
begin 3 remove 00000000000000aa
step 1150
step 1150
step 1152
step 1152
step 1148
finish 1148
drop 3
begin 3 remove 0000000000000029
step 1153
step 1153
step 1149
step 1149
step 1149
step 1149
step 1149
step 1149
step 1149
feed 609 1
step 1152
step 1151
step 1150
step 1149
step 1146
step 1146
step 1146
step 1146
step 1146
step 1146
step 1146
step 1146
step 1153
step 1153
step 1151
step 1149
finish 1149
step 1152
begin 1 remove 00000000000000c4
step 1154
step 1146
step 1152
step 1152
step 1152
step 1152
step 1152
step 1152
step 1152
step 1152
feed 605 1
step 1153
step 1153
step 1153
step 1153
step 1153
step 1153
step 1150
step 1150
step 1150
step 1150
step 1150
step 1150
step 1150
step 1152
step 1150
step 1146
finish 1146
begin 1 remove 0000000000000212
step 1152
finish 1152
step 1154
begin 3 remove 00000000000001f8
step 1155
step 1151
step 1151
step 1151
step 1151
step 1151
step 1151
step 1151
step 1151
step 1153
step 1154
step 1154
step 1154
step 1154
step 1154
step 1154
step 1154
step 1154
step 1155
step 1156
step 1153
finish 1153
begin 2 remove 0000000000000122
feed 525 10
step 1154
step 1157
step 1156
step 1151
step 1157
step 1156
step 1157
step 1157
step 1150
finish 1150
feed 482 1
step 1154
finish 1154
step 1151
finish 1151
begin 2 remove 000000000000025b
step 1156
begin 3 remove 00000000000001b4
step 1155
step 1157
step 1157
step 1157
step 1157
step 1157
step 1157
step 1157
step 1157
step 1155
step 1157
finish 1157
step 1159
begin 1 remove 000000000000019f
begin 2 remove 0000000000000019
step 1158
step 1161
feed 43 1
step 1160
step 1159
step 1158
step 1155
step 1155
step 1155
step 1155
step 1155
step 1155
step 1160
step 1160
step 1158
step 1161
step 1161
step 1159
step 1156
step 1156
step 1156
step 1156
step 1156
step 1156
step 1156
step 1158
step 1160
step 1155
step 1158
step 1158
step 1158
step 1158
step 1158
step 1158
step 1158
step 1161
step 1158
step 1158
finish 1158
step 1155
finish 1155
step 1160
step 1160
step 1160
step 1160
step 1160
step 1160
step 1160
step 1160
step 1161
step 1161
step 1161
step 1161
step 1161
step 1161
step 1161
step 1160
step 1161
begin 2 remove 000000000000024b
begin 3 remove 0000000000000270
step 1163
step 1163
step 1161
finish 1161
step 1162
step 1160
finish 1160
step 1162
begin 1 remove 00000000000001da
step 1159
step 1159
step 1159
step 1159
step 1159
step 1159
step 1159
step 1159
step 1159
step 1162
step 1162
begin 2 remove 00000000000000b3
step 1159
step 1164
step 1156
step 1159
finish 1159
begin 2 remove 000000000000022b
step 1165
step 1156
finish 1156
begin 2 remove 00000000000000e3
finish 1162
step 1165
begin 2 remove 00000000000000e9
step 1164
step 1168
finish 1165
finish 1168
step 1163
step 1166
finish 1167
advance
begin 2 remove 0000000000000049
finish 1163
finish 1164
feed 298 10
begin 3 remove 00000000000000d7
finish 1170
begin 2 remove 000000000000005a
finish 1166
begin 2 remove 00000000000001b9
begin 2 remove 0000000000000148
begin 1 remove 0000000000000155
begin 3 remove 0000000000000294
finish 1172
finish 1174
begin 3 remove 00000000000001c5
begin 2 remove 0000000000000050
step 1177
finish 1177
begin 3 remove 00000000000000f5
collect
finish 1173
begin 2 remove 00000000000001ac
step 1179
advance
finish 1171
begin 1 remove 0000000000000299
finish 1175
step 1179
step 1178
step 1176
begin 3 remove 0000000000000179
finish 1180
finish 1169
finish 1176
finish 1179
finish 1178
collect
step 1181
finish 1181
feed 429 1
collect
alone remove 00000000000001f2
alone remove 000000000000022f
begin 3 remove 000000000000016d
begin 2 get 00000000000000ca all
begin 3 remove 00000000000001ee
begin 2 get 00000000000001d6 all
step 1185
begin 3 remove 000000000000000d
finish 1187
begin 2 remove 0000000000000096
begin 2 remove 0000000000000077
finish 1185
feed 129 1
begin 2 remove 0000000000000038
step 1186
step 1184
step 1186
finish 1188
begin 1 remove 000000000000001e
step 1184
step 1190
finish 1189
finish 1190
finish 1192
begin 3 remove 0000000000000131
begin 2 remove 0000000000000151
begin 1 remove 0000000000000088
finish 1186
begin 3 remove 00000000000001a9
step 1184
finish 1194
begin 2 remove 0000000000000095
finish 1184
step 1197
finish 1191
finish 1197
begin 1 remove 00000000000002a8
begin 2 remove 0000000000000192
begin 2 remove 000000000000026a
step 1198
finish 1195
begin 3 remove 0000000000000244
finish 1193
step 1198
step 1196
finish 1200
begin 3 remove 000000000000004b
step 1196
begin 3 remove 0000000000000167
finish 1196
begin 3 remove 000000000000000b
finish 1198
step 1202
finish 1201
finish 1199
feed 994 1
begin 1 remove 000000000000028f
finish 1204
step 1205
advance
begin 1 remove 00000000000001d6
finish 1203
finish 1206
step 1202
begin 3 remove 000000000000015e
begin 2 remove 000000000000019c
finish 1205
begin 2 remove 00000000000001fe
begin 2 remove 000000000000005b
finish 1210
collect
step 1208
begin 3 remove 000000000000023c
finish 1202
step 1207
finish 1207
finish 1208
begin 3 remove 0000000000000087
step 1209
finish 1211
begin 1 remove 0000000000000240
finish 1209
step 1212
finish 1212
finish 1213
begin 1 remove 0000000000000201
finish 1214
begin 2 remove 0000000000000187
step 1215
step 1215
finish 1215
begin 3 range 0000000000000224 1 all
step 1216
step 1216
begin 3 remove 0000000000000262
finish 1217
finish 1216
collect
begin 2 remove 0000000000000069
begin 1 remove 000000000000023f
begin 3 remove 0000000000000120
step 1218
begin 2 remove 000000000000016f
advance
begin 1 remove 00000000000000af
finish 1219
begin 2 remove 0000000000000031
finish 1223
step 1218
begin 3 remove 000000000000010e
begin 2 remove 00000000000001a7
step 1218
finish 1222
step 1221
begin 1 remove 0000000000000145
finish 1218
finish 1226
begin 3 remove 000000000000027a
begin 1 remove 00000000000001b1
finish 1228
step 1221
step 1220
begin 1 remove 00000000000000ca
finish 1224
begin 3 remove 0000000000000084
finish 1227
begin 1 remove 00000000000000f4
finish 1225
begin 1 remove 000000000000026e
finish 1231
begin 1 remove 000000000000029d
finish 1220
begin 2 remove 00000000000001f4
step 1233
finish 1234
finish 1232
finish 1230
step 1233
begin 3 remove 0000000000000079
finish 1233
begin 1 remove 00000000000001fb
begin 3 remove 0000000000000103
finish 1235
begin 2 remove 0000000000000040
finish 1237
begin 3 remove 0000000000000020
begin 3 remove 0000000000000278
finish 1239
step 1238
finish 1229
begin 3 remove 0000000000000047
advance
step 1241
advance
begin 1 remove 00000000000001ba
finish 1238
finish 1236
begin 2 remove 00000000000000b2
begin 3 remove 0000000000000072
feed 641 10
finish 1221
begin 2 remove 000000000000006d
step 1240
finish 1242
step 1244
step 1245
begin 1 remove 00000000000001ea
finish 1245
finish 1240
finish 1241
begin 2 remove 0000000000000012
begin 1 remove 00000000000002b6
begin 3 remove 00000000000001d2
advance
collect
finish 1246
begin 2 remove 0000000000000134
step 1244
finish 1248
begin 3 remove 000000000000021a
finish 1247
step 1249
finish 1249
finish 1251
finish 1250
finish 1243
step 1244
feed 673 1
step 1244
finish 1244
begin 1 remove 000000000000027e
finish 1252
begin 3 remove 0000000000000139
begin 3 remove 0000000000000149
begin 1 remove 000000000000018c
finish 1253
begin 2 remove 000000000000023e
begin 1 remove 0000000000000245
begin 3 remove 000000000000013c
begin 1 remove 000000000000013a
finish 1259
step 1255
begin 1 remove 0000000000000136
finish 1257
begin 1 remove 0000000000000202
step 1258
step 1260
step 1261
feed 859 10
step 1260
step 1258
finish 1261
begin 3 remove 00000000000001df
step 1258
finish 1262
feed 676 1
step 1255
step 1256
begin 2 remove 000000000000007e
advance
finish 1260
finish 1255
finish 1254
step 1263
feed 409 10
begin 2 remove 0000000000000033
step 1256
begin 1 remove 0000000000000024
finish 1256
begin 3 remove 00000000000000b9
begin 1 remove 00000000000001e7
finish 1266
begin 2 remove 000000000000025f
finish 1265
step 1268
step 1263
begin 2 remove 000000000000003b
finish 1263
begin 3 remove 0000000000000146
feed 279 1
step 1258
step 1264
step 1270
step 1267
step 1269
step 1264
step 1267
step 1264
step 1268
step 1267
step 1264
step 1269
step 1258
step 1258
step 1258
step 1258
step 1258
step 1258
step 1258
step 1258
step 1258
step 1268
step 1264
step 1264
step 1264
step 1264
step 1264
step 1264
step 1269
step 1267
step 1268
step 1268
step 1268
step 1268
step 1268
step 1268
step 1268
step 1268
step 1268
step 1258
step 1258
finish 1258
step 1269
begin 2 remove 000000000000012d
step 1267
step 1267
step 1267
step 1267
step 1267
step 1267
step 1267
step 1267
step 1271
step 1269
step 1269
step 1269
step 1269
step 1269
step 1269
step 1269
step 1269
step 1269
step 1270
step 1267
step 1270
step 1269
step 1269
finish 1269
step 1270
begin 2 remove 000000000000002e
step 1264
step 1268
step 1264
finish 1264
begin 2 remove 000000000000007a
step 1268
finish 1268
step 1273
begin 1 remove 000000000000014c
step 1267
finish 1267
step 1274
begin 3 remove 0000000000000197
step 1272
step 1272
step 1272
step 1273
step 1271
finish 1270
finish 1274
begin 1 remove 0000000000000280
step 1272
begin 1 remove 0000000000000135
step 1276
step 1277
step 1271
step 1277
advance
feed 937 1
step 1273
step 1271
step 1276
step 1277
step 1277
step 1273
step 1272
step 1272
step 1272
step 1272
step 1272
step 1275
step 1271
step 1271
step 1271
step 1271
step 1271
step 1271
step 1271
step 1271
step 1277
step 1277
step 1277
step 1277
step 1277
step 1277
step 1275
step 1275
step 1272
step 1275
step 1275
step 1275
step 1275
step 1275
step 1275
step 1275
step 1275
step 1272
finish 1272
begin 3 remove 000000000000006a
step 1271
step 1276
step 1271
finish 1271
step 1275
begin 1 remove 00000000000001c5
step 1279
step 1279
feed 860 3
step 1276
step 1278
step 1278
step 1278
step 1275
finish 1275
begin 1 remove 00000000000001e3
step 1278
step 1279
step 1280
step 1276
step 1276
step 1276
step 1276
step 1276
step 1276
step 1276
step 1276
step 1278
step 1278
step 1278
step 1278
step 1278
step 1278
step 1278
step 1276
step 1278
step 1278
finish 1278
begin 3 remove 00000000000000a4
step 1279
step 1279
step 1279
step 1279
step 1279
step 1279
step 1279
begin 3 remove 0000000000000093
step 1282
step 1277
finish 1277
begin 1 remove 0000000000000048
step 1280
step 1283
step 1280
step 1281
step 1273
step 1273
step 1273
step 1273
step 1273
step 1273
step 1273
step 1273
step 1281
step 1283
step 1276
finish 1276
step 1280
step 1280
step 1280
step 1280
step 1280
step 1280
step 1280
advance
step 1283
step 1280
step 1283
step 1280
finish 1280
begin 1 remove 0000000000000255
step 1281
step 1282
step 1282
step 1283
step 1283
step 1283
step 1283
step 1283
step 1283
step 1283
begin 1 remove 0000000000000232
step 1281
step 1285
step 1285
step 1282
step 1273
step 1281
step 1281
step 1281
step 1281
step 1281
step 1281
step 1281
step 1281
step 1281
step 1281
step 1283
step 1284
step 1283
finish 1283
begin 1 remove 0000000000000268
step 1273
finish 1273
begin 2 remove 0000000000000112
step 1285
step 1285
collect
feed 399 3
step 1281
finish 1281
feed 1096 1
begin 3 remove 0000000000000001
step 1288
step 1285
step 1285
step 1285
step 1285
step 1285
step 1285
step 1287
step 1288
step 1288
step 1286
feed 352 3
step 1285
finish 1285
finish 1282
step 1287
finish 1284
collect
step 1288
begin 2 remove 000000000000012b
begin 1 remove 00000000000001a1
step 1290
step 1287
begin 3 remove 0000000000000150
step 1290
step 1290
feed 415 3
step 1291
step 1287
step 1290
step 1289
step 1288
step 1288
step 1288
step 1288
step 1288
step 1288
step 1288
step 1288
step 1290
step 1290
step 1290
step 1290
step 1290
step 1287
step 1287
step 1287
step 1287
step 1287
step 1287
step 1287
step 1287
step 1290
step 1291
step 1286
step 1291
step 1291
collect
step 1291
step 1291
step 1291
step 1291
step 1291
step 1291
step 1291
feed 114 10
step 1289
step 1289
step 1286
step 1287
step 1287
finish 1287
step 1290
finish 1290
begin 3 remove 0000000000000166
step 1292
begin 2 remove 00000000000001c7
step 1288
step 1293
step 1286
step 1292
step 1293
step 1291
step 1291
finish 1291
step 1292
step 1286
step 1286
step 1286
step 1286
step 1286
step 1286
step 1286
begin 2 remove 00000000000000f7
step 1294
step 1292
step 1292
step 1292
step 1292
step 1292
step 1292
step 1292
step 1292
step 1289
step 1288
finish 1288
begin 3 remove 0000000000000117
step 1289
step 1289
step 1289
step 1289
step 1289
step 1289
step 1289
collect
step 1294
step 1289
step 1295
step 1293
step 1289
finish 1289
step 1294
step 1293
step 1294
begin 1 remove 00000000000001b6
step 1286
step 1286
finish 1286
begin 3 remove 00000000000000d8
step 1295
step 1295
step 1296
advance
step 1296
step 1292
finish 1292
begin 2 remove 0000000000000025
step 1296
step 1297
step 1295
step 1296
step 1294
step 1294
step 1294
step 1294
step 1294
step 1293
step 1293
step 1293
step 1293
step 1293
step 1293
step 1293
step 1298
step 1294
step 1295
step 1295
step 1295
step 1295
step 1295
step 1295
step 1295
step 1295
step 1293
step 1298
step 1298
step 1296
step 1296
step 1296
step 1296
step 1296
step 1296
step 1296
step 1293
finish 1293
begin 1 remove 000000000000003d
step 1296
finish 1296
step 1295
finish 1295
step 1297
step 1299
begin 3 remove 000000000000011f
begin 1 remove 000000000000012e
finish 1294
step 1300
finish 1301
finish 1299
step 1300
finish 1298
finish 1300
finish 1297
alone remove 00000000000001b5
alone remove 0000000000000007
begin 1 remove 000000000000021f
collect
begin 2 remove 00000000000000ed
begin 1 remove 00000000000001ca
finish 1305
begin 1 remove 00000000000001db
feed 668 10
step 1307
begin 2 put 0000000000000188 0=9963
finish 1306
finish 1308
step 1304
finish 1307
finish 1304
alone remove 00000000000000d3
feed 1050 3
begin 1 remove 000000000000010d
begin 2 remove 000000000000025a
begin 2 remove 0000000000000279
begin 2 remove 000000000000027b
begin 1 remove 000000000000004e
begin 3 remove 000000000000013d
feed 764 10
finish 1310
begin 3 remove 00000000000001dd
finish 1311
begin 1 remove 0000000000000017
step 1314
step 1313
finish 1314
begin 3 remove 00000000000002a9
advance
finish 1313
step 1312
step 1317
begin 3 tidy 00000000000001b8
finish 1318
begin 2 remove 0000000000000042
finish 1320
finish 1319
begin 2 remove 0000000000000251
begin 2 remove 00000000000000c8
step 1312
step 1317
finish 1312
begin 1 remove 0000000000000266
step 1315
step 1323
step 1321
finish 1322
begin 2 remove 0000000000000183
step 1316
step 1317
finish 1317
finish 1321
step 1315
finish 1315
begin 3 remove 0000000000000129
step 1323
begin 2 remove 00000000000000a5
step 1325
begin 1 remove 0000000000000237
finish 1327
feed 669 1
begin 2 remove 00000000000002ae
finish 1326
begin 2 remove 000000000000015c
finish 1316
begin 1 remove 0000000000000127
finish 1329
begin 1 remove 0000000000000142
finish 1330
collect
finish 1323
step 1325
begin 1 remove 000000000000011a
finish 1325
begin 1 remove 0000000000000229
finish 1328
step 1324
begin 2 remove 0000000000000070
step 1333
begin 1 remove 0000000000000222
step 1334
finish 1334
begin 2 remove 0000000000000039
collect
finish 1331
step 1333
begin 1 remove 000000000000010b
finish 1336
finish 1337
finish 1335
begin 3 remove 00000000000000a8
step 1332
step 1333
finish 1338
finish 1333
step 1324
begin 1 remove 00000000000001e9
begin 2 remove 00000000000002aa
begin 2 remove 0000000000000062
begin 2 remove 000000000000024e
step 1342
finish 1342
begin 1 put 0000000000000260 0=-
finish 1339
begin 3 remove 00000000000000e8
step 1340
finish 1344
begin 2 remove 0000000000000168
step 1341
step 1345
step 1343
feed 897 10
finish 1324
begin 2 remove 0000000000000158
finish 1341
finish 1345
step 1340
begin 3 remove 000000000000025d
begin 2 remove 0000000000000109
step 1340
finish 1343
begin 3 remove 000000000000007c
step 1346
finish 1346
collect
step 1347
begin 2 remove 0000000000000254
step 1348
finish 1350
step 1347
finish 1347
step 1332
finish 1349
finish 1340
begin 2 remove 00000000000000a0
finish 1351
finish 1332
finish 1348
alone remove 00000000000000be
alone remove 00000000000001fc
alone remove 000000000000014f
begin 1 remove 000000000000001d
collect
finish 1355
alone remove 0000000000000206
feed 797 1
begin 3 remove 0000000000000011
begin 1 remove 0000000000000090
begin 1 tidy 00000000000000ae
begin 2 remove 0000000000000162
begin 1 remove 0000000000000064
advance
finish 1361
begin 1 remove 0000000000000295
step 1362
begin 1 remove 00000000000001fd
finish 1362
begin 1 remove 0000000000000006
finish 1364
finish 1360
step 1363
begin 3 remove 0000000000000292
begin 1 remove 000000000000009b
finish 1366
begin 2 remove 000000000000025e
step 1363
step 1367
finish 1367
finish 1357
begin 1 remove 0000000000000075
begin 3 remove 0000000000000219
step 1359
step 1358
step 1359
step 1365
finish 1369
begin 2 remove 000000000000004c
finish 1363
finish 1359
begin 2 remove 00000000000000ae
begin 3 remove 00000000000000a1
finish 1372
begin 1 remove 000000000000026f
step 1365
finish 1373
begin 3 remove 0000000000000226
finish 1358
begin 2 remove 000000000000013f
feed 1157 3
step 1374
step 1365
step 1370
step 1370
step 1371
finish 1368
step 1370
finish 1375
begin 1 remove 0000000000000094
begin 1 remove 00000000000001cc
finish 1365
begin 3 remove 0000000000000045
finish 1370
finish 1377
begin 1 remove 0000000000000297
finish 1376
finish 1378
step 1379
finish 1374
begin 3 remove 0000000000000035
begin 2 remove 0000000000000195
step 1381
finish 1381
begin 2 remove 000000000000000a
finish 1382
finish 1379
begin 1 remove 000000000000024a
finish 1383
finish 1380
finish 1371
alone remove 000000000000000e
begin 1 remove 00000000000000ce
step 1385
begin 1 remove 0000000000000121
begin 1 remove 0000000000000113
begin 1 remove 00000000000000ef
step 1385
finish 1385
finish 1386
begin 2 remove 000000000000020b
begin 3 get 0000000000000163 all
begin 3 remove 000000000000006f
begin 3 remove 0000000000000016
feed 1326 10
step 1388
finish 1389
begin 3 remove 0000000000000275
finish 1388
finish 1387
step 1391
begin 1 remove 000000000000027d
begin 2 remove 000000000000004a
finish 1390
step 1391
step 1394
finish 1393
feed 15 1
begin 1 remove 000000000000017b
finish 1396
finish 1391
step 1392
begin 1 remove 0000000000000091
begin 3 remove 000000000000015a
finish 1395
begin 1 remove 0000000000000286
step 1394
begin 1 remove 000000000000021b
finish 1400
step 1392
step 1399
begin 3 remove 00000000000001d7
finish 1394
begin 1 remove 0000000000000118
step 1399
finish 1399
step 1397
finish 1402
begin 1 remove 00000000000000b6
begin 1 remove 000000000000019d
step 1397
feed 754 3
step 1401
finish 1404
finish 1403
finish 1397
begin 1 remove 0000000000000191
step 1398
step 1401
begin 2 remove 0000000000000260
step 1405
begin 3 remove 00000000000001e4
step 1407
step 1401
step 1401
step 1405
step 1405
step 1401
step 1401
step 1401
step 1401
step 1401
finish 1401
begin 2 remove 00000000000001eb
finish 1406
finish 1398
begin 2 remove 0000000000000224
step 1392
step 1405
step 1409
begin 1 remove 0000000000000080
step 1409
advance
step 1410
step 1408
step 1408
step 1407
step 1410
step 1392
step 1407
step 1407
step 1405
step 1405
step 1405
step 1405
step 1405
step 1407
step 1407
step 1407
step 1407
step 1407
step 1407
step 1410
step 1410
step 1405
step 1407
step 1405
finish 1405
step 1409
begin 2 remove 000000000000008b
step 1408
step 1410
step 1410
step 1410
step 1410
step 1410
step 1392
step 1392
step 1392
step 1392
step 1392
step 1392
step 1410
step 1409
step 1411
step 1411
step 1407
finish 1407
step 1392
step 1409
step 1409
step 1409
step 1409
step 1409
begin 1 remove 000000000000014b
step 1409
step 1392
finish 1392
step 1409
finish 1409
begin 3 remove 000000000000017c
step 1408
step 1413
step 1413
step 1408
step 1408
step 1408
step 1408
step 1408
step 1410
finish 1410
finish 1408
begin 1 remove 0000000000000260
step 1411
begin 2 remove 00000000000000b8
feed 206 1
step 1411
begin 3 remove 000000000000018d
collect
step 1413
step 1415
step 1412
step 1415
step 1416
step 1413
step 1411
step 1411
step 1411
step 1411
step 1411
step 1413
step 1413
step 1413
step 1413
step 1413
step 1416
step 1414
step 1413
collect
step 1415
step 1413
finish 1413
begin 2 remove 000000000000009c
step 1414
step 1415
step 1415
step 1415
step 1415
step 1415
step 1415
step 1415
step 1414
step 1414
step 1415
step 1417
step 1412
step 1412
step 1411
step 1417
step 1417
step 1414
step 1414
step 1414
step 1415
finish 1415
step 1416
finish 1411
begin 3 remove 0000000000000242
finish 1416
step 1412
step 1418
step 1418
step 1417
advance
begin 2 remove 0000000000000101
begin 1 remove 0000000000000281
begin 3 remove 0000000000000241
step 1419
step 1412
step 1412
step 1412
step 1412
step 1412
step 1421
feed 564 10
step 1420
step 1420
step 1419
step 1421
step 1412
step 1412
finish 1412
step 1418
finish 1417
begin 1 remove 0000000000000205
step 1420
begin 1 remove 0000000000000140
finish 1418
step 1420
step 1422
begin 3 remove 00000000000001af
finish 1420
begin 2 get 00000000000001a2 all
finish 1424
begin 2 remove 000000000000003e
step 1421
finish 1425
begin 1 remove 00000000000002b9
collect
step 1419
finish 1419
begin 1 remove 0000000000000289
finish 1421
begin 3 remove 0000000000000216
finish 1427
begin 3 remove 0000000000000010
finish 1429
step 1428
begin 2 remove 0000000000000156
step 1431
step 1431
step 1430
finish 1423
finish 1428
feed 493 1
finish 1431
begin 1 remove 0000000000000247
finish 1430
finish 1422
step 1426
begin 3 remove 0000000000000065
finish 1432
finish 1433
begin 3 remove 00000000000001c0
begin 3 remove 00000000000001aa
finish 1434
begin 1 remove 00000000000000a3
step 1426
finish 1435
step 1436
begin 3 remove 0000000000000284
begin 1 remove 0000000000000059
begin 2 remove 000000000000020c
finish 1438
finish 1439
begin 3 remove 0000000000000296
step 1436
begin 2 remove 00000000000000e7
begin 1 remove 0000000000000076
step 1436
step 1437
collect
finish 1436
feed 1103 1
step 1442
begin 2 get 000000000000027d all
finish 1443
begin 1 remove 000000000000009d
step 1437
step 1440
finish 1442
begin 3 remove 0000000000000215
step 1426
step 1426
step 1444
step 1444
finish 1426
begin 2 remove 000000000000026d
finish 1441
begin 2 remove 0000000000000204
finish 1447
begin 3 remove 000000000000012a
finish 1444
begin 1 remove 0000000000000026
finish 1448
begin 1 remove 0000000000000248
step 1449
feed 1091 10
step 1449
finish 1450
begin 3 remove 000000000000020a
step 1437
finish 1446
begin 1 remove 0000000000000173
finish 1445
begin 2 remove 00000000000001c2
finish 1451
begin 2 remove 0000000000000000
finish 1440
begin 2 remove 00000000000000d2
finish 1453
step 1437
begin 1 remove 00000000000000e5
step 1454
step 1454
step 1455
step 1455
step 1456
finish 1437
finish 1455
begin 2 remove 00000000000001a0
step 1456
finish 1454
finish 1457
begin 2 remove 0000000000000171
step 1452
step 1449
begin 3 remove 00000000000000ab
begin 3 remove 00000000000000c9
finish 1452
begin 2 remove 0000000000000293
step 1461
step 1459
step 1458
finish 1460
step 1461
begin 1 remove 0000000000000052
step 1449
step 1456
step 1459
collect
step 1458
step 1458
step 1456
step 1459
step 1462
step 1449
step 1449
step 1449
step 1449
step 1449
step 1459
step 1462
step 1459
step 1459
step 1459
step 1459
step 1459
step 1456
step 1456
step 1456
begin 2 remove 000000000000018d
step 1462
step 1461
step 1458
step 1458
step 1458
step 1458
step 1458
step 1458
step 1463
step 1463
step 1449
collect
step 1462
step 1461
step 1449
finish 1449
step 1461
step 1461
step 1461
step 1461
step 1461
step 1461
begin 2 remove 000000000000003c
step 1459
step 1462
step 1462
step 1462
step 1462
step 1462
step 1463
step 1461
step 1463
step 1458
step 1458
finish 1458
step 1459
finish 1459
step 1461
finish 1461
begin 1 remove 00000000000000c2
advance
begin 3 remove 00000000000000dd
advance
begin 3 remove 00000000000001b0
step 1462
step 1463
step 1463
step 1463
step 1463
begin 2 remove 0000000000000290
step 1464
step 1466
collect
collect
step 1466
step 1465
step 1465
step 1466
step 1467
step 1464
step 1467
step 1466
step 1468
step 1468
step 1462
finish 1462
step 1467
begin 2 remove 00000000000000ba
step 1464
finish 1466
step 1464
advance
begin 3 remove 000000000000013b
step 1468
step 1467
step 1467
step 1467
step 1467
step 1467
step 1467
step 1469
step 1468
step 1469
step 1467
step 1467
finish 1467
begin 3 remove 000000000000024d
step 1470
step 1465
step 1470
step 1469
step 1469
step 1470
step 1469
step 1469
step 1469
step 1469
step 1469
step 1468
step 1468
step 1468
step 1468
step 1468
step 1468
step 1465
step 1471
step 1471
step 1470
step 1464
step 1464
step 1464
step 1464
step 1464
step 1471
step 1468
finish 1468
begin 3 remove 00000000000001c4
step 1472
step 1470
step 1470
step 1470
step 1470
step 1470
step 1472
step 1471
step 1469
step 1472
step 1464
step 1464
finish 1464
begin 2 tidy 0000000000000081
step 1473
step 1473
step 1470
step 1472
step 1465
step 1465
step 1465
step 1465
step 1465
step 1472
step 1472
step 1472
step 1472
step 1472
feed 861 3
step 1465
step 1473
step 1472
step 1465
finish 1465
step 1473
step 1473
step 1473
step 1473
step 1473
step 1473
step 1470
finish 1470
begin 2 tidy 0000000000000152
step 1473
feed 1150 3
begin 3 tidy 00000000000001d4
step 1473
step 1469
finish 1469
step 1475
step 1474
begin 1 tidy 000000000000019e
step 1471
step 1471
step 1471
step 1471
step 1471
step 1474
step 1471
step 1473
collect
step 1474
step 1472
finish 1472
begin 2 tidy 00000000000000ee
step 1475
step 1477
collect
step 1471
finish 1471
advance
begin 2 tidy 0000000000000143
step 1475
step 1476
step 1475
step 1475
step 1475
step 1475
step 1476
begin 3 tidy 0000000000000053
step 1478
finish 1473
step 1477
finish 1476
begin 3 tidy 0000000000000043
begin 2 tidy 0000000000000282
finish 1474
begin 1 tidy 0000000000000190
finish 1479
begin 3 tidy 00000000000002bb
finish 1478
step 1481
finish 1477
step 1480
begin 1 tidy 0000000000000027
begin 3 tidy 00000000000001c6
finish 1485
step 1482
begin 3 tidy 000000000000026e
finish 1484
step 1486
step 1482
advance
begin 2 tidy 00000000000002a2
finish 1486
begin 2 tidy 00000000000001bd
finish 1488
finish 1483
begin 3 tidy 00000000000000b0
begin 2 tidy 0000000000000046
finish 1481
begin 2 tidy 0000000000000227
step 1482
step 1489
feed 1366 1
step 1490
step 1482
step 1482
step 1482
step 1482
finish 1480
step 1491
finish 1490
begin 1 tidy 000000000000010a
begin 1 tidy 000000000000018a
feed 44 10
begin 1 tidy 0000000000000211
finish 1494
feed 1327 10
feed 83 3
step 1492
begin 2 tidy 0000000000000176
step 1493
finish 1495
step 1493
step 1492
finish 1492
begin 3 tidy 000000000000016e
begin 2 tidy 0000000000000189
step 1491
finish 1497
begin 2 tidy 000000000000000f
finish 1498
begin 2 tidy 0000000000000181
finish 1496
begin 1 tidy 00000000000000de
finish 1499
finish 1493
begin 2 tidy 000000000000015f
begin 2 tidy 0000000000000119
finish 1489
begin 1 tidy 000000000000022a
finish 1501
finish 1491
begin 3 tidy 0000000000000208
step 1503
begin 2 tidy 000000000000023d
finish 1504
step 1487
begin 2 tidy 000000000000017e
finish 1500
begin 2 tidy 0000000000000153
advance
step 1503
finish 1507
begin 3 tidy 0000000000000164
finish 1508
begin 1 tidy 0000000000000249
finish 1505
finish 1506
finish 1487
begin 3 tidy 000000000000015b
advance
begin 1 tidy 000000000000005d
begin 1 tidy 000000000000017d
finish 1509
finish 1502
finish 1512
begin 2 tidy 0000000000000037
begin 1 tidy 0000000000000002
begin 2 tidy 000000000000002a
finish 1513
begin 1 tidy 000000000000004f
step 1514
finish 1511
begin 3 tidy 00000000000001e5
finish 1517
begin 3 tidy 00000000000000e4
finish 1516
finish 1514
finish 1515
begin 2 tidy 00000000000002ab
finish 1519
advance
finish 1518
finish 1503
advance
advance
begin 1 tidy 0000000000000165
feed 291 1
begin 1 tidy 00000000000000bf
step 1520
finish 1510
step 1521
begin 1 tidy 0000000000000147
begin 1 tidy 00000000000000cc
begin 3 tidy 00000000000001e1
collect
begin 1 tidy 000000000000001c
finish 1524
finish 1525
begin 3 tidy 0000000000000196
step 1522
begin 2 tidy 000000000000022d
finish 1526
begin 1 tidy 00000000000001b7
finish 1521
finish 1528
begin 2 tidy 00000000000000eb
begin 1 tidy 0000000000000230
finish 1529
step 1520
begin 1 tidy 000000000000006c
step 1520
finish 1522
begin 1 tidy 000000000000028a
finish 1531
begin 2 tidy 000000000000021e
finish 1520
begin 2 tidy 0000000000000097
finish 1527
finish 1534
begin 3 tidy 00000000000001cf
finish 1530
begin 1 tidy 00000000000000f3
begin 3 tidy 00000000000000a9
finish 1537
advance
finish 1536
begin 3 remove 000000000000025a
begin 1 tidy 00000000000001b8
finish 1532
step 1538
begin 3 tidy 0000000000000269
step 1540
finish 1533
advance
begin 3 tidy 0000000000000054
finish 1523
begin 1 tidy 00000000000001d5
step 1535
step 1540
step 1541
step 1539
step 1540
step 1538
collect
finish 1541
begin 1 tidy 00000000000001f7
finish 1542
begin 3 tidy 0000000000000023
finish 1543
begin 3 tidy 00000000000000cd
step 1540
step 1540
step 1540
step 1540
step 1540
step 1540
step 1545
finish 1540
step 1535
finish 1544
begin 3 tidy 0000000000000125
step 1546
begin 1 tidy 00000000000000b4
step 1539
finish 1547
finish 1535
begin 2 tidy 00000000000000b7
begin 2 tidy 000000000000001b
finish 1549
finish 1545
finish 1548
begin 1 tidy 00000000000000db
advance
begin 3 tidy 00000000000001d3
begin 2 tidy 00000000000002b3
advance
finish 1546
step 1539
finish 1539
finish 1550
finish 1552
begin 2 tidy 000000000000008e
finish 1553
step 1551
finish 1538
begin 2 tidy 00000000000000c1
begin 3 tidy 00000000000001c1
begin 2 tidy 00000000000001d1
begin 1 tidy 000000000000029f
begin 1 tidy 0000000000000157
finish 1551
begin 3 tidy 0000000000000073
step 1554
finish 1558
finish 1556
begin 3 tidy 0000000000000013
begin 2 tidy 000000000000018e
step 1554
step 1559
step 1554
finish 1561
finish 1554
begin 1 tidy 0000000000000218
begin 2 tidy 0000000000000273
step 1555
step 1555
finish 1555
finish 1560
begin 1 tidy 00000000000000ea
finish 1557
begin 3 tidy 0000000000000071
begin 1 tidy 0000000000000132
feed 254 10
finish 1563
begin 2 tidy 0000000000000028
finish 1566
finish 1567
finish 1564
finish 1565
begin 3 tidy 0000000000000100
begin 2 tidy 0000000000000092
step 1568
collect
finish 1559
begin 2 tidy 00000000000001e2
step 1562
begin 3 tidy 000000000000006e
begin 3 build prefix 00 any
finish 1562
finish 1571
step 1569
step 1570
feed 1268 10
finish 1569
begin 1 tidy 0000000000000021
step 1573
begin 3 tidy 00000000000001be
step 1573
begin 3 tidy 00000000000000cb
finish 1573
finish 1568
begin 2 tidy 00000000000001ab
finish 1576
begin 2 tidy 00000000000000b1
finish 1577
finish 1575
begin 2 tidy 00000000000001fa
begin 1 tidy 000000000000010c
begin 3 tidy 0000000000000274
finish 1570
begin 3 tidy 00000000000000bd
collect
finish 1579
begin 2 tidy 0000000000000227
finish 1581
begin 3 tidy 00000000000000c5
finish 1574
finish 1572
step 1582
finish 1582
begin 3 tidy 0000000000000114
advance
finish 1580
finish 1578
begin 2 tidy 0000000000000220
finish 1585
finish 1584
begin 3 tidy 0000000000000159
step 1586
begin 2 tidy 000000000000007b
finish 1586
begin 3 put 00000000000001f1 0=f36d
begin 1 tidy 000000000000018b
advance
begin 1 tidy 000000000000016a
begin 3 tidy 00000000000001c9
finish 1589
finish 1590
step 1588
step 1588
finish 1583
apply 0
finish 1591
finish 1587
begin 3 tidy 00000000000002b2
begin 3 tidy 000000000000020e
collect
step 1588
begin 1 tidy 0000000000000130
step 1592
finish 1594
step 1593
step 1593
finish 1588
step 1592
begin 1 tidy 00000000000001ff
finish 1595
begin 3 tidy 0000000000000221
step 1592
finish 1593
begin 2 tidy 000000000000005c
begin 1 tidy 00000000000002a3
begin 3 tidy 00000000000001e1
finish 1592
finish 1597
finish 1596
begin 1 tidy 00000000000000f8
step 1598
advance
view 4 0 - 10
begin 3 tidy 000000000000014d
step 1600
begin 2 tidy 0000000000000133
step 1598
begin 3 range 000000000000015f 1 all
step 1601
finish 1598
begin 3 tidy 0000000000000063
finish 1601
step 1603
begin 2 tidy 00000000000000a2
step 1600
finish 1604
finish 1602
begin 3 tidy 0000000000000138
begin 2 tidy 00000000000000d9
finish 1600
begin 1 tidy 00000000000002a5
finish 1607
begin 1 tidy 0000000000000214
finish 1605
begin 3 tidy 000000000000008c
step 1606
finish 1603
step 1608
finish 1599
begin 2 tidy 0000000000000005
finish 1610
begin 1 tidy 00000000000001f5
begin 2 tidy 00000000000002a0
step 1609
step 1606
finish 1611
finish 1608
begin 1 tidy 000000000000010f
begin 3 tidy 00000000000001b0
step 1615
finish 1614
begin 1 tidy 0000000000000198
step 1615
finish 1613
begin 1 tidy 00000000000000fc
step 1615
step 1616
step 1615
step 1615
step 1615
step 1615
step 1615
finish 1612
finish 1616
begin 3 tidy 0000000000000104
finish 1617
begin 2 tidy 000000000000029b
step 1609
begin 1 tidy 000000000000008d
begin 3 tidy 0000000000000074
step 1620
finish 1618
begin 1 tidy 0000000000000217
step 1622
finish 1622
begin 3 tidy 0000000000000257
step 1620
step 1623
step 1619
finish 1623
collect
collect
step 1606
begin 3 tidy 0000000000000083
finish 1619
begin 1 tidy 000000000000019b
finish 1609
step 1620
step 1620
step 1620
step 1620
finish 1609
step 1624
finish 1621
finish 1606
finish 1624
begin 3 tidy 00000000000000c6
begin 2 tidy 000000000000017f
begin 2 tidy 00000000000001d8
begin 1 tidy 000000000000009f
begin 2 tidy 0000000000000172
finish 1630
begin 2 tidy 00000000000000fa
finish 1625
begin 2 tidy 0000000000000177
step 1628
step 1629
step 1631
finish 1632
begin 2 tidy 00000000000001b2
step 1631
finish 1629
advance
step 1633
finish 1633
finish 1631
begin 1 tidy 00000000000001de
begin 1 tidy 00000000000002ac
begin 2 tidy 0000000000000141
finish 1626
begin 3 tidy 00000000000001a4
step 1635
step 1637
finish 1635
begin 1 tidy 0000000000000066
advance
step 1627
collect
feed 690 10
collect
finish 1628
collect
finish 1637
step 1638
finish 1636
collect
step 1634
begin 1 tidy 0000000000000126
step 1639
finish 1627
begin 1 tidy 0000000000000199
begin 1 remove 0000000000000080
begin 1 tidy 0000000000000098
apply 4
step 1641
finish 1638
step 1640
apply 0
step 1641
begin 1 range 00000000000000d4 3 all
finish 1639
finish 1640
begin 3 tidy 000000000000028c
finish 1644
finish 1642
advance
finish 1641
finish 1634
begin 2 tidy 00000000000001c8
advance
collect
finish 1643
finish 1645
begin 1 tidy 0000000000000250
begin 2 tidy 00000000000002b5
begin 3 tidy 00000000000001f9
begin 3 tidy 0000000000000264
begin 1 tidy 00000000000002a7
step 1646
step 1649
finish 1648
begin 2 tidy 0000000000000272
finish 1647
finish 1650
finish 1651
finish 1649
finish 1646
begin 1 tidy 000000000000011c
finish 1652
begin 1 tidy 0000000000000271
begin 3 tidy 00000000000000f6
step 1654
finish 1654
begin 1 tidy 0000000000000102
finish 1655
begin 2 tidy 000000000000000c
step 1653
finish 1653
begin 1 tidy 0000000000000144
begin 2 tidy 0000000000000261
begin 1 tidy 00000000000000dc
advance
begin 3 tidy 0000000000000203
step 1659
step 1657
finish 1660
collect
step 1657
step 1656
finish 1658
begin 3 tidy 000000000000011e
begin 1 tidy 000000000000024f
finish 1659
finish 1662
begin 1 tidy 0000000000000107
begin 2 tidy 00000000000000e2
begin 3 tidy 00000000000001ef
step 1661
finish 1663
collect
step 1656
begin 3 tidy 00000000000002ba
finish 1665
begin 2 tidy 00000000000000fd
finish 1661
begin 1 tidy 0000000000000213
advance
finish 1667
advance
begin 1 tidy 0000000000000288
step 1668
finish 1657
begin 2 tidy 0000000000000185
step 1668
step 1664
finish 1669
advance
step 1666
begin 3 tidy 000000000000022c
step 1668
finish 1666
begin 1 tidy 00000000000000fe
finish 1656
begin 2 tidy 0000000000000110
apply 0
finish 1668
begin 1 tidy 0000000000000209
step 1672
step 1664
step 1664
step 1664
step 1664
step 1664
advance
begin 3 tidy 000000000000014a
finish 1672
begin 3 tidy 000000000000006b
finish 1671
finish 1670
advance
begin 1 tidy 0000000000000068
begin 1 tidy 0000000000000235
finish 1674
begin 3 tidy 0000000000000200
finish 1677
begin 3 tidy 0000000000000086
step 1676
step 1678
finish 1679
finish 1675
step 1673
finish 1676
finish 1673
begin 1 tidy 00000000000000df
step 1678
finish 1681
begin 2 tidy 0000000000000058
step 1682
begin 2 range 000000000000006d 1 all
begin 1 tidy 00000000000000b5
begin 3 tidy 00000000000000cf
finish 1683
begin 2 tidy 0000000000000174
finish 1678
begin 1 tidy 0000000000000231
finish 1685
begin 3 tidy 0000000000000128
step 1682
finish 1684
finish 1686
finish 1687
apply 4
begin 2 tidy 000000000000005f
begin 2 tidy 00000000000001cb
finish 1680
finish 1682
begin 3 tidy 0000000000000265
begin 2 tidy 000000000000021c
begin 1 tidy 0000000000000154
apply 0
finish 1692
finish 1691
finish 1690
begin 3 tidy 00000000000001e0
finish 1689
begin 2 tidy 0000000000000180
finish 1694
begin 3 tidy 000000000000018f
advance
finish 1696
begin 1 tidy 00000000000002ad
begin 2 tidy 0000000000000277
begin 2 tidy 0000000000000239
step 1693
finish 1688
finish 1693
begin 2 tidy 00000000000000d5
begin 3 tidy 0000000000000008
apply 0
finish 1697
begin 2 tidy 0000000000000182
finish 1695
begin 3 tidy 00000000000002af
finish 1698
begin 2 tidy 00000000000000a7
finish 1699
begin 3 tidy 00000000000000ac
step 1704
finish 1702
step 1701
begin 3 tidy 000000000000001a
finish 1703
begin 1 tidy 00000000000001a6
step 1701
step 1707
step 1701
step 1701
step 1701
step 1701
finish 1705
step 1704
begin 1 tidy 0000000000000207
finish 1704
finish 1708
finish 1707
finish 1700
finish 1706
begin 1 tidy 0000000000000161
begin 1 tidy 000000000000002c
begin 3 tidy 0000000000000111
step 1711
begin 2 tidy 0000000000000236
begin 1 tidy 00000000000001f1
begin 2 tidy 000000000000023a
step 1711
step 1714
finish 1711
begin 3 tidy 000000000000008f
finish 1715
begin 2 tidy 0000000000000228
step 1714
finish 1716
begin 2 get 000000000000016a all
finish 1714
step 1710
finish 1717
begin 3 tidy 0000000000000014
finish 1709
finish 1713
begin 3 range 0000000000000003 3 all
step 1718
finish 1712
finish 1718
begin 3 tidy 00000000000000c3
apply 4
apply 4
finish 1710
finish 1719
begin 3 tidy 0000000000000032
begin 2 tidy 000000000000029e
begin 3 tidy 0000000000000253
finish 1722
begin 2 tidy 0000000000000099
begin 2 tidy 000000000000017a
finish 1723
step 1721
begin 2 tidy 0000000000000106
begin 1 tidy 0000000000000060
finish 1727
step 1726
finish 1726
finish 1720
begin 2 tidy 00000000000000d6
begin 2 tidy 0000000000000124
begin 3 tidy 0000000000000055
finish 1729
begin 2 tidy 0000000000000234
finish 1721
begin 3 tidy 00000000000001ae
step 1728
apply 0
finish 1725
finish 1724
apply 0
begin 1 tidy 00000000000000e6
begin 2 tidy 000000000000023b
finish 1732
begin 1 tidy 000000000000003f
finish 1728
begin 3 tidy 000000000000011b
finish 1730
step 1736
begin 1 tidy 00000000000000ff
step 1731
finish 1731
begin 1 tidy 0000000000000258
step 1734
step 1734
step 1737
finish 1735
finish 1738
begin 1 tidy 00000000000001ee
finish 1736
begin 3 tidy 000000000000003a
step 1740
finish 1737
step 1739
finish 1734
finish 1739
step 1740
step 1740
step 1740
step 1740
step 1740
begin 2 tidy 00000000000001c3
finish 1733
begin 1 tidy 00000000000000f2
begin 3 tidy 0000000000000193
begin 3 tidy 000000000000025c
begin 2 tidy 0000000000000078
begin 1 tidy 00000000000001dc
step 1744
finish 1746
begin 3 tidy 000000000000009a
step 1742
finish 1742
finish 1741
begin 2 tidy 0000000000000137
begin 3 tidy 0000000000000057
finish 1744
step 1745
begin 1 tidy 0000000000000178
finish 1749
step 1750
step 1750
begin 3 tidy 00000000000001d9
finish 1743
finish 1745
finish 1751
finish 1750
finish 1747
finish 1748
alone tidy 00000000000001ad
alone tidy 00000000000001a2
alone tidy 000000000000013e
alone tidy 0000000000000051
begin 2 tidy 000000000000002d
finish 1756
begin 3 tidy 00000000000000ec
collect
step 1757
begin 1 tidy 0000000000000003
finish 1758
begin 3 tidy 000000000000027c
begin 3 tidy 00000000000000e0
begin 1 tidy 00000000000002b1
apply 4
step 1757
begin 1 tidy 0000000000000287
advance
begin 1 tidy 00000000000001f6
advance
finish 1760
step 1759
finish 1763
finish 1757
begin 3 tidy 0000000000000067
finish 1762
begin 3 get 0000000000000146 all
step 1759
finish 1761
step 1764
begin 2 tidy 0000000000000123
advance
finish 1759
collect
finish 1766
begin 1 tidy 000000000000028b
begin 3 tidy 00000000000001ce
finish 1767
finish 1764
begin 1 tidy 0000000000000175
begin 1 tidy 00000000000000fb
finish 1770
finish 1768
begin 3 tidy 00000000000002b4
begin 2 tidy 0000000000000041
begin 3 tidy 0000000000000004
step 1765
begin 3 tidy 00000000000001a8
finish 1765
finish 1774
begin 1 tidy 0000000000000283
begin 3 tidy 0000000000000276
collect
finish 1771
begin 3 tidy 00000000000002a6
finish 1776
begin 3 tidy 00000000000000bc
step 1769
step 1778
finish 1777
step 1775
finish 1772
begin 1 tidy 00000000000001c5
begin 3 tidy 0000000000000256
finish 1775
begin 2 tidy 0000000000000246
finish 1769
finish 1773
begin 2 tidy 0000000000000186
collect
begin 2 tidy 0000000000000108
finish 1779
begin 1 tidy 0000000000000036
finish 1784
begin 2 tidy 00000000000002b0
advance
finish 1785
begin 1 tidy 000000000000020f
finish 1778
begin 3 tidy 000000000000015d
finish 1782
step 1781
begin 3 tidy 0000000000000169
step 1783
finish 1783
step 1788
begin 3 remove 0000000000000224
finish 1788
begin 3 tidy 0000000000000061
finish 1786
finish 1790
finish 1780
finish 1789
begin 3 tidy 00000000000001f3
step 1791
begin 1 tidy 00000000000000a6
step 1792
step 1791
begin 1 tidy 000000000000009e
begin 1 tidy 0000000000000105
finish 1781
finish 1787
begin 2 tidy 0000000000000015
finish 1795
finish 1794
finish 1793
begin 1 tidy 0000000000000115
begin 3 get 0000000000000097 all
finish 1796
step 1791
begin 3 tidy 0000000000000225
step 1798
begin 1 tidy 0000000000000194
step 1792
step 1792
step 1792
step 1792
step 1792
begin 1 tidy 000000000000016b
step 1797
step 1797
begin 3 tidy 0000000000000056
apply 4
step 1798
finish 1800
finish 1797
begin 1 tidy 0000000000000243
finish 1799
begin 1 tidy 00000000000001b3
begin 2 tidy 000000000000012f
finish 1804
finish 1801
finish 1798
apply 4
begin 3 tidy 000000000000014e
begin 2 tidy 000000000000024c
begin 3 tidy 000000000000011d
step 1805
finish 1802
begin 2 tidy 000000000000026b
finish 1807
begin 1 tidy 000000000000001f
step 1803
finish 1805
finish 1809
step 1806
finish 1791
finish 1803
finish 1808
finish 1806
begin 1 tidy 000000000000021d
collect
begin 1 tidy 000000000000005e
finish 1811
begin 1 tidy 0000000000000160
begin 1 tidy 000000000000019a
begin 3 tidy 0000000000000009
finish 1810
begin 1 tidy 000000000000029a
begin 1 tidy 000000000000021b
advance
begin 3 tidy 00000000000001a5
finish 1816
step 1812
begin 1 tidy 0000000000000163
collect
step 1815
step 1814
finish 1818
begin 2 tidy 0000000000000188
step 1817
finish 1812
step 1814
step 1817
apply 0
begin 2 tidy 00000000000000bb
finish 1819
finish 1814
begin 1 tidy 00000000000002a1
begin 1 tidy 00000000000001e8
step 1822
finish 1820
step 1821
finish 1817
finish 1822
step 1821
apply 0
begin 3 tidy 0000000000000116
begin 3 tidy 000000000000028d
begin 3 tidy 0000000000000030
step 1813
finish 1823
finish 1824
finish 1813
finish 1821
begin 2 tidy 00000000000001e6
begin 1 tidy 00000000000001a3
begin 3 tidy 0000000000000263
finish 1815
finish 1828
begin 3 tidy 00000000000001f0
step 1829
step 1825
finish 1827
advance
finish 1825
begin 1 tidy 00000000000002b7
finish 1826
step 1830
step 1830
collect
finish 1829
step 1830
begin 2 tidy 00000000000000f0
begin 3 tidy 0000000000000291
finish 1832
step 1830
step 1830
step 1830
step 1830
step 1830
step 1830
begin 3 tidy 0000000000000022
begin 3 tidy 00000000000000d1
step 1834
finish 1833
finish 1831
step 1834
finish 1834
collect
collect
alone tidy 0000000000000252
begin 3 tidy 0000000000000285
step 1836
begin 3 tidy 000000000000028e
step 1836
step 1837
step 1837
view 4 0 - 1000
finish 1836
begin 1 tidy 00000000000000c7
step 1837
begin 2 tidy 0000000000000170
finish 1838
collect
step 1839
begin 3 tidy 000000000000020d
drop 4
step 1837
step 1837
step 1837
step 1837
step 1837
step 1837
step 1840
step 1840
begin 2 tidy 00000000000001bc
advance
finish 1841
step 1839
begin 2 tidy 0000000000000034
begin 2 tidy 0000000000000238
finish 1843
feed 653 10
begin 2 tidy 0000000000000210
finish 1842
begin 3 tidy 00000000000000ad
begin 2 tidy 00000000000000d4
finish 1846
begin 1 tidy 00000000000000d0
step 1840
finish 1845
finish 1847
begin 3 tidy 00000000000002a4
finish 1844
finish 1839
finish 1840
finish 1848
advance
alone tidy 0000000000000233
begin 3 tidy 0000000000000267
begin 2 tidy 000000000000007d
collect
finish 1851
finish 1850
alone tidy 00000000000001bb
begin 3 tidy 00000000000001bf
begin 3 tidy 00000000000000c0
finish 1854
begin 1 tidy 0000000000000223
finish 1855
finish 1853
begin 2 tidy 00000000000000f1
finish 1856
begin 2 tidy 0000000000000082
begin 3 tidy 000000000000007f
finish 1857
begin 3 tidy 000000000000002f
begin 2 tidy 000000000000026c
begin 1 tidy 000000000000027f
finish 1861
finish 1860
finish 1858
begin 1 tidy 000000000000012c
step 1862
begin 3 tidy 000000000000016c
begin 1 tidy 00000000000000da
begin 2 put 00000000000000ee 0=4be5b9
begin 2 tidy 000000000000022e
step 1866
step 1862
finish 1864
begin 1 tidy 00000000000000e1
finish 1867
begin 2 tidy 0000000000000259
finish 1862
begin 2 get 000000000000004b all
step 1865
finish 1868
finish 1866
finish 1869
begin 3 tidy 0000000000000184
begin 1 tidy 00000000000001cd
begin 1 tidy 000000000000004d
step 1863
step 1859
step 1870
step 1859
step 1870
collect
finish 1859
begin 3 tidy 00000000000001ed
finish 1872
begin 1 tidy 0000000000000298
finish 1870
begin 1 tidy 0000000000000085
finish 1865
begin 1 tidy 0000000000000089
step 1875
finish 1873
begin 1 tidy 00000000000000f9
finish 1874
step 1876
finish 1877
finish 1876
finish 1871
begin 3 tidy 000000000000029c
begin 2 tidy 0000000000000044
begin 2 tidy 000000000000008a
finish 1880
feed 21 10
step 1879
finish 1878
step 1879
step 1863
begin 2 tidy 0000000000000018
begin 3 tidy 000000000000002b
finish 1882
step 1881
step 1881
begin 3 tidy 00000000000002b8
begin 1 tidy 00000000000001ec
finish 1875
begin 2 tidy 00000000000001d0
finish 1881
step 1883
begin 1 tidy 00000000000000aa
finish 1884
begin 3 tidy 0000000000000029
step 1879
step 1879
step 1879
step 1879
step 1879
begin 3 tidy 00000000000000c4
collect
finish 1886
begin 3 tidy 0000000000000212
finish 1887
finish 1885
begin 1 tidy 00000000000001f8
begin 1 tidy 0000000000000122
step 1863
step 1888
step 1863
step 1863
step 1863
step 1863
collect
step 1889
collect
finish 1889
finish 1883
step 1890
begin 2 tidy 000000000000025b
finish 1891
begin 3 tidy 00000000000001b4
step 1893
begin 1 tidy 000000000000019f
finish 1892
step 1894
begin 1 tidy 0000000000000019
finish 1895
step 1890
finish 1893
step 1894
begin 3 tidy 000000000000024b
step 1890
finish 1890
begin 3 tidy 0000000000000270
step 1896
step 1888
begin 2 tidy 00000000000001da
begin 2 tidy 00000000000000b3
finish 1898
finish 1888
finish 1897
finish 1896
begin 3 tidy 000000000000022b
begin 2 tidy 00000000000000e3
finish 1900
begin 3 tidy 00000000000000e9
finish 1894
finish 1901
step 1899
step 1899
begin 1 tidy 0000000000000049
begin 3 tidy 00000000000000d7
begin 3 tidy 000000000000005a
step 1903
begin 1 tidy 00000000000001b9
step 1903
step 1905
finish 1906
begin 3 tidy 0000000000000148
finish 1903
begin 2 tidy 0000000000000155
advance
feed 1027 1
finish 1899
step 1908
begin 1 range 0000000000000242 10 all
finish 1905
step 1904
begin 2 tidy 0000000000000294
step 1904
finish 1909
begin 2 tidy 00000000000001c5
finish 1910
begin 1 get 0000000000000083 all
finish 1911
step 1907
begin 1 tidy 0000000000000050
step 1913
step 1904
step 1904
step 1904
step 1904
step 1904
step 1907
finish 1902
step 1908
step 1913
begin 2 tidy 00000000000000f5
finish 1912
step 1913
step 1913
step 1913
step 1913
step 1913
step 1908
begin 2 tidy 00000000000001ac
begin 2 tidy 0000000000000299
begin 2 tidy 0000000000000179
finish 1914
begin 3 tidy 00000000000001f2
finish 1918
finish 1917
begin 1 tidy 000000000000022f
step 1915
begin 2 tidy 000000000000016d
step 1920
finish 1908
begin 2 tidy 000000000000000d
finish 1916
step 1919
begin 2 tidy 0000000000000120
finish 1915
step 1907
step 1907
step 1907
step 1907
step 1907
begin 2 tidy 0000000000000096
begin 2 tidy 0000000000000077
finish 1920
finish 1924
finish 1921
begin 3 tidy 0000000000000038
begin 2 tidy 000000000000001e
finish 1926
step 1919
begin 3 tidy 0000000000000131
begin 2 tidy 0000000000000151
advance
step 1922
finish 1927
begin 3 tidy 0000000000000088
step 1928
finish 1919
begin 2 put 000000000000005d 0=47eb
step 1929
finish 1925
finish 1922
begin 2 tidy 00000000000001a9
begin 2 tidy 0000000000000095
step 1931
advance
step 1923
finish 1929
finish 1931
begin 1 tidy 00000000000002a8
finish 1928
begin 2 tidy 0000000000000192
finish 1932
begin 3 tidy 000000000000026a
begin 1 tidy 0000000000000244
finish 1930
finish 1936
begin 2 remove 0000000000000017
begin 3 tidy 000000000000004b
finish 1934
begin 3 tidy 0000000000000167
finish 1937
begin 2 tidy 000000000000000b
step 1940
finish 1923
begin 3 tidy 000000000000028f
step 1940
step 1940
step 1940
step 1940
step 1940
step 1940
begin 3 range 000000000000011a 1 all
finish 1935
begin 1 tidy 00000000000001d6
finish 1942
begin 1 tidy 000000000000015e
finish 1941
begin 2 tidy 000000000000019c
finish 1943
begin 1 tidy 00000000000001fe
step 1944
finish 1938
finish 1945
finish 1939
finish 1933
begin 2 tidy 000000000000005b
begin 2 tidy 000000000000023c
finish 1947
step 1948
begin 2 tidy 0000000000000087
finish 1944
finish 1948
finish 1949
begin 1 tidy 0000000000000240
begin 3 tidy 0000000000000201
finish 1946
begin 3 tidy 0000000000000187
finish 1952
finish 1950
step 1951
begin 2 tidy 0000000000000262
begin 1 tidy 0000000000000069
begin 2 tidy 000000000000023f
begin 1 tidy 0000000000000120
finish 1955
begin 3 tidy 000000000000016f
finish 1951
finish 1956
finish 1957
finish 1953
finish 1954
begin 3 tidy 00000000000000af
step 1958
begin 3 tidy 0000000000000031
step 1959
step 1959
finish 1958
begin 3 tidy 000000000000010e
finish 1959
begin 2 tidy 00000000000001a7
step 1961
finish 1961
begin 2 tidy 0000000000000145
finish 1960
feed 41 10
begin 3 tidy 000000000000027a
feed 1264 1
begin 1 tidy 00000000000001b1
step 1964
step 1963
finish 1962
finish 1963
finish 1964
alone tidy 00000000000000ca
begin 1 tidy 0000000000000084
finish 1966
alone tidy 00000000000000f4
begin 3 tidy 000000000000029d
step 1968
finish 1968
alone tidy 00000000000001f4
alone tidy 0000000000000079
begin 1 tidy 00000000000001fb
step 1971
finish 1971
alone tidy 0000000000000103
collect
alone tidy 0000000000000040
begin 1 tidy 0000000000000020
begin 1 tidy 0000000000000278
finish 1975
begin 1 tidy 0000000000000047
advance
collect
begin 2 tidy 00000000000001ba
finish 1977
finish 1976
finish 1974
begin 3 tidy 00000000000000b2
begin 1 tidy 0000000000000072
advance
begin 1 tidy 000000000000006d
begin 3 tidy 00000000000001ea
step 1979
finish 1981
step 1980
finish 1978
finish 1980
step 1979
begin 3 tidy 0000000000000012
begin 3 tidy 00000000000002b6
finish 1983
finish 1982
advance
begin 3 tidy 00000000000001d2
step 1984
finish 1984
begin 2 tidy 0000000000000134
step 1985
finish 1985
feed 535 3
step 1979
step 1979
step 1979
step 1979
step 1979
step 1979
begin 3 tidy 000000000000021a
begin 3 tidy 000000000000027e
finish 1986
begin 1 tidy 0000000000000139
finish 1987
begin 1 tidy 0000000000000149
finish 1988
step 1989
begin 2 tidy 000000000000018c
finish 1990
finish 1989
feed 759 1
alone tidy 000000000000023e
begin 3 tidy 0000000000000245
begin 1 tidy 000000000000013c
begin 1 tidy 000000000000013a
collect
begin 3 tidy 0000000000000136
begin 1 tidy 0000000000000202
advance
finish 1996
begin 1 tidy 00000000000001df
begin 2 tidy 000000000000007e
step 1993
finish 1997
begin 3 tidy 0000000000000033
step 1993
step 1992
finish 1994
begin 2 tidy 0000000000000024
step 2000
finish 1995
step 1992
begin 3 tidy 00000000000000b9
finish 1999
begin 1 tidy 00000000000001e7
finish 2001
begin 3 tidy 000000000000025f
finish 1992
finish 1998
begin 3 tidy 000000000000003b
begin 2 tidy 0000000000000146
advance
finish 2004
begin 3 tidy 000000000000012d
finish 2006
begin 1 tidy 000000000000002e
step 2003
advance
finish 2005
finish 2002
begin 3 tidy 000000000000007a
begin 2 tidy 000000000000014c
finish 2003
begin 2 tidy 0000000000000197
step 2008
finish 2008
begin 2 tidy 0000000000000280
finish 2011
finish 2009
step 2007
begin 2 tidy 0000000000000135
finish 2010
finish 1993
begin 3 tidy 000000000000006a
finish 2013
begin 3 tidy 00000000000001e3
finish 2012
finish 2007
begin 2 tidy 00000000000000a4
feed 78 3
step 2014
begin 1 tidy 00000000000000b0
finish 2016
finish 2015
begin 2 tidy 0000000000000093
step 2000
step 2017
begin 2 tidy 0000000000000048
finish 2017
advance
begin 3 tidy 0000000000000255
finish 2014
begin 2 tidy 0000000000000232
step 2000
step 2000
step 2000
step 2000
step 2000
begin 3 tidy 0000000000000268
finish 2019
finish 2018
finish 2020
finish 2021
feed 949 1
alone tidy 0000000000000112
begin 3 tidy 0000000000000001
step 2023
begin 1 tidy 000000000000012b
step 2024
step 2024
step 2023
begin 3 tidy 00000000000001a1
finish 2023
begin 3 remove 000000000000002c
begin 3 tidy 0000000000000150
begin 3 tidy 0000000000000166
finish 2027
step 2026
begin 2 tidy 00000000000001c7
finish 2028
begin 1 tidy 00000000000000f7
finish 2026
finish 2024
step 2025
step 2029
finish 2025
begin 3 tidy 0000000000000117
finish 2029
collect
finish 2031
begin 3 tidy 00000000000001b6
begin 3 tidy 00000000000000d8
advance
step 2033
step 2030
begin 1 tidy 0000000000000025
begin 2 tidy 000000000000003d
step 2032
finish 2033
begin 3 tidy 000000000000011f
begin 2 tidy 000000000000012e
step 2032
step 2037
step 2036
finish 2032
step 2037
finish 2036
begin 3 tidy 00000000000001b5
finish 2037
step 2034
begin 1 tidy 0000000000000007
begin 3 tidy 000000000000021f
finish 2038
step 2035
begin 2 tidy 00000000000000ed
step 2039
step 2039
finish 2040
begin 1 tidy 00000000000001ca
step 2039
step 2039
step 2039
step 2039
step 2039
begin 3 tidy 00000000000001db
finish 2030
step 2042
begin 1 tidy 00000000000000d3
step 2043
finish 2035
begin 3 tidy 000000000000010d
finish 2043
begin 3 tidy 000000000000025a
finish 2042
finish 2044
finish 2041
begin 3 tidy 0000000000000279
begin 2 tidy 000000000000027b
finish 2046
begin 2 tidy 000000000000004e
begin 1 tidy 000000000000013d
finish 2050
finish 2048
step 2047
begin 2 tidy 00000000000001dd
finish 2047
begin 1 tidy 0000000000000017
collect
advance
step 2052
begin 3 tidy 00000000000002a9
step 2051
step 2051
step 2049
advance
finish 2052
step 2051
begin 2 tidy 0000000000000042
step 2053
step 2054
finish 2049
begin 1 tidy 0000000000000251
step 2045
finish 2045
finish 2051
finish 2054
step 2053
begin 3 tidy 00000000000000c8
begin 2 tidy 0000000000000266
begin 3 tidy 0000000000000183
finish 2034
step 2055
step 2055
step 2056
advance
begin 3 tidy 0000000000000129
finish 2059
begin 3 tidy 00000000000000a5
advance
finish 2058
begin 3 tidy 0000000000000237
finish 2057
finish 2060
begin 3 tidy 00000000000002ae
begin 1 tidy 000000000000015c
finish 2061
begin 3 tidy 0000000000000127
step 2056
step 2055
step 2063
step 2063
step 2055
step 2055
step 2055
step 2055
step 2055
step 2055
feed 79 1
begin 1 tidy 0000000000000142
finish 2064
begin 3 tidy 000000000000011a
finish 2063
begin 2 tidy 0000000000000229
finish 2066
begin 2 tidy 0000000000000070
step 2065
step 2068
finish 2056
finish 2062
step 2068
begin 1 tidy 0000000000000222
begin 3 tidy 0000000000000039
step 2053
finish 2065
begin 1 tidy 000000000000010b
step 2053
step 2053
step 2053
step 2053
step 2053
step 2053
step 2070
begin 2 tidy 00000000000000a8
finish 2069
step 2070
step 2071
step 2070
step 2070
step 2070
step 2070
step 2070
begin 1 tidy 00000000000001e9
finish 2072
finish 2067
begin 1 tidy 00000000000002aa
step 2071
finish 2068
begin 2 remove 0000000000000162
begin 2 tidy 0000000000000062
finish 2074
begin 2 tidy 000000000000024e
begin 1 tidy 00000000000000e8
step 2076
step 2071
step 2071
step 2071
step 2071
step 2071
step 2071
step 2077
begin 3 tidy 0000000000000168
finish 2076
finish 2073
begin 3 tidy 0000000000000158
begin 2 tidy 000000000000025d
finish 2081
begin 1 tidy 0000000000000109
finish 2078
begin 1 tidy 000000000000007c
finish 2082
step 2075
begin 3 tidy 0000000000000254
step 2077
finish 2080
begin 1 tidy 00000000000000a0
step 2079
finish 2085
feed 279 3
step 2077
finish 2075
step 2077
step 2077
step 2077
step 2077
step 2077
step 2077
begin 2 tidy 00000000000000be
step 2083
begin 1 tidy 00000000000001fc
begin 2 tidy 000000000000014f
finish 2088
begin 3 tidy 000000000000001d
finish 2083
finish 2087
begin 2 tidy 0000000000000206
begin 3 tidy 0000000000000011
step 2084
step 2084
finish 2091
begin 3 tidy 0000000000000090
step 2079
step 2089
step 2079
finish 2086
finish 2090
finish 2092
step 2089
step 2084
feed 314 1
begin 2 tidy 0000000000000162
begin 3 tidy 0000000000000064
finish 2093
begin 2 tidy 0000000000000295
finish 2079
finish 2089
begin 2 tidy 00000000000001fd
begin 2 tidy 0000000000000006
finish 2094
finish 2095
step 2084
step 2084
step 2084
step 2084
step 2084
step 2084
begin 3 tidy 0000000000000292
step 2097
begin 1 tidy 000000000000009b
finish 2099
begin 3 tidy 000000000000025e
step 2098
step 2097
feed 663 3
step 2098
feed 1285 10
begin 3 tidy 0000000000000075
finish 2100
begin 2 tidy 0000000000000219
begin 1 tidy 000000000000004c
finish 2103
step 2101
begin 3 tidy 00000000000000ae
feed 212 1
step 2104
advance
collect
finish 2097
finish 2096
collect
step 2098
begin 2 range 000000000000029c 1 all
begin 1 tidy 00000000000000a1
finish 2101
step 2098
step 2098
step 2098
step 2098
step 2098
step 2098
begin 2 tidy 000000000000026f
begin 1 tidy 0000000000000226
step 2105
step 2105
step 2105
step 2105
finish 2104
step 2108
step 2107
finish 2106
begin 2 tidy 000000000000013f
step 2108
finish 2105
begin 3 tidy 0000000000000094
step 2110
step 2110
advance
begin 1 tidy 00000000000001cc
step 2110
step 2110
step 2110
step 2110
step 2110
step 2110
finish 2102
finish 2109
begin 1 tidy 0000000000000045
begin 3 tidy 0000000000000297
begin 3 tidy 0000000000000035
finish 2107
step 2112
step 2112
step 2112
step 2112
step 2112
step 2112
step 2112
finish 2114
begin 3 tidy 0000000000000195
finish 2113
begin 2 tidy 000000000000000a
begin 1 tidy 000000000000024a
finish 2117
begin 3 tidy 000000000000000e
finish 2116
step 2118
step 2108
finish 2118
begin 3 put 0000000000000051 0=11
advance
finish 2115
begin 2 tidy 00000000000000ce
step 2111
begin 2 tidy 0000000000000121
begin 2 tidy 0000000000000113
step 2108
step 2108
step 2108
step 2108
step 2108
step 2108
begin 1 tidy 00000000000000ef
finish 2111
begin 1 tidy 000000000000020b
step 2123
advance
step 2121
collect
finish 2120
begin 1 tidy 000000000000006f
step 2123
finish 2124
begin 2 tidy 0000000000000016
finish 2123
step 2119
begin 1 tidy 0000000000000275
step 2125
finish 2125
begin 1 tidy 000000000000027d
finish 2127
finish 2122
begin 3 tidy 000000000000004a
begin 2 tidy 000000000000017b
finish 2119
finish 2126
begin 2 tidy 0000000000000091
begin 3 get 00000000000000c6 all
step 2128
finish 2129
feed 970 1
step 2132
finish 2131
begin 3 get 00000000000001ac all
finish 2133
finish 2128
begin 1 tidy 000000000000015a
collect
begin 3 tidy 0000000000000286
step 2134
feed 470 10
step 2130
begin 1 tidy 00000000000001d7
step 2136
step 2136
finish 2132
begin 3 tidy 0000000000000118
step 2121
step 2130
finish 2130
finish 2136
begin 2 tidy 00000000000000b6
begin 2 tidy 000000000000019d
finish 2137
step 2134
finish 2121
finish 2139
finish 2134
finish 2135
step 2138
begin 3 tidy 0000000000000191
begin 1 tidy 0000000000000260
collect
begin 3 tidy 00000000000001e4
finish 2142
feed 103 1
begin 3 get 0000000000000221 all
finish 2141
finish 2140
begin 1 tidy 00000000000001eb
finish 2144
begin 3 tidy 0000000000000224
step 2143
begin 3 tidy 0000000000000080
begin 2 tidy 000000000000008b
finish 2143
finish 2146
step 2145
step 2145
finish 2147
feed 1226 1
finish 2145
begin 1 put 000000000000003d 0=329a
feed 443 3
step 2138
finish 2138
finish 2148
alone tidy 000000000000014b
alone tidy 000000000000017c
advance
begin 2 range 0000000000000202 10 all
finish 2151
alone tidy 00000000000000b8
alone tidy 000000000000018d
begin 2 tidy 000000000000009c
step 2154
begin 3 tidy 0000000000000242
step 2155
finish 2155
advance
begin 1 get 0000000000000190 all
begin 1 tidy 0000000000000101
finish 2156
begin 3 tidy 0000000000000281
finish 2157
finish 2154
step 2158
begin 2 tidy 0000000000000241
step 2158
finish 2159
begin 2 tidy 0000000000000205
begin 2 tidy 0000000000000140
finish 2161
finish 2158
begin 1 tidy 00000000000001af
finish 2162
begin 1 tidy 000000000000003e
begin 3 tidy 00000000000002b9
begin 2 tidy 0000000000000289
collect
step 2160
collect
begin 2 tidy 0000000000000216
advance
finish 2165
step 2166
step 2163
step 2160
finish 2166
finish 2160
advance
finish 2164
begin 2 get 00000000000001c2 all
begin 1 tidy 0000000000000010
finish 2168
finish 2163
begin 1 tidy 0000000000000156
finish 2167
begin 1 tidy 0000000000000247
begin 3 tidy 0000000000000065
step 2171
advance
finish 2170
begin 1 tidy 00000000000001c0
step 2172
begin 2 tidy 00000000000001aa
finish 2171
finish 2172
begin 1 tidy 00000000000000a3
begin 1 tidy 0000000000000284
begin 1 tidy 0000000000000059
begin 1 tidy 000000000000020c
finish 2177
begin 1 tidy 0000000000000296
step 2174
feed 832 3
step 2175
finish 2175
begin 2 tidy 00000000000000e7
step 2169
finish 2173
step 2176
begin 3 tidy 0000000000000076
finish 2176
begin 3 tidy 000000000000009d
step 2174
finish 2181
step 2180
begin 3 tidy 0000000000000215
finish 2169
finish 2174
step 2178
begin 2 tidy 000000000000026d
begin 3 tidy 0000000000000204
finish 2179
begin 3 tidy 000000000000012a
step 2183
finish 2185
begin 3 tidy 0000000000000026
step 2183
finish 2178
begin 1 tidy 0000000000000248
step 2182
finish 2184
begin 3 tidy 000000000000020a
step 2188
step 2187
finish 2188
begin 3 tidy 0000000000000173
step 2180
step 2180
step 2180
step 2180
step 2180
step 2180
step 2180
step 2180
step 2180
finish 2186
finish 2182
feed 405 10
finish 2189
finish 2187
begin 3 tidy 00000000000001c2
begin 3 tidy 0000000000000000
begin 2 tidy 00000000000000d2
step 2190
begin 2 tidy 00000000000000e5
finish 2193
begin 3 tidy 00000000000001a0
begin 1 tidy 0000000000000171
step 2183
finish 2191
begin 1 put 000000000000006e 0=-
finish 2195
step 2192
begin 1 tidy 00000000000000ab
finish 2196
begin 2 tidy 00000000000000c9
finish 2194
step 2198
finish 2190
finish 2198
begin 3 tidy 0000000000000293
begin 3 tidy 0000000000000052
begin 3 tidy 000000000000003c
finish 2183
begin 2 tidy 00000000000000c2
step 2201
finish 2200
begin 1 tidy 00000000000000dd
advance
finish 2197
begin 2 tidy 00000000000001b0
finish 2192
begin 1 tidy 0000000000000290
finish 2205
finish 2201
begin 1 tidy 00000000000000ba
finish 2204
begin 3 tidy 000000000000013b
begin 1 tidy 000000000000024d
finish 2206
finish 2203
begin 1 tidy 00000000000001c4
begin 3 tidy 0000000000000081
step 2207
step 2208
finish 2210
begin 1 tidy 0000000000000152
step 2199
finish 2199
begin 3 tidy 00000000000001d4
finish 2209
begin 3 tidy 000000000000019e
finish 2202
advance
begin 3 tidy 00000000000000ee
finish 2208
begin 1 tidy 0000000000000143
step 2207
finish 2214
begin 1 tidy 0000000000000053
finish 2212
collect
finish 2211
step 2207
step 2207
step 2207
step 2207
step 2207
step 2207
step 2207
step 2207
step 2207
begin 3 tidy 0000000000000043
begin 3 tidy 0000000000000282
finish 2213
begin 3 tidy 0000000000000190
step 2217
finish 2217
begin 3 tidy 00000000000002bb
begin 3 tidy 0000000000000027
finish 2221
finish 2220
step 2218
begin 1 tidy 00000000000001c6
begin 1 tidy 000000000000026e
finish 2218
collect
begin 3 get 00000000000000b2 all
finish 2216
step 2224
step 2224
step 2223
finish 2215
feed 1045 1
begin 1 tidy 00000000000002a2
begin 1 tidy 00000000000001bd
step 2225
step 2225
step 2225
finish 2223
finish 2225
begin 1 tidy 00000000000000b0
step 2224
finish 2226
finish 2224
begin 1 tidy 0000000000000046
finish 2219
finish 2228
begin 2 range 00000000000000a5 3 all
step 2227
begin 1 tidy 000000000000010a
begin 1 tidy 000000000000018a
begin 1 tidy 0000000000000211
finish 2222
begin 2 tidy 0000000000000176
finish 2230
begin 2 tidy 000000000000016e
step 2232
advance
finish 2234
finish 2227
begin 3 tidy 0000000000000189
step 2233
begin 1 tidy 000000000000000f
step 2232
finish 2231
begin 2 tidy 0000000000000181
finish 2236
advance
begin 3 get 0000000000000241 all
step 2238
finish 2229
step 2235
begin 2 tidy 00000000000000de
step 2239
finish 2237
finish 2239
begin 3 tidy 000000000000015f
begin 2 tidy 0000000000000119
finish 2240
begin 3 tidy 000000000000022a
finish 2235
feed 630 3
finish 2233
begin 3 tidy 0000000000000208
begin 1 tidy 000000000000023d
finish 2243
begin 1 tidy 000000000000017e
finish 2241
finish 2238
step 2242
begin 2 tidy 0000000000000153
finish 2245
step 2244
step 2246
finish 2242
begin 2 tidy 0000000000000164
begin 1 tidy 0000000000000249
finish 2232
feed 816 10
begin 2 tidy 000000000000015b
finish 2248
begin 2 tidy 000000000000005d
begin 3 tidy 000000000000017d
step 2246
step 2246
finish 2246
begin 3 put 00000000000001b8 0=a557a7
step 2250
finish 2247
begin 2 tidy 0000000000000037
step 2249
step 2244
step 2244
finish 2250
begin 3 tidy 0000000000000002
step 2253
feed 156 3
step 2251
step 2252
finish 2253
begin 3 tidy 000000000000002a
finish 2254
begin 3 tidy 000000000000004f
step 2256
finish 2249
finish 2251
begin 3 put 0000000000000154 0=0ee4b9
step 2244
step 2244
step 2244
step 2244
step 2244
step 2244
finish 2255
step 2256
begin 2 tidy 00000000000001e5
collect
step 2257
advance
begin 1 tidy 00000000000000e4
begin 1 tidy 00000000000002ab
finish 2257
finish 2252
begin 3 tidy 0000000000000165
begin 1 tidy 00000000000000bf
finish 2262
finish 2258
feed 1289 3
finish 2256
begin 3 tidy 0000000000000147
begin 1 tidy 00000000000000cc
finish 2259
begin 3 tidy 00000000000001e1
begin 1 tidy 000000000000001c
step 2261
finish 2260
step 2266
feed 127 1
begin 1 tidy 0000000000000196
finish 2263
begin 3 tidy 000000000000022d
step 2261
finish 2266
begin 2 tidy 00000000000001b7
finish 2269
begin 2 tidy 00000000000000eb
finish 2261
step 2268
advance
begin 2 tidy 0000000000000230
step 2271
finish 2270
begin 1 tidy 000000000000006c
step 2265
finish 2272
step 2265
finish 2271
begin 1 tidy 000000000000028a
step 2273
begin 3 tidy 000000000000021e
finish 2265
begin 1 tidy 0000000000000097
finish 2274
begin 3 tidy 00000000000001cf
feed 1003 10
finish 2267
begin 1 tidy 00000000000000f3
finish 2264
begin 3 tidy 00000000000000a9
finish 2275
begin 2 put 000000000000025c 0=-
finish 2279
begin 3 tidy 00000000000001b8
step 2278
finish 2277
begin 1 tidy 0000000000000269
feed 140 3
finish 2276
begin 2 tidy 0000000000000054
finish 2282
finish 2268
begin 3 tidy 00000000000001d5
finish 2278
finish 2280
advance
step 2273
finish 2281
step 2273
finish 2273
finish 2283
begin 1 tidy 00000000000001f7
feed 1112 3
begin 2 tidy 0000000000000023
begin 1 tidy 00000000000000cd
step 2285
begin 1 tidy 0000000000000125
step 2284
finish 2284
finish 2285
begin 3 tidy 00000000000000b4
step 2286
begin 2 tidy 00000000000000b7
begin 1 tidy 000000000000001b
begin 2 tidy 00000000000000db
step 2286
finish 2291
begin 3 tidy 00000000000001d3
finish 2286
finish 2292
begin 1 tidy 00000000000002b3
finish 2290
finish 2288
begin 2 tidy 000000000000008e
finish 2287
finish 2294
begin 1 tidy 00000000000000c1
feed 1067 3
step 2289
finish 2289
step 2295
finish 2295
step 2293
begin 3 tidy 00000000000001c1
begin 3 tidy 00000000000001d1
step 2293
begin 2 tidy 000000000000029f
begin 3 tidy 0000000000000157
step 2296
finish 2297
step 2299
begin 1 tidy 0000000000000073
finish 2299
begin 3 tidy 0000000000000013
begin 1 tidy 000000000000018e
step 2298
step 2298
step 2296
step 2293
step 2302
finish 2293
begin 2 tidy 0000000000000218
finish 2298
begin 1 tidy 0000000000000273
finish 2302
begin 1 tidy 00000000000000ea
step 2305
finish 2296
feed 1201 10
begin 1 tidy 0000000000000071
finish 2301
finish 2300
step 2303
finish 2304
begin 2 tidy 0000000000000132
finish 2307
collect
step 2305
begin 2 tidy 0000000000000028
begin 3 tidy 0000000000000100
begin 1 tidy 0000000000000092
finish 2303
step 2308
begin 2 tidy 00000000000001e2
finish 2305
finish 2309
begin 3 tidy 000000000000006e
begin 2 tidy 0000000000000021
finish 2313
finish 2310
step 2311
finish 2312
step 2311
begin 3 tidy 00000000000001be
feed 1219 3
begin 1 tidy 00000000000000cb
begin 3 tidy 00000000000001ab
step 2314
step 2306
finish 2311
begin 1 tidy 00000000000000b1
step 2314
step 2314
finish 2306
step 2314
step 2314
step 2314
step 2314
step 2314
step 2314
begin 2 tidy 00000000000001fa
begin 3 tidy 000000000000010c
step 2316
finish 2316
finish 2308
begin 1 tidy 0000000000000274
begin 1 tidy 00000000000000bd
step 2320
step 2315
finish 2318
begin 3 tidy 0000000000000227
finish 2315
finish 2321
collect
begin 2 tidy 00000000000000c5
step 2317
step 2320
step 2323
step 2320
begin 1 tidy 0000000000000114
finish 2320
finish 2317
finish 2322
step 2323
begin 2 range 0000000000000012 1 all
step 2325
step 2325
collect
step 2319
begin 2 tidy 0000000000000220
finish 2326
step 2324
begin 1 tidy 0000000000000159
begin 2 tidy 000000000000007b
finish 2325
begin 2 tidy 000000000000018b
finish 2324
step 2323
step 2323
step 2323
step 2323
step 2323
step 2323
step 2323
step 2323
step 2323
begin 2 tidy 000000000000016a
finish 2329
finish 2319
begin 2 tidy 00000000000001c9
feed 397 3
begin 2 tidy 00000000000002b2
begin 2 tidy 000000000000020e
finish 2330
step 2327
finish 2328
finish 2331
step 2333
begin 1 tidy 0000000000000130
finish 2333
begin 1 tidy 00000000000001ff
begin 2 tidy 0000000000000221
step 2327
begin 2 tidy 000000000000005c
finish 2337
begin 2 tidy 00000000000002a3
step 2335
finish 2338
begin 2 tidy 00000000000000f8
finish 2334
finish 2339
step 2335
begin 1 tidy 000000000000014d
begin 3 tidy 0000000000000133
finish 2327
finish 2332
finish 2341
begin 3 tidy 0000000000000063
step 2342
begin 3 tidy 00000000000000a2
finish 2343
finish 2342
step 2335
begin 2 tidy 0000000000000138
step 2336
finish 2336
begin 3 tidy 00000000000000d9
begin 1 tidy 00000000000002a5
finish 2335
step 2344
begin 3 tidy 0000000000000214
finish 2345
step 2347
step 2347
begin 3 tidy 000000000000008c
begin 2 tidy 0000000000000005
step 2340
finish 2340
finish 2347
finish 2346
step 2349
finish 2348
begin 2 tidy 00000000000001f5
begin 3 tidy 00000000000002a0
step 2351
begin 1 tidy 000000000000010f
finish 2352
collect
finish 2350
step 2344
begin 2 tidy 0000000000000198
finish 2349
begin 1 tidy 00000000000000fc
finish 2353
finish 2344
finish 2354
begin 2 tidy 0000000000000104
begin 3 tidy 000000000000029b
begin 2 tidy 000000000000008d
step 2357
begin 3 tidy 0000000000000074
begin 2 tidy 0000000000000217
finish 2356
begin 2 tidy 0000000000000257
step 2358
finish 2360
begin 2 tidy 0000000000000083
step 2357
finish 2355
begin 2 tidy 000000000000019b
finish 2359
finish 2358
begin 1 tidy 00000000000000c6
begin 1 range 00000000000001f5 3 all
finish 2362
step 2357
step 2357
step 2357
step 2357
step 2357
step 2357
step 2357
step 2357
step 2357
step 2364
step 2364
step 2364
finish 2364
finish 2363
step 2361
step 2351
finish 2361
advance
begin 1 tidy 000000000000017f
finish 2351
finish 2365
advance
alone tidy 00000000000001d8
feed 666 3
alone tidy 000000000000009f
begin 2 tidy 0000000000000172
finish 2368
begin 3 tidy 00000000000000fa
begin 1 put 0000000000000054 0=-
finish 2370
step 2369
begin 3 tidy 0000000000000177
finish 2369
begin 2 tidy 00000000000001b2
step 2372
begin 1 tidy 00000000000001de
begin 2 tidy 00000000000002ac
begin 2 tidy 0000000000000141
finish 2372
begin 2 tidy 00000000000001a4
step 2376
begin 3 tidy 0000000000000066
step 2377
advance
finish 2371
begin 1 tidy 0000000000000126
finish 2377
feed 407 1
begin 3 tidy 0000000000000199
finish 2378
begin 1 tidy 0000000000000098
step 2374
finish 2376
finish 2374
feed 536 3
step 2375
step 2375
begin 3 tidy 000000000000028c
begin 1 tidy 00000000000001c8
step 2382
finish 2373
step 2380
begin 2 tidy 0000000000000250
finish 2375
begin 2 get 0000000000000103 all
feed 537 1
finish 2380
begin 2 tidy 00000000000002b5
finish 2382
finish 2384
begin 1 tidy 00000000000001f9
collect
advance
begin 3 tidy 0000000000000264
feed 1395 3
finish 2383
finish 2386
begin 2 tidy 00000000000002a7
finish 2387
begin 1 tidy 0000000000000272
collect
begin 3 tidy 000000000000011c
finish 2389
begin 3 get 000000000000009a all
step 2388
step 2390
step 2390
step 2381
step 2390
step 2390
step 2390
step 2390
step 2390
step 2390
step 2390
step 2390
step 2390
step 2390
finish 2385
begin 2 tidy 0000000000000271
finish 2391
begin 2 tidy 00000000000000f6
finish 2392
step 2381
finish 2379
begin 2 tidy 0000000000000102
begin 2 tidy 000000000000000c
begin 1 tidy 0000000000000144
step 2388
finish 2381
finish 2394
finish 2396
begin 1 tidy 0000000000000261
begin 3 tidy 00000000000000dc
step 2397
begin 1 tidy 0000000000000203
finish 2395
finish 2398
feed 928 1
begin 3 tidy 000000000000011e
begin 2 tidy 000000000000024f
step 2388
step 2399
finish 2393
finish 2400
step 2397
begin 1 tidy 0000000000000107
begin 2 tidy 00000000000000e2
finish 2399
begin 1 tidy 00000000000001ef
finish 2388
begin 1 tidy 00000000000002ba
finish 2397
begin 1 tidy 00000000000000fd
finish 2405
collect
begin 1 tidy 0000000000000213
finish 2406
begin 3 tidy 0000000000000288
step 2403
finish 2408
step 2401
begin 2 tidy 0000000000000185
finish 2401
finish 2402
step 2407
step 2407
finish 2409
finish 2403
step 2404
begin 3 tidy 000000000000022c
finish 2404
begin 3 tidy 00000000000000fe
begin 3 tidy 0000000000000110
finish 2411
begin 2 tidy 0000000000000209
begin 2 tidy 000000000000014a
finish 2412
finish 2414
begin 2 tidy 000000000000006b
step 2415
begin 1 tidy 0000000000000068
begin 3 tidy 0000000000000235
finish 2410
finish 2416
finish 2417
finish 2413
begin 3 tidy 0000000000000200
finish 2407
begin 3 tidy 0000000000000086
begin 1 get 00000000000000a4 all
begin 1 tidy 00000000000000df
begin 3 tidy 0000000000000058
finish 2419
begin 3 tidy 00000000000000b5
step 2418
step 2422
finish 2418
begin 1 tidy 00000000000000cf
step 2421
finish 2421
finish 2422
step 2420
finish 2423
finish 2424
begin 2 get 0000000000000106 all
begin 3 tidy 0000000000000174
begin 1 tidy 0000000000000231
begin 2 tidy 0000000000000128
finish 2426
begin 3 tidy 000000000000005f
finish 2429
step 2415
begin 3 tidy 00000000000001cb
finish 2425
finish 2430
finish 2428
begin 2 tidy 0000000000000265
step 2427
finish 2420
finish 2415
finish 2431
finish 2427
begin 1 tidy 000000000000021c
begin 2 tidy 0000000000000154
begin 3 tidy 00000000000001e0
finish 2432
begin 2 tidy 0000000000000180
finish 2433
step 2434
begin 2 tidy 000000000000018f
begin 1 tidy 0000000000000250
begin 1 tidy 00000000000002ad
finish 2435
finish 2436
step 2438
step 2438
begin 2 remove 00000000000000c0
begin 2 tidy 0000000000000277
begin 1 tidy 0000000000000239
step 2440
step 2441
step 2438
finish 2438
begin 2 tidy 00000000000000d5
finish 2439
step 2442
begin 1 tidy 0000000000000008
finish 2443
step 2434
step 2437
begin 2 tidy 0000000000000182
finish 2444
begin 1 tidy 00000000000002af
finish 2441
finish 2437
finish 2434
step 2442
step 2442
step 2442
step 2442
step 2442
step 2442
step 2442
step 2442
step 2442
step 2442
step 2442
begin 1 tidy 00000000000000a7
begin 3 tidy 00000000000000ac
finish 2447
begin 1 tidy 000000000000001a
begin 3 get 0000000000000248 all
finish 2449
begin 1 build range 000000000000022d none any
begin 1 tidy 00000000000001a6
step 2451
finish 2445
collect
begin 3 tidy 0000000000000207
finish 2452
finish 2446
finish 2440
begin 1 tidy 0000000000000161
begin 3 tidy 000000000000002c
begin 1 tidy 0000000000000111
finish 2450
begin 2 tidy 0000000000000236
finish 2453
finish 2456
begin 2 tidy 00000000000001f1
finish 2455
finish 2448
begin 1 tidy 000000000000023a
begin 3 tidy 000000000000008f
step 2457
begin 3 tidy 0000000000000228
finish 2454
finish 2457
begin 3 tidy 0000000000000014
begin 1 tidy 00000000000000c3
step 2451
finish 2451
begin 3 tidy 0000000000000032
finish 2462
begin 3 tidy 000000000000029e
finish 2459
finish 2461
begin 2 tidy 0000000000000253
begin 1 tidy 0000000000000099
step 2460
step 2460
finish 2458
begin 1 tidy 000000000000017a
finish 2463
finish 2464
step 2465
begin 3 tidy 0000000000000106
begin 1 get 0000000000000027 all
finish 2460
step 2465
step 2466
step 2469
begin 3 tidy 0000000000000060
step 2468
step 2469
finish 2465
begin 3 tidy 00000000000000d6
step 2467
step 2469
step 2469
step 2469
step 2469
step 2469
step 2466
begin 1 tidy 0000000000000124
finish 2467
step 2468
collect
finish 2471
step 2472
collect
begin 3 tidy 0000000000000055
finish 2473
begin 3 tidy 0000000000000234
begin 3 tidy 00000000000001ae
step 2474
step 2474
step 2470
collect
finish 2468
begin 3 tidy 00000000000000e6
finish 2474
begin 1 tidy 000000000000023b
step 2476
advance
step 2472
finish 2477
begin 3 tidy 000000000000003f
finish 2470
begin 2 tidy 000000000000011b
step 2476
finish 2466
step 2476
step 2476
step 2476
step 2476
step 2476
step 2476
step 2476
step 2476
step 2476
step 2476
begin 3 tidy 00000000000000ff
step 2480
begin 1 tidy 0000000000000258
step 2472
step 2472
step 2472
step 2472
step 2472
step 2472
step 2472
step 2472
step 2472
step 2472
begin 1 tidy 00000000000001ee
finish 2475
begin 1 tidy 000000000000003a
step 2481
finish 2479
begin 1 tidy 00000000000001c3
step 2484
finish 2484
begin 2 tidy 00000000000000f2
step 2480
finish 2482
begin 2 tidy 0000000000000193
finish 2485
step 2483
finish 2480
finish 2478
finish 2483
begin 3 tidy 000000000000025c
begin 3 tidy 0000000000000078
finish 2488
begin 1 tidy 00000000000001dc
apply 5
finish 2486
finish 2481
step 2487
begin 3 tidy 000000000000009a
begin 3 tidy 0000000000000137
finish 2489
finish 2491
begin 3 tidy 0000000000000057
step 2490
begin 1 tidy 0000000000000178
finish 2493
finish 2487
begin 3 tidy 00000000000001d9
begin 1 put 0000000000000222 0=2639af
step 2492
begin 3 tidy 00000000000002aa
step 2495
advance
finish 2494
begin 2 tidy 00000000000001ad
drop 5
begin 2 tidy 00000000000001a2
step 2490
finish 2492
finish 2497
begin 2 tidy 000000000000013e
advance
finish 2490
step 2495
step 2495
finish 2495
collect
begin 1 tidy 0000000000000051
finish 2500
step 2496
begin 2 tidy 000000000000002d
finish 2496
step 2498
begin 2 tidy 00000000000000ec
step 2498
begin 3 get 0000000000000260 all
collect
begin 3 tidy 0000000000000003
step 2504
finish 2502
begin 1 tidy 000000000000027c
step 2499
finish 2501
feed 893 10
begin 2 tidy 00000000000000e0
step 2505
step 2505
finish 2506
begin 3 tidy 00000000000002b1
finish 2498
finish 2499
collect
step 2503
step 2503
finish 2507
step 2503
step 2503
step 2503
step 2503
step 2503
step 2503
begin 1 tidy 0000000000000287
begin 1 tidy 00000000000001f6
step 2505
begin 3 tidy 0000000000000067
step 2503
step 2503
step 2504
finish 2503
begin 1 tidy 0000000000000123
finish 2511
feed 299 3
step 2510
begin 3 remove 000000000000027a
finish 2505
begin 2 tidy 000000000000028b
advance
step 2508
step 2512
step 2513
step 2510
step 2513
step 2504
step 2504
step 2504
step 2504
step 2504
begin 3 tidy 00000000000001ce
finish 2508
step 2509
finish 2509
step 2513
begin 3 tidy 0000000000000175
finish 2515
finish 2514
begin 2 tidy 00000000000000fb
begin 1 tidy 00000000000002b4
collect
step 2513
step 2513
step 2513
step 2513
step 2513
step 2513
step 2513
step 2513
finish 2512
feed 1100 3
finish 2516
finish 2510
begin 3 tidy 0000000000000041
begin 1 tidy 0000000000000004
begin 3 tidy 00000000000001a8
begin 3 tidy 0000000000000283
step 2520
step 2520
finish 2519
begin 1 tidy 0000000000000276
begin 3 tidy 0000000000000097
step 2522
step 2521
step 2520
finish 2523
step 2522
finish 2520
finish 2517
step 2518
step 2518
begin 2 tidy 00000000000002a6
step 2524
finish 2524
begin 1 tidy 00000000000000bc
begin 1 tidy 0000000000000256
finish 2518
step 2526
collect
feed 132 3
finish 2526
finish 2522
advance
finish 2521
begin 3 tidy 0000000000000246
begin 2 tidy 0000000000000186
begin 2 tidy 0000000000000108
finish 2525
begin 2 range 00000000000001cb 3 all
finish 2528
finish 2529
finish 2527
finish 2530
begin 3 tidy 0000000000000036
step 2531
begin 2 tidy 00000000000002b0
collect
finish 2532
begin 3 get 0000000000000082 all
begin 2 tidy 000000000000020f
finish 2531
begin 2 tidy 000000000000015d
begin 1 tidy 0000000000000169
step 2536
finish 2536
begin 1 tidy 0000000000000061
step 2533
step 2533
step 2533
begin 1 tidy 00000000000001f3
begin 2 tidy 00000000000000a6
finish 2539
begin 2 tidy 000000000000009e
finish 2540
finish 2537
step 2538
finish 2535
begin 2 tidy 0000000000000105
finish 2538
step 2541
begin 2 tidy 0000000000000015
advance
finish 2541
begin 3 tidy 0000000000000115
begin 3 tidy 0000000000000225
step 2544
step 2534
finish 2533
begin 2 tidy 0000000000000194
begin 3 tidy 000000000000016b
step 2545
step 2542
step 2543
finish 2543
begin 3 tidy 0000000000000056
step 2546
finish 2546
step 2544
begin 1 tidy 0000000000000243
step 2544
advance
step 2548
finish 2547
begin 2 tidy 00000000000001b3
finish 2545
finish 2548
begin 1 tidy 000000000000012f
begin 2 tidy 000000000000014e
finish 2550
step 2534
step 2549
begin 2 tidy 000000000000024c
finish 2534
finish 2544
finish 2549
begin 2 tidy 000000000000011d
step 2551
finish 2552
begin 3 tidy 000000000000026b
finish 2553
feed 809 3
finish 2542
finish 2551
finish 2554
alone tidy 000000000000001f
begin 3 tidy 000000000000021d
step 2556
begin 2 tidy 000000000000005e
finish 2557
begin 1 tidy 0000000000000160
step 2556
step 2556
finish 2556
finish 2558
begin 1 tidy 000000000000019a
finish 2559
begin 1 tidy 0000000000000009
finish 2560
begin 1 tidy 000000000000029a
step 2561
finish 2561
begin 3 tidy 000000000000021b
begin 3 tidy 00000000000001a5
step 2562
step 2563
begin 2 tidy 0000000000000163
finish 2564
step 2563
begin 1 tidy 0000000000000188
step 2562
step 2565
begin 2 tidy 00000000000000bb
begin 1 tidy 00000000000002a1
begin 1 put 00000000000002bb 0=5b8345
finish 2562
begin 2 tidy 00000000000001e8
finish 2565
step 2569
begin 1 tidy 0000000000000116
step 2566
finish 2569
collect
finish 2567
begin 1 tidy 000000000000028d
begin 2 tidy 0000000000000030
step 2572
step 2566
feed 57 1
step 2568
finish 2572
begin 1 tidy 00000000000001e6
finish 2571
finish 2566
finish 2568
finish 2570
begin 2 tidy 00000000000001a3
finish 2563
begin 3 tidy 0000000000000263
finish 2574
finish 2575
begin 1 tidy 00000000000001f0
step 2573
finish 2576
step 2573
finish 2573
begin 1 put 0000000000000224 0=d5383467
step 2577
step 2577
begin 2 tidy 00000000000002b7
feed 296 3
step 2577
begin 2 tidy 00000000000000f0
begin 1 tidy 0000000000000291
step 2577
begin 3 range 0000000000000098 3 all
begin 2 tidy 0000000000000022
step 2579
step 2581
step 2581
step 2581
step 2581
step 2581
step 2581
step 2580
step 2581
step 2581
step 2581
step 2581
step 2581
step 2581
finish 2577
advance
begin 3 tidy 00000000000000d1
step 2579
finish 2580
finish 2579
advance
begin 2 tidy 0000000000000252
begin 2 tidy 0000000000000285
step 2583
finish 2578
step 2585
begin 3 tidy 000000000000028e
finish 2582
step 2581
step 2581
step 2581
begin 3 tidy 00000000000000c7
step 2584
finish 2586
begin 2 tidy 0000000000000170
finish 2585
begin 1 tidy 000000000000020d
finish 2588
begin 3 tidy 00000000000001bc
finish 2587
finish 2583
step 2581
step 2581
begin 2 tidy 0000000000000034
finish 2590
step 2584
begin 1 tidy 0000000000000238
feed 84 10
finish 2592
step 2581
step 2581
step 2581
step 2581
step 2581
step 2581
step 2581
step 2581
step 2581
step 2581
step 2581
step 2581
step 2581
step 2581
step 2581
step 2589
begin 1 tidy 0000000000000210
advance
finish 2591
step 2584
begin 1 tidy 00000000000000ad
finish 2593
begin 1 tidy 00000000000000d4
finish 2589
begin 1 tidy 00000000000000d0
collect
finish 2594
step 2584
step 2584
step 2584
step 2584
step 2584
step 2584
step 2584
step 2584
step 2584
begin 2 put 00000000000000c5 0=34630d7f
collect
begin 2 tidy 00000000000002a4
begin 3 tidy 0000000000000233
finish 2599
finish 2597
begin 1 tidy 0000000000000267
begin 1 tidy 000000000000007d
finish 2600
step 2596
begin 2 tidy 00000000000001bb
step 2595
step 2602
begin 2 tidy 00000000000001bf
finish 2598
feed 862 10
begin 1 tidy 00000000000000c0
finish 2603
begin 2 tidy 0000000000000223
step 2605
step 2605
finish 2596
begin 2 tidy 00000000000000f1
finish 2602
begin 3 tidy 0000000000000082
finish 2607
step 2605
finish 2604
finish 2606
begin 1 tidy 000000000000007f
finish 2595
begin 1 tidy 000000000000002f
step 2608
begin 3 tidy 000000000000026c
step 2610
begin 1 tidy 000000000000027f
finish 2611
begin 1 tidy 000000000000012c
step 2610
finish 2612
step 2609
collect
step 2608
begin 1 tidy 000000000000016c
step 2610
advance
finish 2608
step 2609
step 2601
step 2613
finish 2610
begin 1 tidy 00000000000000da
finish 2614
step 2601
begin 3 tidy 000000000000022e
begin 2 tidy 00000000000000e1
step 2616
step 2613
step 2605
step 2605
step 2605
step 2605
step 2605
step 2605
step 2605
step 2605
begin 1 tidy 0000000000000259
finish 2617
begin 1 tidy 0000000000000184
finish 2618
finish 2609
feed 709 1
step 2601
step 2601
step 2601
step 2601
step 2601
step 2601
step 2601
step 2601
step 2601
step 2601
begin 2 tidy 00000000000001cd
finish 2613
finish 2619
finish 2616
finish 2615
advance
alone tidy 000000000000004d
alone tidy 00000000000001ed
begin 3 tidy 0000000000000298
feed 560 1
step 2622
finish 2622
begin 2 tidy 0000000000000085
begin 1 tidy 0000000000000089
finish 2624
begin 2 tidy 00000000000000f9
begin 3 tidy 000000000000029c
collect
begin 3 tidy 0000000000000044
begin 1 tidy 000000000000008a
finish 2623
begin 3 tidy 0000000000000018
step 2626
begin 1 tidy 000000000000002b
finish 2627
step 2630
begin 1 tidy 00000000000002b8
step 2625
finish 2625
begin 1 tidy 00000000000001ec
step 2632
finish 2629
begin 1 tidy 00000000000001d0
finish 2630
begin 1 tidy 00000000000000aa
finish 2628
begin 1 tidy 0000000000000029
finish 2632
step 2631
begin 1 tidy 00000000000000c4
step 2626
collect
step 2636
finish 2634
begin 3 tidy 0000000000000212
finish 2635
step 2637
begin 2 tidy 00000000000001f8
finish 2637
begin 2 tidy 0000000000000122
finish 2639
step 2638
begin 1 tidy 000000000000025b
finish 2633
step 2640
finish 2626
finish 2638
begin 1 tidy 00000000000001b4
advance
begin 1 tidy 000000000000019f
collect
finish 2641
finish 2631
begin 2 tidy 0000000000000019
advance
begin 2 tidy 000000000000024b
begin 2 put 000000000000029e 0=-
step 2636
finish 2636
begin 3 tidy 0000000000000270
step 2640
finish 2642
finish 2646
begin 2 tidy 00000000000001da
finish 2647
finish 2645
finish 2640
step 2644
finish 2644
begin 2 tidy 00000000000000b3
begin 3 tidy 000000000000022b
collect
finish 2643
finish 2648
begin 2 tidy 00000000000000e3
step 2650
advance
begin 1 tidy 00000000000000e9
begin 3 tidy 0000000000000049
step 2651
step 2649
finish 2650
step 2649
finish 2651
finish 2652
begin 3 tidy 00000000000000d7
begin 2 tidy 000000000000005a
begin 1 tidy 00000000000001b9
feed 1061 10
begin 3 tidy 0000000000000148
advance
begin 1 tidy 0000000000000155
step 2656
finish 2657
begin 3 tidy 0000000000000294
step 2658
finish 2658
finish 2655
finish 2656
step 2649
finish 2654
finish 2649
finish 2653
alone tidy 00000000000001c5
alone tidy 0000000000000050
begin 1 tidy 00000000000000f5
begin 3 tidy 00000000000001ac
finish 2662
begin 3 tidy 0000000000000299
finish 2663
begin 1 tidy 0000000000000179
begin 2 tidy 00000000000001f2
finish 2661
step 2664
finish 2664
finish 2665
begin 1 tidy 000000000000022f
begin 1 tidy 000000000000016d
begin 1 tidy 000000000000000d
begin 3 tidy 0000000000000096
begin 2 tidy 0000000000000077
finish 2666
step 2667
step 2667
step 2670
begin 3 get 000000000000008e all
begin 3 tidy 0000000000000038
finish 2670
begin 2 tidy 000000000000001e
finish 2673
finish 2671
step 2668
finish 2668
finish 2667
step 2672
begin 3 tidy 0000000000000131
step 2672
finish 2672
step 2669
begin 1 tidy 0000000000000151
begin 3 tidy 0000000000000088
begin 3 tidy 00000000000001a9
begin 2 tidy 0000000000000095
finish 2674
begin 3 tidy 00000000000002a8
finish 2677
begin 2 tidy 0000000000000192
finish 2669
advance
begin 3 tidy 000000000000026a
finish 2676
step 2679
finish 2681
step 2678
begin 3 tidy 0000000000000244
begin 1 tidy 000000000000004b
step 2682
step 2683
finish 2679
begin 2 tidy 0000000000000167
finish 2675
finish 2682
begin 1 tidy 000000000000000b
step 2685
begin 3 tidy 000000000000028f
finish 2684
finish 2686
begin 2 tidy 00000000000001d6
begin 2 tidy 000000000000015e
finish 2678
step 2685
advance
feed 493 1
begin 3 tidy 000000000000019c
finish 2689
step 2683
begin 1 tidy 00000000000001fe
finish 2687
step 2685
step 2685
step 2685
step 2685
step 2685
step 2690
finish 2683
step 2680
finish 2688
step 2690
step 2680
begin 2 tidy 000000000000005b
begin 1 tidy 000000000000023c
finish 2690
finish 2680
step 2691
begin 1 tidy 0000000000000087
begin 3 tidy 0000000000000240
begin 2 tidy 0000000000000201
step 2691
finish 2691
feed 524 10
step 2695
step 2692
step 2692
feed 831 10
begin 1 tidy 0000000000000187
feed 1152 1
begin 3 tidy 0000000000000262
finish 2696
finish 2692
finish 2695
step 2694
begin 2 get 0000000000000171 all
begin 1 tidy 0000000000000069
step 2698
step 2698
step 2698
step 2693
begin 3 tidy 000000000000023f
step 2694
finish 2694
begin 1 tidy 0000000000000120
step 2697
finish 2699
begin 3 tidy 000000000000016f
step 2697
finish 2700
finish 2701
begin 3 tidy 00000000000000af
step 2697
begin 2 tidy 0000000000000031
step 2697
step 2697
step 2697
step 2697
step 2697
step 2697
step 2697
step 2697
step 2697
step 2697
begin 3 tidy 000000000000010e
finish 2705
begin 2 put 000000000000027a 0=-
step 2703
finish 2698
finish 2704
begin 3 tidy 00000000000001a7
finish 2693
begin 2 tidy 0000000000000145
begin 2 tidy 000000000000027a
step 2707
step 2706
finish 2706
step 2709
finish 2709
begin 1 tidy 00000000000001b1
step 2708
step 2703
begin 1 tidy 00000000000000ca
finish 2707
begin 3 tidy 0000000000000084
finish 2702
begin 3 tidy 00000000000000f4
finish 2712
finish 2713
begin 3 tidy 000000000000029d
begin 3 tidy 00000000000001f4
step 2715
finish 2708
begin 1 tidy 0000000000000079
step 2703
step 2703
step 2703
step 2703
step 2703
step 2703
step 2703
step 2703
step 2703
step 2703
finish 2716
step 2710
begin 2 tidy 00000000000001fb
begin 3 tidy 0000000000000103
step 2715
step 2714
finish 2710
step 2715
step 2711
begin 2 get 0000000000000006 all
finish 2717
feed 157 3
step 2715
step 2715
step 2715
step 2715
step 2715
step 2715
step 2715
begin 2 tidy 0000000000000040
begin 3 tidy 0000000000000020
finish 2719
finish 2718
finish 2721
step 2711
step 2714
begin 2 tidy 0000000000000278
finish 2722
finish 2711
begin 3 tidy 0000000000000047
finish 2723
finish 2714
finish 2720
begin 2 tidy 00000000000001ba
begin 1 tidy 00000000000000b2
finish 2725
finish 2724
begin 3 tidy 0000000000000072
begin 2 tidy 000000000000006d
begin 2 tidy 00000000000001ea
collect
begin 3 tidy 0000000000000012
begin 3 tidy 00000000000002b6
step 2726
step 2726
finish 2728
step 2727
step 2729
feed 383 10
begin 2 tidy 00000000000001d2
begin 3 tidy 0000000000000134
feed 148 10
step 2730
step 2731
step 2726
step 2726
step 2726
step 2726
step 2726
step 2726
step 2726
step 2726
step 2726
step 2726
begin 2 tidy 000000000000021a
collect
finish 2729
begin 1 tidy 000000000000027e
finish 2734
finish 2727
finish 2730
begin 1 tidy 0000000000000139
step 2735
begin 3 tidy 0000000000000149
begin 3 tidy 000000000000018c
step 2733
step 2735
step 2733
step 2735
step 2735
step 2735
step 2735
step 2735
step 2735
step 2735
step 2735
step 2735
step 2735
step 2735
begin 1 tidy 000000000000023e
step 2738
finish 2736
begin 2 tidy 0000000000000245
finish 2733
begin 3 tidy 000000000000013c
step 2737
step 2731
step 2738
finish 2740
advance
begin 3 tidy 000000000000013a
step 2739
finish 2738
feed 846 1
step 2741
feed 258 3
finish 2737
begin 3 tidy 0000000000000136
begin 2 tidy 0000000000000202
finish 2742
feed 1000 1
collect
begin 3 tidy 00000000000001df
step 2739
step 2741
step 2741
step 2741
step 2741
step 2741
step 2741
step 2741
step 2741
step 2741
step 2741
step 2741
step 2741
step 2731
finish 2732
begin 3 tidy 000000000000007e
finish 2739
step 2731
step 2731
step 2731
step 2731
step 2731
step 2731
begin 1 tidy 0000000000000033
step 2746
begin 3 tidy 0000000000000024
begin 2 tidy 00000000000000b9
finish 2747
finish 2748
step 2744
finish 2744
begin 3 tidy 00000000000001e7
begin 1 tidy 000000000000025f
begin 2 tidy 000000000000003b
step 2750
finish 2750
begin 3 remove 00000000000001c5
finish 2743
finish 2746
begin 1 tidy 0000000000000146
finish 2749
begin 1 tidy 000000000000012d
begin 1 tidy 000000000000002e
step 2753
finish 2752
step 2755
begin 1 tidy 000000000000007a
finish 2751
begin 3 tidy 000000000000014c
finish 2754
feed 1092 10
step 2745
begin 2 tidy 0000000000000197
finish 2756
feed 671 3
finish 2757
finish 2755
begin 2 tidy 0000000000000280
begin 3 tidy 0000000000000135
begin 3 tidy 000000000000006a
finish 2753
begin 1 tidy 00000000000001e3
finish 2762
finish 2759
begin 2 tidy 00000000000000a4
advance
finish 2763
step 2758
begin 1 tidy 0000000000000093
begin 1 tidy 0000000000000048
finish 2760
step 2745
step 2764
step 2764
finish 2761
begin 2 tidy 0000000000000255
step 2765
finish 2758
finish 2745
begin 1 tidy 0000000000000232
begin 3 tidy 0000000000000268
begin 1 tidy 0000000000000112
step 2764
step 2764
step 2764
step 2764
step 2764
step 2764
step 2764
step 2764
step 2764
step 2764
finish 2765
finish 2767
step 2769
finish 2766
begin 3 tidy 0000000000000001
step 2768
feed 438 1
step 2770
finish 2769
begin 2 tidy 000000000000012b
begin 1 tidy 00000000000001a1
feed 589 10
begin 2 tidy 0000000000000150
begin 2 tidy 0000000000000166
step 2771
advance
finish 2772
finish 2770
begin 3 tidy 00000000000001c7
begin 2 remove 0000000000000200
step 2773
advance
step 2774
finish 2775
finish 2773
begin 2 tidy 00000000000000f7
begin 2 tidy 0000000000000117
finish 2768
finish 2778
finish 2777
step 2774
finish 2776
step 2774
begin 2 tidy 00000000000001b6
step 2774
step 2774
step 2774
step 2774
step 2774
begin 1 tidy 00000000000000d8
begin 1 tidy 0000000000000025
advance
begin 3 tidy 000000000000003d
advance
feed 238 1
finish 2771
step 2782
step 2782
step 2781
collect
begin 2 tidy 000000000000011f
begin 1 tidy 000000000000012e
finish 2784
begin 1 tidy 00000000000001b5
step 2780
finish 2782
finish 2779
step 2781
advance
finish 2781
begin 1 tidy 0000000000000007
begin 2 tidy 000000000000021f
finish 2787
begin 3 remove 0000000000000167
begin 2 tidy 00000000000000ed
step 2783
finish 2780
begin 3 tidy 00000000000001ca
finish 2789
begin 3 tidy 00000000000001db
finish 2791
finish 2786
begin 2 tidy 00000000000000d3
begin 1 tidy 000000000000010d
finish 2792
step 2788
finish 2790
step 2783
step 2783
step 2783
step 2783
step 2783
step 2783
step 2783
step 2783
step 2783
step 2783
step 2783
step 2783
collect
step 2788
begin 3 tidy 000000000000025a
begin 2 tidy 0000000000000279
finish 2788
begin 1 tidy 000000000000027b
step 2795
begin 3 tidy 000000000000004e
step 2796
step 2795
finish 2793
finish 2785
begin 2 tidy 000000000000013d
begin 3 tidy 00000000000001dd
step 2797
step 2794
step 2798
finish 2794
begin 1 tidy 0000000000000017
finish 2800
advance
begin 3 tidy 00000000000002a9
finish 2797
begin 1 tidy 0000000000000042
step 2799
finish 2799
feed 827 10
begin 3 tidy 0000000000000251
collect
step 2798
step 2802
collect
finish 2796
finish 2795
begin 3 tidy 00000000000000c8
begin 3 tidy 0000000000000266
step 2801
step 2801
step 2805
step 2805
step 2802
finish 2803
begin 2 tidy 0000000000000183
finish 2801
step 2802
step 2802
step 2802
step 2802
step 2802
step 2802
step 2798
step 2798
step 2798
step 2798
step 2798
step 2798
step 2798
step 2798
step 2798
step 2798
step 2798
finish 2806
begin 1 tidy 0000000000000129
begin 3 tidy 00000000000000a5
finish 2805
collect
finish 2807
step 2808
collect
begin 2 tidy 0000000000000237
begin 1 tidy 00000000000002ae
finish 2808
finish 2809
finish 2810
begin 2 tidy 000000000000015c
finish 2811
begin 3 tidy 0000000000000127
begin 2 tidy 0000000000000142
begin 3 tidy 000000000000011a
begin 1 tidy 0000000000000229
begin 2 tidy 0000000000000070
finish 2813
begin 1 tidy 0000000000000222
finish 2815
begin 3 tidy 0000000000000039
finish 2818
finish 2814
begin 1 tidy 000000000000010b
begin 1 tidy 00000000000000a8
step 2804
finish 2820
begin 1 tidy 00000000000001e9
finish 2819
begin 1 tidy 00000000000002aa
feed 1402 3
finish 2812
begin 3 tidy 0000000000000062
finish 2804
finish 2822
begin 3 tidy 000000000000024e
finish 2816
finish 2823
finish 2821
step 2824
finish 2817
finish 2824
begin 1 tidy 00000000000000e8
begin 2 tidy 0000000000000168
feed 416 10
begin 1 tidy 0000000000000158
begin 2 tidy 000000000000025d
finish 2825
finish 2827
finish 2826
begin 1 tidy 0000000000000109
begin 1 tidy 000000000000007c
begin 1 tidy 0000000000000254
finish 2831
step 2830
begin 3 tidy 00000000000000a0
finish 2832
begin 3 tidy 00000000000000be
begin 3 tidy 00000000000001fc
begin 2 tidy 000000000000014f
feed 626 1
finish 2829
begin 2 tidy 000000000000001d
finish 2828
step 2833
step 2830
begin 1 tidy 0000000000000206
step 2835
step 2836
step 2830
step 2830
step 2830
step 2830
step 2830
step 2830
step 2830
step 2830
step 2830
step 2830
begin 3 tidy 0000000000000011
finish 2838
step 2834
finish 2837
begin 3 tidy 0000000000000090
step 2834
begin 3 tidy 0000000000000162
feed 1064 10
step 2839
finish 2836
begin 2 tidy 0000000000000064
finish 2840
finish 2833
begin 1 tidy 0000000000000295
finish 2839
step 2834
advance
finish 2841
finish 2835
step 2834
step 2834
step 2834
step 2834
step 2834
step 2834
step 2834
begin 1 tidy 00000000000001fd
begin 1 tidy 0000000000000006
begin 2 tidy 0000000000000292
finish 2845
finish 2843
step 2844
step 2842
begin 1 tidy 000000000000009b
finish 2846
begin 2 tidy 000000000000025e
finish 2844
step 2847
begin 2 tidy 0000000000000075
finish 2847
collect
finish 2842
step 2848
finish 2848
alone tidy 0000000000000219
begin 2 tidy 000000000000004c
feed 1052 10
step 2850
begin 2 tidy 00000000000000ae
finish 2851
finish 2850
begin 2 tidy 00000000000000a1
begin 3 tidy 000000000000026f
finish 2852
begin 1 tidy 0000000000000226
advance
begin 2 tidy 000000000000013f
step 2855
finish 2855
feed 1262 10
finish 2854
finish 2853
begin 3 tidy 0000000000000094
begin 1 tidy 00000000000001cc
begin 2 tidy 0000000000000045
begin 2 tidy 0000000000000297
finish 2859
finish 2857
step 2856
step 2858
feed 1151 3
step 2858
finish 2858
begin 2 put 0000000000000011 0=2181
finish 2860
finish 2856
begin 1 tidy 0000000000000035
step 2861
finish 2861
begin 3 tidy 0000000000000195
begin 3 tidy 000000000000000a
finish 2862
begin 2 range 0000000000000021 1000 all
finish 2864
begin 1 tidy 000000000000024a
begin 2 tidy 000000000000000e
finish 2866
begin 1 get 00000000000001fb all
begin 2 tidy 00000000000000ce
step 2867
step 2867
finish 2868
finish 2863
begin 1 tidy 0000000000000121
finish 2865
step 2867
begin 2 tidy 0000000000000113
begin 2 tidy 00000000000000ef
begin 3 tidy 000000000000020b
begin 3 tidy 000000000000006f
finish 2867
finish 2873
step 2872
begin 2 tidy 0000000000000016
finish 2872
step 2870
begin 1 tidy 0000000000000275
begin 2 tidy 000000000000027d
step 2869
finish 2874
begin 3 tidy 000000000000004a
finish 2869
begin 2 tidy 000000000000017b
step 2878
finish 2871
begin 2 tidy 0000000000000091
finish 2875
step 2876
finish 2878
begin 2 tidy 000000000000015a
begin 1 tidy 0000000000000286
finish 2880
collect
begin 2 tidy 00000000000001d7
step 2876
finish 2877
finish 2870
begin 1 tidy 0000000000000118
feed 995 1
step 2881
step 2881
feed 728 10
step 2879
finish 2879
step 2882
begin 1 put 0000000000000079 0=6ad7a6
step 2876
step 2882
begin 3 tidy 00000000000000b6
finish 2882
begin 3 tidy 000000000000019d
step 2884
finish 2886
begin 2 tidy 0000000000000191
step 2887
finish 2887
finish 2883
begin 1 tidy 0000000000000260
begin 2 tidy 00000000000001e4
finish 2881
begin 2 tidy 00000000000001eb
step 2889
finish 2889
advance
step 2876
step 2876
step 2876
step 2876
step 2876
step 2876
step 2876
step 2876
step 2876
step 2876
step 2876
begin 3 tidy 0000000000000224
begin 3 tidy 0000000000000080
step 2891
finish 2891
step 2888
finish 2885
begin 1 tidy 000000000000008b
begin 2 tidy 000000000000014b
step 2888
finish 2894
begin 3 put 00000000000000df 0=-
advance
advance
step 2893
step 2888
finish 2884
finish 2893
finish 2888
begin 1 tidy 000000000000017c
begin 3 tidy 00000000000000b8
begin 2 tidy 000000000000018d
finish 2898
begin 1 tidy 000000000000009c
advance
finish 2899
begin 1 tidy 0000000000000242
finish 2896
advance
begin 1 tidy 0000000000000101
finish 2895
begin 3 tidy 0000000000000281
finish 2901
begin 1 tidy 0000000000000241
advance
step 2903
finish 2902
finish 2897
advance
begin 1 tidy 0000000000000205
step 2903
step 2900
step 2904
begin 1 tidy 0000000000000140
finish 2890
finish 2904
finish 2900
finish 2905
feed 755 10
finish 2892
advance
begin 2 tidy 00000000000001af
finish 2906
begin 3 tidy 000000000000003e
begin 2 tidy 00000000000002b9
finish 2908
finish 2907
begin 3 tidy 0000000000000289
begin 2 tidy 0000000000000216
begin 1 tidy 0000000000000010
advance
begin 2 tidy 0000000000000156
finish 2903
begin 3 tidy 0000000000000247
begin 3 tidy 0000000000000065
finish 2909
advance
step 2910
begin 3 tidy 00000000000001c0
step 2913
step 2915
finish 2912
step 2914
begin 3 tidy 00000000000001aa
finish 2913
finish 2916
begin 3 tidy 00000000000000a3
finish 2917
begin 1 tidy 0000000000000284
step 2910
finish 2915
finish 2914
finish 2910
step 2918
feed 1089 3
finish 2911
finish 2918
advance
alone tidy 0000000000000059
begin 2 tidy 000000000000020c
begin 3 tidy 0000000000000296
finish 2920
begin 1 tidy 00000000000000e7
feed 627 1
begin 2 tidy 0000000000000076
begin 1 tidy 000000000000009d
begin 3 tidy 0000000000000215
begin 1 tidy 000000000000026d
finish 2923
finish 2921
begin 1 tidy 0000000000000204
begin 1 tidy 000000000000012a
finish 2928
begin 3 tidy 0000000000000026
step 2925
finish 2924
begin 2 tidy 0000000000000248
finish 2926
begin 1 tidy 000000000000020a
step 2930
advance
step 2925
step 2930
finish 2922
finish 2929
step 2931
begin 1 tidy 0000000000000173
step 2932
step 2931
finish 2930
begin 1 tidy 00000000000001c2
begin 3 tidy 0000000000000000
step 2925
step 2932
finish 2933
step 2927
finish 2931
begin 1 tidy 00000000000000d2
step 2925
step 2925
step 2925
step 2925
step 2925
step 2925
step 2925
finish 2927
step 2934
begin 1 tidy 00000000000000e5
begin 3 tidy 00000000000001a0
finish 2935
step 2932
begin 2 tidy 0000000000000171
begin 3 tidy 00000000000000ab
finish 2936
finish 2938
step 2932
step 2932
step 2932
step 2932
step 2932
begin 3 tidy 00000000000000c9
step 2934
step 2940
finish 2934
begin 2 tidy 0000000000000293
finish 2940
begin 1 tidy 0000000000000052
advance
begin 1 tidy 000000000000003c
begin 1 tidy 00000000000000c2
step 2944
finish 2941
finish 2943
collect
finish 2944
begin 3 tidy 00000000000000dd
finish 2945
collect
finish 2939
begin 1 tidy 00000000000001b0
finish 2937
finish 2946
feed 520 3
begin 2 tidy 0000000000000098
step 2947
finish 2942
begin 3 tidy 0000000000000290
begin 3 tidy 00000000000000ba
step 2947
begin 2 tidy 000000000000013b
finish 2947
advance
feed 1328 3
begin 2 tidy 000000000000024d
step 2951
finish 2948
finish 2951
begin 2 tidy 00000000000001c4
begin 1 tidy 0000000000000081
finish 2950
begin 1 tidy 0000000000000152
begin 1 tidy 00000000000001d4
step 2952
begin 1 tidy 000000000000019e
finish 2956
feed 28 3
finish 2955
begin 2 put 00000000000000ec 0=364e0807
begin 2 tidy 00000000000000ee
finish 2958
finish 2953
step 2952
finish 2949
step 2954
begin 3 tidy 0000000000000143
finish 2959
begin 2 tidy 0000000000000053
step 2960
begin 3 tidy 0000000000000043
finish 2957
begin 1 tidy 0000000000000282
finish 2952
begin 2 tidy 0000000000000190
step 2960
begin 3 tidy 00000000000002bb
step 2963
finish 2960
finish 2954
begin 3 tidy 0000000000000027
begin 2 tidy 00000000000001c6
finish 2961
begin 1 tidy 000000000000026e
finish 2963
begin 3 tidy 00000000000002a2
finish 2966
step 2964
begin 2 tidy 00000000000001bd
finish 2968
finish 2967
finish 2965
finish 2969
begin 2 tidy 00000000000000b0
begin 1 tidy 0000000000000046
begin 3 tidy 000000000000010a
feed 1405 1
advance
step 2971
step 2970
finish 2972
begin 3 tidy 000000000000018a
finish 2971
begin 1 remove 000000000000006c
step 2974
advance
finish 2970
finish 2962
begin 3 tidy 0000000000000211
finish 2973
begin 3 tidy 0000000000000176
finish 2974
finish 2964
step 2976
begin 2 tidy 000000000000016e
finish 2975
begin 1 tidy 0000000000000189
finish 2978
finish 2977
finish 2976
begin 3 tidy 000000000000000f
step 2979
finish 2979
begin 3 tidy 0000000000000181
begin 3 tidy 00000000000000de
step 2980
step 2981
finish 2981
begin 3 tidy 000000000000015f
begin 3 tidy 0000000000000119
finish 2983
begin 1 tidy 000000000000022a
begin 2 tidy 0000000000000208
step 2985
step 2982
step 2980
finish 2982
begin 1 tidy 000000000000023d
finish 2980
step 2984
step 2985
advance
begin 2 tidy 000000000000017e
begin 3 tidy 0000000000000153
finish 2984
begin 2 tidy 0000000000000164
finish 2989
finish 2987
step 2986
begin 1 tidy 0000000000000249
feed 1092 10
finish 2988
finish 2986
begin 3 tidy 000000000000015b
step 2990
begin 3 tidy 000000000000005d
begin 2 range 0000000000000145 1 all
begin 3 tidy 000000000000017d
step 2993
step 2993
finish 2991
step 2990
begin 2 tidy 0000000000000037
finish 2992
finish 2995
step 2990
begin 3 tidy 0000000000000002
begin 3 tidy 000000000000002a
step 2985
finish 2994
begin 1 tidy 000000000000004f
finish 2985
begin 3 tidy 00000000000001e5
finish 2993
begin 1 tidy 00000000000000e4
step 2998
step 2997
finish 2998
begin 2 tidy 00000000000002ab
finish 3000
feed 839 3
begin 1 tidy 0000000000000165
finish 2996
finish 2997
finish 3002
finish 2990
begin 2 tidy 00000000000000bf
begin 3 tidy 0000000000000147
finish 3004
begin 3 tidy 00000000000000cc
finish 3003
step 3001
step 3001
collect
finish 3005
collect
collect
finish 2999
step 3001
step 3001
step 3001
step 3001
step 3001
step 3001
step 3001
step 3001
step 3001
step 3001
step 3001
step 3001
step 3001
begin 1 tidy 00000000000001e1
step 3006
step 3006
advance
begin 2 tidy 000000000000001c
begin 3 tidy 0000000000000196
begin 1 tidy 000000000000022d
advance
finish 3008
begin 3 tidy 00000000000001b7
feed 129 10
step 3010
begin 2 tidy 00000000000000eb
finish 3006
step 3007
finish 3011
finish 3009
finish 3007
finish 3010
begin 1 tidy 0000000000000230
begin 2 tidy 000000000000006c
begin 1 tidy 000000000000028a
begin 3 tidy 000000000000021e
finish 3015
finish 3012
begin 2 tidy 0000000000000097
begin 3 tidy 00000000000001cf
begin 1 tidy 00000000000000f3
feed 130 10
begin 2 tidy 00000000000000a9
finish 3018
begin 1 tidy 00000000000001b8
finish 3020
begin 3 tidy 0000000000000269
finish 3021
begin 3 tidy 0000000000000054
finish 3017
finish 3013
begin 2 tidy 00000000000001d5
advance
begin 1 tidy 00000000000001f7
step 3019
step 3019
finish 3023
collect
begin 3 tidy 0000000000000023
step 3014
step 3019
step 3019
step 3019
step 3019
step 3019
step 3019
step 3019
step 3019
step 3019
step 3019
step 3019
step 3019
begin 3 tidy 00000000000000cd
step 3026
finish 3014
begin 1 tidy 0000000000000125
feed 381 10
finish 3025
step 3027
begin 2 tidy 00000000000000b4
step 3016
finish 3022
step 3016
finish 3028
begin 3 tidy 00000000000000b7
finish 3029
finish 3016
begin 2 tidy 000000000000001b
step 3030
finish 3030
begin 1 tidy 00000000000000db
advance
feed 167 1
begin 3 tidy 00000000000001d3
step 3031
begin 3 tidy 00000000000002b3
step 3027
step 3024
finish 3031
begin 3 tidy 000000000000008e
finish 3027
begin 1 tidy 00000000000000c1
finish 3034
collect
finish 3026
begin 3 tidy 00000000000001c1
begin 2 tidy 00000000000001d1
step 3032
finish 3032
begin 1 get 0000000000000216 all
finish 3036
begin 2 tidy 000000000000029f
step 3038
step 3038
step 3038
step 3038
step 3038
step 3038
step 3024
step 3039
finish 3024
finish 3038
begin 2 tidy 0000000000000157
begin 1 tidy 0000000000000073
step 3039
finish 3035
begin 1 get 000000000000020d all
step 3041
feed 599 10
finish 3042
begin 1 tidy 0000000000000013
finish 3033
begin 3 tidy 000000000000018e
finish 3039
begin 3 tidy 0000000000000218
finish 3037
begin 3 tidy 0000000000000273
step 3040
finish 3041
begin 1 tidy 00000000000000ea
finish 3046
begin 2 tidy 0000000000000071
finish 3045
step 3040
step 3043
begin 2 tidy 0000000000000132
finish 3047
begin 1 tidy 0000000000000028
finish 3049
begin 1 tidy 0000000000000100
step 3051
step 3050
finish 3051
begin 2 remove 00000000000000f4
finish 3044
feed 438 10
step 3050
begin 3 put 000000000000014f 0=f61e60d3
finish 3052
begin 2 range 00000000000001b3 3 all
finish 3050
begin 1 tidy 0000000000000092
step 3053
finish 3054
step 3040
begin 2 tidy 00000000000001e2
finish 3040
step 3056
step 3048
advance
step 3053
begin 1 tidy 000000000000006e
finish 3056
finish 3053
finish 3043
step 3057
begin 1 tidy 0000000000000021
begin 3 tidy 00000000000001be
begin 1 tidy 00000000000000cb
finish 3057
finish 3060
begin 2 tidy 00000000000001ab
begin 3 tidy 00000000000000b1
step 3048
finish 3061
step 3048
step 3048
step 3048
step 3048
step 3048
step 3048
step 3048
step 3048
step 3048
step 3048
step 3048
step 3062
step 3059
finish 3058
begin 3 tidy 00000000000001fa
begin 2 tidy 000000000000010c
finish 3059
finish 3064
begin 2 tidy 0000000000000274
begin 3 tidy 00000000000000bd
collect
step 3055
begin 3 tidy 0000000000000227
finish 3063
begin 1 tidy 00000000000000c5
step 3067
step 3066
finish 3068
step 3062
step 3067
finish 3066
begin 2 tidy 0000000000000114
begin 3 tidy 0000000000000220
step 3055
step 3062
step 3062
step 3062
step 3062
step 3062
step 3062
step 3062
step 3062
step 3062
step 3062
step 3062
step 3062
step 3069
finish 3069
finish 3065
begin 3 tidy 0000000000000159
finish 3071
begin 3 tidy 000000000000007b
finish 3070
begin 2 tidy 000000000000018b
begin 3 tidy 000000000000016a
begin 3 tidy 00000000000001c9
step 3072
step 3055
step 3055
step 3055
step 3055
step 3055
step 3055
step 3055
step 3055
step 3055
step 3055
step 3055
step 3055
begin 3 tidy 00000000000002b2
finish 3072
step 3073
finish 3067
begin 1 tidy 000000000000020e
begin 3 tidy 0000000000000130
step 3075
finish 3078
begin 1 tidy 00000000000001ff
step 3075
finish 3073
step 3077
step 3075
step 3074
finish 3074
step 3079
step 3076
feed 1111 1
begin 1 tidy 0000000000000221
begin 2 tidy 000000000000005c
step 3080
step 3079
step 3076
finish 3075
begin 2 tidy 00000000000002a3
finish 3081
begin 3 put 00000000000002ba 0=68
finish 3079
begin 3 tidy 00000000000000f8
finish 3076
finish 3082
begin 3 tidy 000000000000014d
begin 1 tidy 0000000000000133
step 3083
step 3080
finish 3080
finish 3086
finish 3083
finish 3084
finish 3077
finish 3085
begin 2 tidy 0000000000000063
step 3087
step 3087
begin 1 tidy 00000000000000a2
finish 3087
finish 3088
alone tidy 0000000000000138
advance
alone tidy 00000000000000d9
begin 1 tidy 00000000000002a5
begin 3 tidy 0000000000000214
finish 3092
begin 3 remove 0000000000000111
begin 1 tidy 000000000000008c
step 3091
begin 2 tidy 0000000000000005
begin 2 tidy 00000000000001f5
begin 2 tidy 00000000000002a0
finish 3096
step 3093
collect
step 3091
step 3094
finish 3095
begin 2 tidy 000000000000010f
step 3094
finish 3097
finish 3093
begin 2 tidy 0000000000000198
begin 1 tidy 00000000000000fc
begin 3 tidy 0000000000000104
step 3100
finish 3091
collect
begin 1 tidy 000000000000029b
finish 3094
begin 2 tidy 000000000000008d
finish 3101
begin 1 tidy 0000000000000074
step 3104
finish 3103
begin 2 tidy 0000000000000217
advance
step 3105
feed 288 10
advance
finish 3098
begin 1 tidy 0000000000000257
step 3106
step 3100
finish 3102
feed 653 3
begin 2 tidy 0000000000000083
finish 3099
begin 1 tidy 000000000000019b
finish 3100
step 3108
begin 1 tidy 00000000000000c6
step 3107
finish 3104
begin 1 tidy 000000000000017f
finish 3110
begin 1 tidy 00000000000001d8
finish 3109
begin 2 tidy 000000000000009f
finish 3108
step 3111
begin 3 tidy 0000000000000172
step 3111
step 3111
step 3113
finish 3106
begin 2 tidy 00000000000000fa
step 3105
step 3111
step 3111
step 3111
step 3111
feed 1302 10
begin 1 tidy 0000000000000177
step 3107
step 3115
step 3114
finish 3105
begin 3 tidy 00000000000001b2
step 3115
finish 3113
finish 3115
begin 3 tidy 00000000000001de
step 3107
step 3107
step 3107
step 3107
step 3107
step 3107
step 3107
step 3107
step 3107
step 3107
step 3107
step 3107
begin 1 tidy 00000000000002ac
begin 1 tidy 0000000000000141
finish 3114
finish 3118
finish 3112
advance
begin 3 tidy 00000000000001a4
begin 2 tidy 0000000000000066
finish 3116
begin 1 tidy 0000000000000126
begin 3 tidy 0000000000000199
step 3123
step 3120
finish 3123
finish 3122
begin 2 tidy 0000000000000098
finish 3124
begin 3 tidy 000000000000028c
begin 1 tidy 00000000000001c8
finish 3119
begin 3 tidy 0000000000000250
finish 3125
begin 3 tidy 00000000000002b5
finish 3127
begin 2 tidy 00000000000001f9
finish 3128
begin 1 tidy 0000000000000264
finish 3126
finish 3117
step 3121
finish 3130
finish 3121
finish 3120
begin 1 tidy 00000000000002a7
begin 1 tidy 0000000000000272
finish 3132
step 3129
begin 1 tidy 000000000000011c
begin 2 tidy 0000000000000271
step 3133
begin 1 get 0000000000000178 all
begin 2 tidy 00000000000000f6
step 3131
finish 3136
begin 1 tidy 0000000000000102
step 3137
finish 3133
finish 3129
finish 3137
step 3134
begin 1 tidy 000000000000000c
finish 3138
begin 3 tidy 0000000000000144
finish 3139
begin 1 tidy 0000000000000261
collect
step 3140
begin 2 tidy 00000000000000dc
begin 3 tidy 0000000000000203
step 3134
step 3135
step 3135
step 3135
finish 3142
begin 2 tidy 000000000000011e
finish 3140
begin 3 tidy 000000000000024f
step 3134
step 3135
step 3135
step 3135
step 3135
step 3135
finish 3134
finish 3141
step 3143
step 3135
feed 232 10
begin 3 tidy 0000000000000107
step 3143
step 3143
step 3143
step 3143
step 3143
step 3143
step 3143
step 3143
step 3143
step 3143
step 3143
step 3143
step 3143
step 3143
step 3143
step 3143
step 3145
begin 3 tidy 00000000000000e2
feed 383 1
finish 3144
finish 3146
begin 1 tidy 00000000000001ef
finish 3147
advance
feed 683 3
collect
begin 1 tidy 00000000000002ba
begin 3 put 000000000000003d 0=0bbb51
begin 2 remove 0000000000000262
step 3150
finish 3131
finish 3150
begin 3 tidy 00000000000000fd
step 3149
begin 2 tidy 0000000000000213
finish 3145
collect
begin 3 tidy 0000000000000288
begin 3 tidy 0000000000000185
finish 3148
begin 1 tidy 000000000000022c
step 3149
finish 3155
begin 1 tidy 00000000000000fe
step 3153
finish 3149
step 3153
finish 3156
feed 433 10
finish 3151
finish 3154
begin 1 tidy 0000000000000110
finish 3152
begin 3 put 0000000000000112 0=-
advance
begin 1 tidy 0000000000000209
begin 1 tidy 000000000000014a
finish 3158
begin 2 remove 00000000000001c8
finish 3161
step 3157
advance
finish 3157
finish 3153
begin 3 put 000000000000010a 0=fdb6
feed 860 1
begin 1 tidy 000000000000006b
begin 3 tidy 0000000000000068
begin 1 tidy 0000000000000235
step 3162
finish 3160
begin 1 tidy 0000000000000200
finish 3163
begin 2 tidy 0000000000000086
finish 3159
step 3165
step 3162
finish 3165
begin 2 tidy 00000000000000df
begin 1 tidy 0000000000000058
step 3168
step 3166
step 3162
step 3168
step 3168
step 3168
step 3168
step 3168
step 3168
step 3168
step 3168
step 3168
step 3168
step 3168
step 3168
step 3168
step 3168
begin 1 tidy 00000000000000b5
step 3167
step 3162
step 3162
step 3162
step 3162
step 3162
step 3162
step 3162
step 3162
step 3162
step 3162
step 3162
step 3162
step 3162
step 3162
step 3162
step 3162
step 3162
step 3164
step 3169
step 3162
step 3166
feed 226 3
step 3166
step 3162
begin 2 tidy 00000000000000cf
finish 3170
begin 1 tidy 0000000000000174
finish 3166
advance
finish 3171
begin 2 tidy 0000000000000231
begin 1 tidy 0000000000000128
finish 3174
begin 2 tidy 000000000000005f
finish 3164
step 3172
finish 3169
begin 3 tidy 00000000000001cb
finish 3175
begin 1 tidy 0000000000000265
begin 3 tidy 000000000000021c
finish 3167
begin 1 tidy 0000000000000154
step 3179
step 3176
step 3177
finish 3178
begin 1 tidy 00000000000001e0
finish 3176
finish 3180
finish 3173
begin 2 tidy 0000000000000180
step 3179
begin 1 tidy 000000000000018f
finish 3181
finish 3177
step 3182
finish 3182
begin 1 tidy 00000000000002ad
begin 3 tidy 0000000000000277
step 3183
step 3179
finish 3179
begin 2 tidy 0000000000000239
finish 3184
finish 3183
begin 1 tidy 00000000000000d5
begin 2 tidy 0000000000000008
feed 1064 3
finish 3186
begin 3 tidy 0000000000000182
begin 3 tidy 00000000000002af
begin 3 tidy 00000000000000a7
finish 3189
feed 645 10
step 3185
begin 3 tidy 00000000000000ac
finish 3190
collect
feed 1350 10
begin 1 tidy 000000000000001a
step 3192
step 3172
finish 3191
feed 303 3
begin 3 tidy 00000000000001a6
finish 3193
finish 3192
step 3188
step 3172
finish 3172
begin 3 tidy 0000000000000207
finish 3187
step 3188
begin 3 tidy 0000000000000161
begin 3 tidy 000000000000002c
begin 3 tidy 0000000000000111
finish 3188
finish 3185
finish 3197
begin 2 tidy 0000000000000236
finish 3194
step 3195
finish 3195
begin 3 tidy 00000000000001f1
begin 3 tidy 000000000000023a
step 3200
finish 3198
step 3200
finish 3200
finish 3199
step 3196
finish 3196
alone tidy 000000000000008f
begin 2 tidy 0000000000000228
begin 2 tidy 0000000000000014
begin 3 tidy 00000000000000c3
finish 3204
finish 3202
begin 3 tidy 0000000000000032
begin 2 tidy 000000000000029e
begin 2 tidy 0000000000000253
begin 3 tidy 0000000000000099
begin 2 tidy 000000000000017a
finish 3207
begin 2 tidy 0000000000000106
step 3208
finish 3206
finish 3209
begin 2 tidy 0000000000000060
begin 1 tidy 00000000000000d6
feed 990 3
step 3208
step 3203
step 3210
step 3210
finish 3203
begin 1 tidy 0000000000000124
step 3213
advance
finish 3210
begin 2 tidy 0000000000000055
step 3208
step 3208
step 3208
step 3208
step 3208
step 3208
step 3208
step 3208
step 3208
step 3208
step 3208
step 3208
feed 377 3
begin 3 tidy 0000000000000234
finish 3215
begin 3 tidy 00000000000001ae
step 3214
step 3213
finish 3211
begin 2 tidy 00000000000000e6
finish 3216
finish 3213
begin 2 tidy 000000000000023b
begin 3 tidy 000000000000003f
advance
step 3214
finish 3217
step 3205
collect
begin 2 tidy 000000000000011b
finish 3214
begin 2 tidy 00000000000000ff
finish 3221
finish 3205
collect
finish 3218
begin 2 tidy 0000000000000258
step 3220
begin 1 tidy 00000000000001ee
finish 3222
begin 1 tidy 000000000000003a
begin 2 tidy 00000000000001c3
step 3212
step 3212
finish 3224
begin 1 tidy 00000000000000f2
feed 942 3
step 3219
step 3226
finish 3226
step 3219
advance
finish 3212
begin 2 tidy 0000000000000193
finish 3220
step 3223
step 3223
finish 3227
finish 3219
feed 92 1
finish 3223
step 3225
collect
finish 3225
begin 1 tidy 000000000000025c
begin 2 tidy 0000000000000078
finish 3228
finish 3229
advance
begin 3 tidy 00000000000001dc
begin 3 tidy 000000000000009a
begin 3 tidy 0000000000000137
finish 3230
begin 1 tidy 0000000000000057
begin 3 tidy 0000000000000178
step 3232
finish 3232
step 3233
begin 1 tidy 00000000000001d9
finish 3234
step 3231
finish 3231
step 3233
finish 3235
finish 3233
begin 1 tidy 00000000000001ad
begin 1 tidy 00000000000001a2
finish 3236
finish 3237
advance
advance
alone tidy 000000000000013e
begin 3 tidy 0000000000000051
begin 3 tidy 000000000000002d
finish 3240
step 3239
begin 2 tidy 00000000000000ec
finish 3239
begin 2 tidy 0000000000000003
finish 3242
begin 3 tidy 000000000000027c
begin 2 tidy 00000000000000e0
begin 1 tidy 00000000000002b1
finish 3244
finish 3241
step 3243
begin 1 tidy 0000000000000287
begin 2 tidy 00000000000001f6
finish 3247
step 3243
begin 3 tidy 0000000000000067
begin 2 tidy 00000000000002bb
begin 3 tidy 0000000000000123
step 3248
step 3245
step 3246
feed 1352 10
step 3250
finish 3249
finish 3245
begin 3 tidy 000000000000028b
step 3243
step 3243
step 3243
step 3243
step 3243
step 3243
step 3243
step 3243
step 3243
step 3243
step 3243
step 3243
begin 2 tidy 00000000000001ce
advance
begin 2 tidy 0000000000000175
finish 3246
begin 3 tidy 00000000000000fb
finish 3248
begin 3 tidy 00000000000002b4
finish 3253
begin 2 tidy 0000000000000041
finish 3256
begin 3 tidy 0000000000000004
step 3251
finish 3250
begin 2 tidy 00000000000001a8
step 3252
step 3252
step 3255
step 3254
finish 3254
finish 3255
step 3258
step 3257
feed 1097 1
begin 1 tidy 0000000000000283
advance
begin 1 tidy 0000000000000276
step 3257
step 3252
finish 3252
begin 2 tidy 00000000000002a6
step 3261
finish 3257
finish 3251
begin 3 tidy 00000000000000bc
begin 2 tidy 0000000000000256
finish 3262
begin 1 tidy 0000000000000246
step 3259
step 3258
step 3264
finish 3258
step 3259
step 3264
finish 3261
finish 3259
begin 2 tidy 0000000000000186
begin 3 tidy 0000000000000108
step 3263
begin 2 tidy 0000000000000036
step 3267
finish 3265
finish 3267
finish 3260
begin 1 tidy 00000000000002b0
begin 1 tidy 000000000000020f
step 3268
begin 2 tidy 000000000000015d
step 3263
step 3270
finish 3269
finish 3270
begin 2 tidy 0000000000000169
advance
advance
begin 1 tidy 0000000000000061
finish 3266
collect
begin 1 tidy 00000000000001f3
finish 3263
feed 928 10
finish 3273
step 3271
step 3268
begin 1 get 0000000000000125 all
collect
finish 3264
step 3268
begin 1 tidy 00000000000000a6
finish 3272
step 3271
begin 1 tidy 000000000000009e
step 3276
finish 3268
begin 2 tidy 0000000000000105
begin 2 tidy 0000000000000015
step 3277
finish 3277
begin 3 tidy 0000000000000115
step 3275
advance
finish 3274
finish 3271
finish 3278
begin 3 tidy 0000000000000225
begin 1 tidy 0000000000000194
begin 3 get 0000000000000228 all
step 3279
finish 3282
begin 3 tidy 000000000000016b
finish 3280
finish 3283
finish 3275
begin 3 tidy 0000000000000056
finish 3281
begin 1 tidy 0000000000000243
begin 2 tidy 00000000000001b3
step 3279
finish 3286
finish 3284
step 3285
step 3279
step 3279
step 3279
step 3279
step 3279
step 3279
step 3279
step 3279
step 3279
step 3279
step 3279
step 3279
step 3279
step 3279
step 3279
step 3279
step 3279
begin 3 tidy 000000000000012f
finish 3285
step 3276
step 3287
feed 374 1
finish 3287
finish 3276
begin 3 tidy 000000000000014e
begin 1 tidy 000000000000024c
step 3289
advance
finish 3288
begin 3 tidy 000000000000011d
begin 3 tidy 000000000000026b
finish 3290
begin 2 tidy 000000000000001f
finish 3292
step 3289
begin 1 tidy 000000000000021d
finish 3291
begin 2 tidy 000000000000005e
begin 2 tidy 0000000000000160
begin 3 tidy 000000000000019a
finish 3293
finish 3289
begin 3 tidy 0000000000000009
step 3295
begin 2 tidy 000000000000029a
begin 2 tidy 000000000000021b
finish 3299
begin 3 tidy 00000000000001a5
finish 3295
begin 3 tidy 0000000000000163
feed 50 1
advance
feed 384 3
finish 3296
finish 3301
advance
begin 3 tidy 0000000000000188
finish 3300
begin 1 tidy 00000000000000bb
step 3302
begin 3 tidy 00000000000002a1
step 3294
feed 594 3
finish 3298
step 3302
collect
begin 2 tidy 00000000000001e8
finish 3294
finish 3297
finish 3305
finish 3302
step 3303
begin 1 tidy 0000000000000116
begin 3 tidy 000000000000028d
begin 3 tidy 0000000000000030
finish 3306
step 3308
finish 3307
begin 1 tidy 00000000000001e6
begin 2 tidy 00000000000001a3
begin 2 tidy 0000000000000263
finish 3310
step 3309
begin 2 tidy 00000000000001f0
finish 3312
begin 1 tidy 00000000000002b7
step 3309
finish 3309
begin 3 tidy 00000000000000f0
finish 3303
advance
step 3314
finish 3313
step 3308
begin 3 tidy 0000000000000291
collect
begin 2 tidy 0000000000000022
finish 3316
finish 3308
finish 3314
begin 2 tidy 00000000000000d1
begin 1 tidy 0000000000000252
begin 2 tidy 0000000000000285
finish 3319
begin 2 tidy 000000000000028e
step 3318
finish 3315
begin 2 tidy 00000000000000c7
finish 3321
begin 3 tidy 0000000000000170
finish 3318
step 3322
begin 3 tidy 000000000000020d
step 3320
finish 3317
step 3304
step 3322
step 3311
begin 3 tidy 00000000000001bc
finish 3304
begin 1 tidy 0000000000000034
finish 3311
begin 1 tidy 0000000000000238
step 3325
step 3323
finish 3324
finish 3323
begin 1 tidy 0000000000000210
feed 823 1
feed 281 10
begin 1 tidy 00000000000000ad
step 3328
step 3320
finish 3320
finish 3327
begin 3 tidy 00000000000000d4
begin 3 put 00000000000001ff 0=a9
step 3322
finish 3329
begin 1 tidy 00000000000000d0
finish 3325
begin 1 tidy 00000000000002a4
finish 3330
begin 3 tidy 0000000000000233
step 3326
finish 3322
finish 3332
begin 2 tidy 0000000000000267
advance
begin 3 tidy 000000000000007d
step 3334
finish 3326
begin 2 tidy 00000000000001bb
finish 3331
step 3336
begin 2 tidy 00000000000001bf
step 3337
finish 3335
finish 3328
finish 3334
begin 2 tidy 00000000000000c0
finish 3338
finish 3333
begin 3 tidy 0000000000000223
step 3336
begin 1 get 000000000000024e all
finish 3337
step 3340
finish 3336
step 3340
feed 577 3
finish 3340
begin 3 tidy 00000000000000f1
begin 1 tidy 0000000000000082
begin 3 tidy 000000000000007f
begin 1 tidy 000000000000002f
finish 3342
begin 3 tidy 000000000000026c
begin 2 tidy 0000000000000220
step 3346
finish 3345
finish 3339
begin 2 tidy 000000000000027f
finish 3343
begin 1 tidy 000000000000012c
begin 1 tidy 000000000000016c
step 3347
step 3349
finish 3349
finish 3346
finish 3344
finish 3348
finish 3341
finish 3347
alone tidy 00000000000000da
begin 1 tidy 000000000000022e
step 3351
finish 3351
begin 2 tidy 00000000000000e1
begin 3 tidy 0000000000000259
advance
begin 3 tidy 0000000000000184
step 3353
begin 2 put 000000000000007a 0=04f7
begin 1 tidy 00000000000001cd
begin 3 tidy 000000000000004d
step 3352
finish 3353
begin 2 tidy 00000000000001ed
step 3352
finish 3354
begin 1 tidy 0000000000000060
collect
step 3356
step 3356
finish 3355
step 3357
finish 3356
finish 3359
finish 3352
finish 3358
step 3357
begin 3 tidy 0000000000000298
begin 1 tidy 0000000000000085
advance
begin 1 tidy 0000000000000089
begin 3 tidy 00000000000000f9
begin 1 tidy 000000000000029c
finish 3357
step 3361
begin 2 tidy 0000000000000044
step 3362
finish 3363
finish 3362
finish 3360
collect
begin 2 tidy 000000000000008a
finish 3361
finish 3365
step 3364
step 3364
advance
begin 2 tidy 0000000000000018
finish 3364
begin 1 range 000000000000012e 10 all
step 3367
step 3366
begin 1 tidy 000000000000002b
begin 2 tidy 00000000000002b8
finish 3367
begin 3 tidy 00000000000001ec
begin 2 tidy 00000000000001d0
finish 3372
finish 3370
begin 2 tidy 00000000000000aa
begin 1 tidy 0000000000000029
finish 3368
step 3366
finish 3369
begin 1 tidy 00000000000000c4
begin 2 tidy 0000000000000212
step 3375
finish 3366
step 3376
feed 806 10
step 3373
begin 2 tidy 00000000000001f8
step 3375
finish 3373
begin 2 tidy 0000000000000122
step 3374
finish 3374
finish 3378
begin 1 tidy 000000000000025b
step 3377
finish 3371
begin 3 tidy 00000000000001b4
begin 3 range 000000000000028c 3 all
step 3379
step 3375
step 3375
step 3375
step 3375
step 3375
step 3375
step 3375
step 3375
step 3375
step 3375
step 3375
step 3375
step 3375
begin 1 tidy 000000000000019f
finish 3380
finish 3381
finish 3377
begin 3 tidy 0000000000000019
finish 3382
begin 2 tidy 000000000000024b
finish 3379
step 3383
finish 3383
begin 3 tidy 0000000000000270
collect
begin 3 tidy 00000000000001da
begin 3 tidy 00000000000000b3
step 3385
begin 2 tidy 000000000000022b
step 3387
step 3387
finish 3386
begin 3 tidy 00000000000000e3
finish 3376
step 3384
advance
finish 3384
finish 3387
step 3385
finish 3388
finish 3389
finish 3385
alone tidy 00000000000000e9
alone tidy 0000000000000049
alone tidy 00000000000000d7
begin 2 tidy 000000000000005a
begin 2 tidy 00000000000001b9
finish 3393
step 3394
begin 1 tidy 0000000000000148
begin 2 tidy 0000000000000155
begin 2 tidy 0000000000000294
finish 3397
finish 3394
begin 1 tidy 00000000000001c5
finish 3398
step 3396
begin 3 tidy 0000000000000050
finish 3396
begin 3 tidy 00000000000000f5
begin 3 tidy 00000000000001ac
feed 1222 1
step 3395
begin 1 tidy 0000000000000299
begin 2 tidy 0000000000000179
step 3401
step 3395
finish 3400
begin 2 tidy 00000000000001f2
step 3399
step 3403
finish 3399
begin 2 tidy 000000000000022f
finish 3405
feed 1312 1
finish 3401
step 3402
finish 3402
finish 3403
begin 2 tidy 000000000000016d
step 3395
step 3395
step 3395
step 3395
step 3395
step 3395
step 3395
step 3395
step 3395
step 3395
step 3395
step 3395
step 3395
step 3395
step 3395
step 3395
step 3395
step 3395
begin 1 tidy 000000000000000d
begin 1 tidy 0000000000000096
begin 2 tidy 0000000000000077
feed 445 3
finish 3407
feed 1152 3
finish 3409
finish 3406
step 3404
begin 3 tidy 0000000000000038
finish 3404
step 3410
finish 3408
step 3410
begin 2 tidy 000000000000001e
begin 3 tidy 0000000000000131
step 3412
begin 3 tidy 0000000000000151
finish 3412
step 3411
finish 3413
step 3410
step 3410
step 3410
step 3410
step 3410
step 3410
finish 3411
begin 1 tidy 0000000000000088
finish 3414
begin 1 tidy 00000000000001a9
begin 3 range 0000000000000240 1000 all
begin 3 tidy 0000000000000095
step 3415
begin 3 tidy 00000000000002a8
step 3417
finish 3415
begin 3 tidy 0000000000000192
begin 1 tidy 000000000000026a
begin 2 tidy 0000000000000244
finish 3421
finish 3417
step 3420
begin 2 tidy 000000000000004b
begin 1 tidy 0000000000000167
finish 3419
begin 2 tidy 000000000000000b
step 3422
step 3420
step 3423
step 3422
finish 3422
begin 2 tidy 000000000000028f
finish 3420
begin 3 tidy 00000000000001d6
step 3424
step 3424
step 3426
finish 3423
finish 3426
begin 2 tidy 000000000000015e
finish 3425
step 3424
step 3424
step 3424
step 3424
step 3424
begin 1 tidy 000000000000019c
begin 2 tidy 00000000000001fe
finish 3416
begin 2 tidy 000000000000005b
begin 1 tidy 000000000000023c
finish 3427
begin 2 tidy 0000000000000087
step 3428
step 3430
step 3429
step 3428
finish 3432
begin 3 tidy 0000000000000240
step 3430
finish 3428
step 3433
begin 2 tidy 0000000000000201
step 3418
step 3429
step 3418
finish 3418
step 3429
step 3434
begin 1 tidy 0000000000000187
finish 3434
begin 2 tidy 0000000000000262
finish 3431
finish 3429
begin 2 tidy 0000000000000069
finish 3436
begin 2 tidy 000000000000023f
begin 1 tidy 0000000000000120
step 3430
step 3430
step 3430
step 3430
step 3430
step 3430
step 3430
step 3430
step 3430
step 3438
begin 1 tidy 000000000000016f
step 3433
finish 3435
begin 2 tidy 00000000000000af
step 3438
finish 3433
collect
begin 1 tidy 0000000000000031
step 3442
finish 3437
begin 1 tidy 000000000000010e
finish 3438
feed 375 3
begin 2 tidy 00000000000001a7
finish 3443
begin 1 tidy 0000000000000145
finish 3440
step 3439
finish 3444
begin 2 tidy 000000000000027a
finish 3441
step 3446
finish 3442
begin 3 tidy 00000000000001b1
finish 3446
begin 2 tidy 00000000000000ca
finish 3445
finish 3439
begin 2 tidy 0000000000000084
begin 2 tidy 00000000000000f4
step 3448
begin 1 tidy 000000000000029d
finish 3448
step 3451
finish 3450
begin 1 tidy 00000000000001f4
begin 3 tidy 0000000000000079
begin 1 tidy 00000000000001fb
finish 3451
begin 3 tidy 0000000000000103
step 3455
step 3449
step 3454
finish 3453
finish 3454
finish 3455
finish 3449
step 3447
begin 3 tidy 0000000000000040
feed 267 1
finish 3452
begin 2 tidy 0000000000000020
finish 3456
begin 2 tidy 0000000000000278
begin 3 tidy 0000000000000047
begin 1 tidy 00000000000001ba
begin 3 tidy 00000000000000b2
finish 3459
begin 2 tidy 0000000000000072
finish 3462
finish 3460
step 3457
begin 1 tidy 000000000000006d
begin 3 tidy 00000000000001ea
collect
finish 3464
step 3457
begin 1 tidy 0000000000000012
finish 3447
finish 3461
step 3457
step 3457
step 3457
step 3457
step 3457
step 3457
begin 3 tidy 00000000000002b6
begin 1 tidy 00000000000001d2
step 3467
begin 3 tidy 0000000000000134
finish 3465
finish 3458
finish 3467
finish 3466
step 3468
begin 2 tidy 000000000000021a
step 3468
finish 3468
step 3469
begin 1 tidy 000000000000027e
step 3469
feed 309 10
finish 3470
collect
finish 3463
step 3469
begin 1 tidy 0000000000000139
begin 2 tidy 0000000000000149
begin 2 tidy 000000000000018c
begin 2 tidy 000000000000023e
begin 3 tidy 0000000000000245
finish 3469
begin 3 tidy 000000000000013c
finish 3476
begin 2 tidy 000000000000013a
finish 3475
begin 3 tidy 0000000000000136
finish 3478
finish 3473
finish 3474
step 3471
begin 3 tidy 0000000000000202
step 3471
finish 3479
begin 2 tidy 00000000000001df
begin 3 tidy 000000000000007e
begin 1 tidy 0000000000000033
finish 3471
begin 2 put 0000000000000216 0=a7d5af35
step 3482
finish 3480
step 3481
feed 1228 3
begin 1 tidy 0000000000000024
step 3481
finish 3482
feed 505 10
step 3472
begin 2 tidy 00000000000000b9
step 3483
step 3472
finish 3477
collect
advance
begin 3 tidy 00000000000001e7
finish 3484
begin 2 tidy 000000000000025f
finish 3487
finish 3472
begin 3 range 00000000000001cc 1 all
begin 2 tidy 000000000000003b
finish 3485
begin 1 tidy 0000000000000146
finish 3489
finish 3488
finish 3490
begin 3 tidy 000000000000012d
begin 3 tidy 000000000000002e
begin 2 tidy 000000000000007a
finish 3483
finish 3481
finish 3486
finish 3492
begin 2 tidy 000000000000014c
finish 3493
begin 1 tidy 0000000000000197
begin 1 tidy 0000000000000280
finish 3495
begin 2 tidy 0000000000000135
finish 3497
finish 3494
begin 1 tidy 000000000000006a
finish 3496
begin 1 tidy 00000000000001e3
finish 3491
finish 3498
advance
finish 3499
begin 1 tidy 00000000000000a4
begin 1 tidy 0000000000000093
step 3500
feed 833 10
finish 3501
step 3500
step 3500
step 3500
step 3500
step 3500
step 3500
step 3500
step 3500
step 3500
step 3500
step 3500
step 3500
step 3500
step 3500
begin 2 tidy 0000000000000048
finish 3502
alone tidy 0000000000000255
alone tidy 0000000000000232
alone tidy 0000000000000268
begin 2 range 000000000000019f 10 all
step 3506
step 3506
step 3506
step 3506
collect
step 3506
begin 1 tidy 0000000000000112
finish 3507
begin 3 tidy 0000000000000001
step 3506
step 3506
step 3506
step 3506
begin 2 tidy 000000000000012b
finish 3509
step 3508
begin 3 tidy 00000000000001a1
finish 3508
begin 2 tidy 0000000000000150
step 3506
finish 3511
begin 2 tidy 0000000000000166
begin 2 tidy 00000000000001c7
finish 3510
begin 3 get 0000000000000226 all
feed 801 1
begin 1 tidy 00000000000000f7
begin 3 tidy 0000000000000117
finish 3516
begin 2 tidy 00000000000001b6
step 3515
finish 3506
finish 3515
begin 2 tidy 00000000000000d8
advance
begin 3 tidy 0000000000000025
step 3514
step 3514
step 3514
step 3514
finish 3517
finish 3512
finish 3519
begin 3 tidy 000000000000003d
begin 2 tidy 000000000000011f
begin 1 tidy 000000000000012e
collect
step 3520
feed 1161 10
collect
feed 1318 10
finish 3520
begin 2 tidy 00000000000001b5
finish 3518
step 3522
begin 3 tidy 0000000000000007
step 3514
finish 3514
begin 2 tidy 000000000000021f
finish 3522
finish 3524
begin 2 tidy 00000000000000ed
begin 3 tidy 00000000000001ca
step 3526
finish 3527
step 3513
step 3526
step 3513
finish 3513
begin 1 tidy 00000000000001db
finish 3528
begin 2 tidy 00000000000000d3
finish 3521
begin 2 tidy 000000000000010d
begin 3 tidy 000000000000025a
finish 3523
begin 3 tidy 0000000000000279
finish 3532
finish 3526
finish 3531
step 3530
step 3529
begin 3 put 00000000000000c3 0=5fbbb3
begin 1 tidy 000000000000027b
begin 3 tidy 000000000000004e
finish 3533
begin 3 tidy 000000000000013d
feed 24 10
step 3534
step 3535
step 3529
advance
step 3529
step 3529
step 3529
step 3529
step 3529
step 3529
step 3529
step 3529
step 3529
step 3529
step 3529
step 3529
step 3529
step 3529
step 3529
begin 3 tidy 00000000000001dd
step 3535
finish 3537
advance
begin 2 put 0000000000000140 0=35f665
step 3530
finish 3534
begin 2 tidy 0000000000000017
step 3535
step 3535
step 3535
step 3535
step 3535
step 3535
step 3535
step 3536
begin 2 tidy 00000000000002a9
step 3525
collect
step 3539
step 3538
finish 3540
collect
begin 3 tidy 0000000000000042
finish 3541
finish 3530
begin 2 tidy 0000000000000251
finish 3542
begin 1 tidy 00000000000000c8
begin 1 tidy 0000000000000266
step 3539
finish 3544
feed 1257 10
finish 3536
advance
begin 2 tidy 0000000000000183
finish 3539
finish 3543
step 3545
feed 183 3
begin 1 tidy 0000000000000129
begin 3 tidy 00000000000000a5
begin 1 tidy 0000000000000237
finish 3545
begin 3 tidy 00000000000002ae
step 3546
finish 3525
finish 3547
finish 3549
begin 2 tidy 000000000000015c
begin 2 tidy 0000000000000127
finish 3546
feed 1092 3
step 3550
begin 2 tidy 0000000000000142
begin 3 tidy 000000000000011a
step 3538
finish 3551
finish 3552
begin 2 tidy 0000000000000229
begin 1 tidy 0000000000000070
finish 3554
begin 2 tidy 0000000000000222
finish 3555
finish 3553
feed 1199 10
begin 3 tidy 0000000000000039
begin 3 tidy 000000000000010b
finish 3557
begin 1 tidy 00000000000000a8
feed 771 10
step 3538
finish 3538
step 3550
finish 3558
begin 2 tidy 00000000000001e9
begin 2 range 00000000000002af 10 all
finish 3556
begin 2 tidy 00000000000002aa
finish 3550
finish 3562
begin 3 tidy 0000000000000062
finish 3561
finish 3559
advance
step 3548
collect
finish 3563
begin 3 tidy 000000000000024e
step 3548
step 3560
begin 3 tidy 00000000000000e8
step 3560
begin 2 tidy 0000000000000168
finish 3548
begin 1 tidy 0000000000000158
begin 1 remove 000000000000024b
finish 3566
step 3564
finish 3560
begin 1 tidy 000000000000025d
step 3567
step 3569
begin 2 tidy 0000000000000109
step 3565
finish 3568
begin 2 tidy 000000000000007c
finish 3564
feed 1386 3
begin 1 tidy 0000000000000254
finish 3572
begin 2 tidy 00000000000000a0
step 3567
finish 3570
begin 1 tidy 00000000000000be
step 3574
finish 3571
step 3565
finish 3569
advance
begin 2 tidy 00000000000001fc
finish 3575
step 3567
begin 1 tidy 000000000000014f
finish 3576
begin 3 tidy 000000000000001d
begin 1 tidy 0000000000000206
finish 3567
step 3574
finish 3573
begin 3 tidy 0000000000000011
finish 3579
begin 1 tidy 0000000000000090
collect
finish 3574
begin 3 tidy 0000000000000162
finish 3580
begin 2 tidy 0000000000000064
step 3581
step 3577
finish 3578
begin 1 tidy 0000000000000295
begin 2 tidy 00000000000001fd
step 3565
step 3565
step 3565
step 3565
step 3565
step 3565
step 3565
step 3565
finish 3582
finish 3583
begin 1 tidy 0000000000000006
step 3577
finish 3581
finish 3577
begin 1 tidy 0000000000000292
begin 1 tidy 000000000000009b
begin 2 tidy 000000000000025e
begin 1 tidy 0000000000000075
step 3587
finish 3589
finish 3586
begin 1 tidy 0000000000000219
begin 1 tidy 000000000000004c
finish 3584
step 3588
begin 2 tidy 00000000000000ae
step 3587
finish 3592
finish 3591
step 3587
step 3587
step 3587
step 3587
step 3587
step 3587
step 3587
step 3587
step 3587
step 3587
step 3587
step 3587
begin 1 tidy 00000000000000a1
finish 3590
collect
begin 2 tidy 000000000000026f
finish 3585
step 3593
begin 1 tidy 0000000000000226
finish 3593
finish 3594
finish 3588
begin 3 put 0000000000000154 0=dc
step 3595
step 3595
finish 3596
finish 3595
alone tidy 000000000000013f
alone tidy 0000000000000094
begin 3 tidy 00000000000001cc
begin 2 tidy 0000000000000045
begin 1 tidy 0000000000000297
begin 2 tidy 0000000000000035
begin 2 tidy 0000000000000195
begin 3 tidy 000000000000000a
step 3599
finish 3600
finish 3602
step 3604
finish 3601
begin 3 tidy 000000000000024a
finish 3599
feed 608 10
finish 3604
finish 3605
step 3603
feed 648 1
begin 1 tidy 000000000000000e
feed 1097 3
step 3606
step 3606
begin 3 tidy 00000000000000ce
begin 1 tidy 0000000000000121
finish 3603
finish 3606
finish 3608
step 3607
begin 3 tidy 0000000000000113
step 3609
begin 1 tidy 00000000000000ef
begin 1 tidy 000000000000020b
feed 395 1
begin 3 tidy 000000000000006f
step 3612
finish 3609
finish 3607
step 3612
finish 3611
begin 2 tidy 0000000000000016
finish 3613
step 3610
begin 2 tidy 0000000000000275
finish 3612
step 3614
begin 3 tidy 000000000000027d
begin 2 tidy 000000000000004a
begin 1 tidy 000000000000017b
begin 1 tidy 0000000000000091
finish 3614
finish 3615
step 3618
begin 3 tidy 000000000000015a
begin 1 tidy 0000000000000286
finish 3616
begin 3 get 00000000000001b0 all
finish 3620
step 3619
finish 3618
begin 2 tidy 00000000000001d7
finish 3621
begin 2 tidy 0000000000000118
finish 3610
finish 3619
begin 2 tidy 00000000000000b6
begin 2 tidy 000000000000019d
begin 1 tidy 0000000000000191
finish 3625
begin 1 tidy 0000000000000260
finish 3617
begin 2 tidy 00000000000001e4
finish 3623
begin 2 tidy 00000000000001eb
advance
step 3622
finish 3627
begin 3 tidy 0000000000000224
finish 3622
begin 3 tidy 0000000000000080
finish 3628
begin 2 tidy 000000000000008b
finish 3631
finish 3632
finish 3626
begin 3 tidy 000000000000014b
begin 1 tidy 000000000000017c
finish 3633
begin 3 tidy 00000000000000b8
begin 2 tidy 000000000000018d
finish 3634
begin 2 tidy 000000000000009c
finish 3635
step 3630
step 3637
step 3630
begin 3 tidy 0000000000000242
finish 3629
finish 3630
step 3636
begin 2 tidy 0000000000000101
finish 3639
step 3624
begin 3 tidy 0000000000000281
step 3640
finish 3638
finish 3637
step 3640
finish 3636
begin 3 tidy 0000000000000241
begin 3 tidy 0000000000000205
step 3624
begin 2 tidy 0000000000000140
finish 3624
begin 3 tidy 00000000000001af
begin 2 tidy 000000000000003e
step 3643
finish 3641
begin 2 tidy 00000000000002b9
step 3644
step 3645
step 3644
step 3644
finish 3643
finish 3642
begin 2 tidy 0000000000000289
finish 3647
finish 3645
step 3640
finish 3646
begin 3 tidy 0000000000000216
begin 2 tidy 0000000000000010
begin 1 tidy 0000000000000156
begin 2 tidy 0000000000000247
step 3649
finish 3651
begin 2 tidy 0000000000000065
step 3649
step 3644
step 3644
step 3644
step 3644
step 3644
step 3644
begin 3 tidy 00000000000001c0
finish 3649
collect
step 3640
step 3640
step 3640
step 3640
step 3640
step 3640
step 3640
step 3640
step 3640
step 3640
step 3640
step 3640
step 3640
begin 2 tidy 00000000000001aa
begin 3 tidy 00000000000000a3
finish 3650
begin 2 tidy 0000000000000284
step 3655
step 3648
step 3655
step 3652
step 3654
finish 3653
step 3648
finish 3656
begin 2 tidy 0000000000000059
finish 3655
step 3657
step 3652
finish 3652
finish 3657
begin 1 tidy 000000000000020c
begin 3 tidy 0000000000000296
begin 3 tidy 00000000000000e7
begin 1 tidy 0000000000000076
step 3660
finish 3658
step 3660
step 3659
begin 2 tidy 000000000000009d
finish 3661
begin 2 tidy 0000000000000215
step 3648
finish 3660
finish 3648
finish 3663
begin 1 tidy 000000000000026d
begin 2 tidy 0000000000000204
step 3664
begin 3 tidy 000000000000012a
finish 3662
begin 2 tidy 0000000000000026
finish 3667
step 3665
collect
finish 3659
finish 3664
begin 3 tidy 0000000000000248
begin 1 tidy 000000000000020a
step 3666
finish 3654
begin 2 tidy 0000000000000173
finish 3670
finish 3669
begin 2 tidy 00000000000001c2
step 3665
begin 2 tidy 0000000000000000
begin 1 tidy 00000000000000d2
finish 3665
begin 1 tidy 00000000000000e5
finish 3672
feed 1206 10
begin 2 tidy 00000000000001a0
finish 3674
step 3675
begin 2 tidy 0000000000000171
finish 3668
finish 3676
begin 3 tidy 00000000000000ab
begin 2 tidy 00000000000000c9
step 3673
advance
step 3678
finish 3677
begin 3 tidy 0000000000000293
finish 3675
step 3673
begin 2 tidy 0000000000000052
finish 3666
begin 2 tidy 000000000000003c
step 3678
step 3671
finish 3680
finish 3679
finish 3671
begin 2 tidy 00000000000000c2
finish 3681
begin 3 tidy 00000000000000dd
begin 1 tidy 00000000000001b0
feed 340 3
begin 1 tidy 0000000000000290
step 3673
step 3673
step 3673
step 3673
step 3673
step 3673
step 3673
finish 3678
step 3683
begin 2 tidy 00000000000000ba
begin 2 tidy 000000000000013b
finish 3682
finish 3685
step 3683
begin 2 tidy 000000000000024d
finish 3686
begin 2 tidy 00000000000001c4
begin 2 tidy 0000000000000081
finish 3683
finish 3689
finish 3690
step 3688
begin 1 tidy 0000000000000152
finish 3687
begin 3 tidy 00000000000001d4
begin 2 tidy 000000000000019e
begin 3 tidy 00000000000000ee
step 3692
finish 3684
finish 3691
finish 3688
begin 2 get 0000000000000235 all
begin 1 tidy 0000000000000143
collect
begin 1 tidy 0000000000000053
finish 3693
begin 3 tidy 0000000000000043
feed 884 3
finish 3692
begin 1 tidy 0000000000000282
step 3697
finish 3694
finish 3699
begin 1 tidy 0000000000000190
begin 2 tidy 00000000000002bb
finish 3701
begin 3 tidy 0000000000000027
finish 3696
begin 1 tidy 00000000000001c6
step 3702
finish 3695
step 3700
begin 2 tidy 000000000000026e
finish 3702
begin 3 tidy 00000000000002a2
finish 3703
begin 1 tidy 00000000000001bd
finish 3698
begin 3 tidy 00000000000000b0
finish 3705
begin 1 tidy 0000000000000046
finish 3697
begin 1 tidy 000000000000010a
step 3706
step 3708
finish 3706
finish 3709
begin 1 tidy 000000000000018a
begin 3 tidy 0000000000000211
step 3711
finish 3711
step 3710
begin 1 tidy 0000000000000176
step 3710
finish 3707
begin 2 tidy 000000000000016e
finish 3704
finish 3708
step 3713
step 3700
step 3713
begin 3 tidy 0000000000000189
finish 3714
finish 3710
begin 1 tidy 000000000000000f
begin 2 tidy 0000000000000181
finish 3712
step 3715
begin 2 tidy 00000000000000de
begin 3 tidy 000000000000015f
finish 3713
step 3716
step 3717
finish 3700
feed 1350 1
begin 1 tidy 0000000000000119
step 3715
step 3716
finish 3717
begin 3 tidy 000000000000022a
begin 1 tidy 0000000000000208
step 3719
finish 3720
finish 3718
begin 3 tidy 000000000000023d
finish 3719
feed 677 1
begin 2 tidy 000000000000017e
step 3715
step 3715
step 3715
step 3715
step 3715
begin 2 tidy 0000000000000153
finish 3716
finish 3722
begin 3 tidy 0000000000000164
begin 1 tidy 0000000000000249
begin 2 tidy 000000000000015b
finish 3721
finish 3725
begin 1 tidy 000000000000005d
step 3724
finish 3728
begin 2 tidy 000000000000017d
step 3726
step 3724
step 3724
begin 2 tidy 0000000000000037
feed 520 1
finish 3726
finish 3727
finish 3729
step 3723
begin 1 tidy 0000000000000002
begin 1 tidy 000000000000002a
step 3730
begin 2 tidy 000000000000004f
finish 3732
begin 2 tidy 00000000000001e5
finish 3724
finish 3723
finish 3730
begin 2 tidy 00000000000000e4
begin 3 tidy 00000000000002ab
begin 3 tidy 0000000000000165
step 3733
step 3737
finish 3737
begin 3 tidy 00000000000000bf
step 3731
finish 3733
finish 3734
begin 3 tidy 0000000000000147
collect
finish 3731
begin 1 tidy 00000000000000cc
finish 3736
finish 3740
step 3735
begin 2 tidy 00000000000001e1
begin 3 tidy 000000000000001c
begin 1 tidy 0000000000000196
finish 3738
finish 3742
begin 2 tidy 000000000000022d
begin 1 tidy 00000000000001b7
step 3739
step 3741
finish 3735
step 3741
begin 1 tidy 00000000000000eb
finish 3744
begin 1 tidy 0000000000000230
step 3739
step 3745
step 3743
step 3747
step 3739
step 3739
step 3739
step 3739
step 3739
step 3739
step 3739
step 3739
step 3739
step 3739
step 3739
step 3739
finish 3741
finish 3743
step 3745
finish 3745
begin 1 tidy 000000000000006c
begin 2 tidy 000000000000028a
finish 3746
begin 3 tidy 000000000000021e
begin 1 tidy 0000000000000097
collect
finish 3751
begin 1 tidy 00000000000001cf
finish 3747
begin 1 tidy 00000000000000f3
advance
step 3750
begin 2 tidy 00000000000000a9
feed 419 1
finish 3752
begin 1 tidy 00000000000001b8
finish 3749
begin 2 tidy 0000000000000269
step 3755
step 3755
finish 3755
finish 3748
begin 2 range 00000000000001ec 10 all
step 3757
finish 3753
begin 3 tidy 0000000000000054
step 3758
begin 3 tidy 00000000000001d5
finish 3758
begin 3 tidy 00000000000001f7
step 3760
feed 114 3
step 3759
finish 3759
step 3754
begin 3 tidy 0000000000000023
step 3761
step 3750
step 3754
step 3757
step 3757
step 3757
step 3760
step 3761
advance
finish 3750
begin 2 put 0000000000000250 0=f6ea
step 3761
step 3761
step 3761
step 3761
step 3761
step 3761
begin 3 tidy 00000000000000cd
advance
finish 3754
finish 3757
begin 2 put 0000000000000006 0=-
begin 2 tidy 0000000000000125
finish 3760
begin 1 tidy 00000000000000b4
step 3765
step 3756
finish 3756
step 3766
finish 3762
finish 3765
feed 656 10
begin 2 tidy 00000000000000b7
begin 1 tidy 000000000000001b
begin 2 get 00000000000000d4 all
collect
finish 3768
begin 1 tidy 00000000000000db
step 3764
finish 3770
begin 3 tidy 00000000000001d3
advance
collect
step 3764
step 3767
finish 3769
finish 3763
step 3766
feed 854 10
begin 1 tidy 00000000000002b3
begin 3 tidy 000000000000008e
step 3771
step 3767
step 3766
step 3766
step 3766
step 3766
step 3766
step 3766
step 3766
step 3766
step 3766
step 3766
step 3766
step 3766
begin 3 tidy 00000000000000c1
finish 3774
collect
begin 1 tidy 00000000000001c1
step 3772
step 3773
finish 3771
begin 3 tidy 00000000000001d1
finish 3773
begin 3 tidy 000000000000029f
finish 3772
finish 3767
begin 3 tidy 0000000000000157
feed 515 3
finish 3775
finish 3764
finish 3776
finish 3777
step 3778
finish 3778
begin 2 tidy 0000000000000073
step 3779
finish 3779
alone tidy 0000000000000013
begin 2 tidy 000000000000018e
finish 3781
begin 2 tidy 0000000000000218
begin 3 tidy 0000000000000273
begin 1 tidy 00000000000000ea
finish 3782
finish 3783
begin 2 tidy 0000000000000071
begin 3 tidy 0000000000000132
begin 2 tidy 0000000000000028
begin 3 tidy 0000000000000100
step 3785
begin 2 tidy 0000000000000092
step 3788
step 3789
advance
step 3787
finish 3784
step 3788
begin 2 tidy 00000000000001e2
step 3788
step 3788
step 3788
step 3788
step 3788
step 3788
step 3788
step 3788
step 3788
step 3788
begin 1 range 0000000000000161 10 all
step 3787
finish 3787
begin 2 tidy 000000000000006e
step 3791
step 3791
step 3791
step 3790
finish 3789
begin 1 tidy 0000000000000021
finish 3792
begin 1 tidy 00000000000001be
finish 3786
begin 1 tidy 00000000000000cb
step 3791
step 3791
step 3791
step 3791
step 3791
step 3791
step 3791
finish 3791
begin 1 tidy 00000000000001ab
step 3785
step 3794
finish 3790
begin 2 tidy 00000000000000b1
collect
finish 3793
begin 2 tidy 00000000000001fa
finish 3797
begin 1 tidy 000000000000010c
finish 3799
begin 1 tidy 0000000000000274
finish 3795
feed 407 3
finish 3800
begin 3 tidy 00000000000000bd
step 3798
begin 1 tidy 0000000000000227
step 3801
feed 121 1
finish 3794
advance
begin 2 tidy 00000000000000c5
finish 3798
begin 3 tidy 0000000000000114
step 3796
step 3785
step 3785
step 3785
step 3785
step 3785
step 3785
step 3785
step 3785
step 3785
step 3785
step 3785
step 3785
begin 2 tidy 0000000000000220
finish 3801
begin 2 tidy 0000000000000159
step 3802
finish 3802
step 3806
begin 2 tidy 000000000000007b
step 3796
step 3803
finish 3796
begin 3 tidy 000000000000018b
finish 3803
finish 3806
begin 1 tidy 000000000000016a
begin 1 tidy 00000000000001c9
step 3808
step 3809
step 3804
finish 3804
finish 3805
begin 3 tidy 00000000000002b2
advance
begin 1 tidy 000000000000020e
step 3811
step 3809
finish 3812
finish 3811
begin 3 tidy 0000000000000130
begin 1 tidy 0000000000000262
advance
finish 3810
step 3813
begin 3 tidy 00000000000001ff
step 3809
step 3809
step 3809
step 3809
step 3809
step 3809
step 3809
begin 2 tidy 0000000000000221
finish 3814
begin 3 tidy 000000000000005c
finish 3808
finish 3817
begin 1 tidy 00000000000002a3
finish 3818
begin 2 tidy 00000000000000f8
begin 1 tidy 000000000000014d
finish 3820
finish 3813
advance
step 3807
begin 2 tidy 0000000000000133
finish 3821
begin 3 tidy 0000000000000063
begin 3 tidy 00000000000000a2
finish 3807
begin 2 tidy 0000000000000138
finish 3822
begin 2 tidy 00000000000000d9
finish 3824
step 3823
step 3823
begin 3 tidy 00000000000002a5
step 3819
finish 3825
begin 3 tidy 0000000000000214
step 3823
step 3823
step 3823
step 3823
step 3823
step 3823
step 3823
step 3823
step 3823
step 3823
step 3823
step 3823
step 3823
begin 1 tidy 000000000000008c
step 3819
finish 3826
step 3828
step 3816
step 3816
advance
begin 2 tidy 0000000000000005
step 3828
collect
finish 3816
step 3828
step 3828
step 3828
step 3828
step 3828
step 3828
step 3828
step 3828
step 3828
step 3828
step 3828
step 3828
step 3828
step 3815
step 3827
begin 3 tidy 00000000000001f5
advance
collect
feed 613 3
finish 3827
begin 2 tidy 00000000000002a0
begin 3 tidy 000000000000010f
step 3829
finish 3832
begin 2 tidy 0000000000000198
finish 3819
finish 3833
begin 3 tidy 00000000000000fc
begin 2 tidy 0000000000000104
finish 3831
finish 3815
begin 1 tidy 000000000000029b
finish 3829
begin 3 tidy 000000000000008d
begin 3 tidy 0000000000000074
finish 3838
finish 3835
step 3834
begin 2 tidy 0000000000000217
finish 3837
step 3839
advance
begin 1 tidy 0000000000000257
advance
begin 3 tidy 0000000000000083
finish 3839
finish 3830
begin 2 tidy 000000000000019b
finish 3842
begin 2 tidy 00000000000000c6
finish 3840
begin 1 tidy 000000000000017f
finish 3844
begin 1 put 0000000000000058 0=-
begin 2 tidy 00000000000001d8
finish 3834
begin 3 tidy 000000000000009f
finish 3846
step 3841
finish 3841
begin 1 tidy 0000000000000172
begin 3 tidy 00000000000000fa
step 3848
finish 3836
finish 3847
feed 321 1
begin 2 tidy 0000000000000177
step 3845
finish 3843
finish 3849
begin 3 tidy 00000000000001b2
finish 3845
finish 3848
begin 1 tidy 00000000000001de
collect
step 3852
finish 3850
step 3851
begin 3 tidy 00000000000002ac
begin 2 tidy 0000000000000141
begin 3 tidy 00000000000001a4
finish 3854
step 3852
begin 3 tidy 0000000000000066
begin 2 tidy 0000000000000126
finish 3853
step 3855
begin 3 tidy 0000000000000199
finish 3852
begin 3 tidy 0000000000000098
finish 3857
finish 3851
finish 3858
collect
begin 1 tidy 000000000000028c
advance
step 3860
begin 2 tidy 00000000000001c8
finish 3856
feed 696 3
finish 3855
begin 2 tidy 0000000000000250
begin 1 tidy 00000000000002b5
step 3863
begin 2 tidy 00000000000001f9
step 3863
finish 3860
finish 3863
step 3861
begin 1 tidy 0000000000000264
step 3862
begin 3 get 0000000000000239 all
finish 3859
finish 3862
begin 3 tidy 00000000000002a7
begin 3 tidy 0000000000000272
step 3867
step 3864
step 3867
finish 3868
finish 3861
finish 3864
finish 3866
begin 2 tidy 000000000000011c
finish 3865
finish 3867
step 3869
step 3869
begin 1 tidy 0000000000000271
begin 2 tidy 00000000000000f6
finish 3870
begin 2 tidy 0000000000000102
begin 1 tidy 000000000000000c
step 3872
finish 3873
begin 3 tidy 0000000000000144
finish 3869
finish 3872
begin 1 tidy 0000000000000261
begin 3 get 000000000000019a all
begin 2 tidy 00000000000000dc
begin 2 tidy 0000000000000203
finish 3871
begin 3 tidy 000000000000011e
finish 3879
begin 1 tidy 000000000000024f
step 3877
finish 3874
begin 3 tidy 0000000000000107
finish 3880
begin 3 tidy 00000000000000e2
finish 3876
finish 3878
begin 2 tidy 00000000000001ef
begin 3 tidy 00000000000002ba
feed 634 1
step 3884
finish 3877
finish 3884
begin 1 tidy 00000000000000fd
feed 82 10
finish 3875
collect
finish 3885
begin 2 tidy 0000000000000213
begin 3 tidy 0000000000000288
step 3882
begin 2 tidy 0000000000000185
step 3882
finish 3887
finish 3883
begin 2 tidy 000000000000022c
step 3889
begin 2 tidy 00000000000000fe
step 3889
finish 3889
finish 3881
begin 2 tidy 0000000000000110
begin 1 tidy 0000000000000209
finish 3886
finish 3892
begin 1 tidy 000000000000014a
finish 3888
finish 3882
step 3893
begin 3 range 000000000000006d 1 all
finish 3891
finish 3894
begin 1 tidy 000000000000006b
finish 3890
begin 2 tidy 0000000000000068
begin 3 tidy 0000000000000235
begin 2 tidy 0000000000000200
finish 3896
finish 3898
begin 1 tidy 0000000000000086
finish 3895
advance
begin 1 tidy 00000000000000df
finish 3893
finish 3899
finish 3900
finish 3897
feed 649 3
alone tidy 0000000000000058
alone tidy 00000000000000b5
begin 2 tidy 00000000000000cf
begin 1 tidy 0000000000000174
begin 3 tidy 0000000000000231
finish 3903
finish 3904
begin 1 tidy 0000000000000128
step 3906
begin 3 tidy 000000000000005f
begin 3 tidy 00000000000001cb
collect
finish 3905
begin 3 tidy 0000000000000265
begin 2 tidy 000000000000021c
begin 3 tidy 0000000000000154
step 3906
step 3911
finish 3910
begin 3 tidy 00000000000001e0
finish 3906
finish 3907
begin 3 tidy 0000000000000180
begin 2 tidy 000000000000018f
finish 3914
step 3908
begin 3 tidy 00000000000002ad
finish 3913
begin 1 tidy 0000000000000277
finish 3916
begin 3 tidy 0000000000000239
finish 3912
begin 3 tidy 00000000000000d5
finish 3918
begin 2 tidy 0000000000000008
step 3909
finish 3917
begin 2 tidy 0000000000000182
step 3911
finish 3909
finish 3911
finish 3920
finish 3915
finish 3908
finish 3919
feed 471 1
alone tidy 00000000000002af
begin 3 tidy 00000000000000a7
step 3922
begin 1 tidy 00000000000000ac
step 3922
step 3922
step 3922
step 3922
step 3922
step 3922
step 3922
step 3922
step 3922
step 3922
step 3922
step 3922
step 3922
step 3922
step 3922
advance
begin 3 tidy 000000000000001a
begin 1 tidy 00000000000001a6
advance
step 3923
begin 1 tidy 0000000000000207
finish 3925
finish 3926
begin 1 tidy 0000000000000161
finish 3924
begin 2 tidy 000000000000002c
finish 3923
begin 3 tidy 0000000000000111
begin 1 tidy 0000000000000236
finish 3929
finish 3928
step 3927
begin 2 tidy 00000000000001f1
begin 3 tidy 000000000000023a
step 3931
begin 3 tidy 000000000000008f
begin 1 tidy 0000000000000228
step 3934
finish 3933
step 3927
finish 3931
finish 3932
feed 1429 10
step 3930
finish 3927
begin 3 tidy 0000000000000014
begin 2 tidy 00000000000000c3
begin 2 tidy 0000000000000032
begin 1 tidy 000000000000029e
finish 3936
collect
step 3934
finish 3934
finish 3938
step 3937
begin 1 remove 0000000000000238
finish 3939
begin 1 tidy 0000000000000253
step 3930
begin 1 tidy 0000000000000099
finish 3935
step 3930
step 3930
step 3930
step 3930
step 3930
step 3930
step 3930
step 3930
step 3930
step 3930
step 3930
step 3930
step 3937
begin 2 tidy 000000000000017a
begin 2 tidy 0000000000000106
begin 3 tidy 0000000000000060
step 3937
step 3937
step 3937
step 3937
step 3937
step 3937
step 3937
finish 3940
finish 3942
finish 3944
begin 2 tidy 00000000000000d6
finish 3943
finish 3945
begin 2 tidy 0000000000000124
step 3941
step 3946
finish 3941
step 3946
step 3946
step 3946
step 3946
step 3946
step 3946
step 3946
step 3946
step 3946
step 3946
step 3946
step 3946
step 3946
begin 2 tidy 0000000000000055
finish 3947
begin 1 tidy 0000000000000234
begin 3 tidy 00000000000001ae
begin 3 tidy 00000000000000e6
step 3950
finish 3949
step 3950
step 3948
begin 3 tidy 000000000000023b
finish 3948
feed 747 10
begin 2 tidy 000000000000003f
step 3950
step 3950
step 3950
step 3950
step 3950
step 3950
step 3950
step 3950
begin 3 tidy 000000000000011b
begin 3 tidy 00000000000000ff
finish 3954
begin 1 tidy 0000000000000258
step 3953
step 3955
begin 1 tidy 00000000000001ee
finish 3955
begin 1 tidy 000000000000003a
step 3953
begin 2 tidy 00000000000001c3
step 3956
finish 3956
finish 3958
feed 1163 10
feed 1169 3
begin 3 tidy 00000000000000f2
finish 3951
begin 3 tidy 0000000000000193
finish 3957
step 3960
begin 3 tidy 000000000000025c
step 3960
begin 1 tidy 0000000000000078
finish 3953
step 3961
advance
begin 2 tidy 00000000000001dc
step 3959
feed 676 1
finish 3961
step 3959
step 3962
begin 2 tidy 000000000000009a
step 3960
finish 3964
begin 3 tidy 0000000000000137
finish 3962
begin 3 tidy 0000000000000057
collect
finish 3952
begin 3 tidy 0000000000000178
step 3967
finish 3965
begin 2 range 000000000000001a 10 all
finish 3963
begin 2 build range 0000000000000070 none atleast 0 188
step 3960
step 3960
step 3960
step 3960
step 3960
step 3960
finish 3966
finish 3967
finish 3969
apply 6
finish 3968
finish 3959
alone tidy 00000000000001d9
collect
begin 3 tidy 00000000000001ad
finish 3971
alone tidy 00000000000001a2
begin 1 tidy 000000000000013e
apply 0
finish 3973
begin 1 tidy 0000000000000051
step 3974
begin 2 tidy 000000000000002d
apply 0
begin 2 tidy 00000000000000ec
step 3975
begin 3 tidy 0000000000000003
begin 1 tidy 000000000000027c
begin 2 tidy 00000000000000e0
finish 3979
begin 1 tidy 00000000000002b1
finish 3976
finish 3980
finish 3975
step 3977
step 3977
begin 3 tidy 0000000000000287
finish 3974
begin 1 tidy 00000000000001f6
begin 1 tidy 0000000000000067
finish 3983
step 3981
finish 3978
finish 3982
begin 3 tidy 0000000000000123
finish 3977
begin 1 tidy 000000000000028b
finish 3985
apply 0
finish 3984
begin 2 tidy 00000000000001ce
begin 3 range 00000000000001eb 3 all
finish 3981
apply 0
begin 2 tidy 0000000000000175
begin 3 tidy 00000000000000fb
step 3987
step 3987
step 3987
step 3987
step 3987
step 3987
begin 2 tidy 00000000000002b4
begin 1 tidy 0000000000000041
finish 3988
finish 3989
finish 3987
finish 3986
collect
step 3990
finish 3991
finish 3990
begin 2 tidy 0000000000000004
begin 3 tidy 00000000000001a8
begin 2 tidy 0000000000000283
finish 3992
finish 3994
finish 3993
begin 1 tidy 0000000000000276
begin 2 tidy 00000000000002a6
finish 3995
begin 2 tidy 00000000000000bc
step 3996
collect
finish 3996
apply 0
finish 3997
begin 2 tidy 0000000000000256
step 3998
finish 3998
alone tidy 0000000000000246
begin 3 tidy 0000000000000186
begin 3 tidy 0000000000000108
step 4001
step 4000
begin 3 tidy 0000000000000036
advance
step 4002
begin 3 tidy 00000000000002b0
step 4000
finish 4001
begin 3 tidy 000000000000020f
begin 2 tidy 000000000000015d
begin 2 tidy 0000000000000169
step 4006
finish 4006
step 4000
begin 2 tidy 0000000000000061
finish 4005
begin 2 tidy 00000000000001f3
finish 4007
step 4008
begin 1 tidy 00000000000000a6
finish 4000
begin 2 tidy 000000000000009e
step 4009
step 4003
step 4003
step 4003
finish 4003
begin 2 tidy 0000000000000105
finish 4004
begin 1 tidy 0000000000000015
step 4008
advance
finish 4011
begin 1 tidy 0000000000000115
step 4013
step 4012
finish 4009
begin 2 tidy 0000000000000225
step 4013
finish 4008
begin 2 tidy 0000000000000194
finish 4013
begin 2 tidy 000000000000016b
apply 0
finish 4012
finish 4002
begin 2 tidy 0000000000000056
begin 2 tidy 0000000000000243
finish 4018
finish 4014
begin 2 tidy 00000000000001b3
begin 1 tidy 000000000000012f
step 4016
step 4017
finish 4010
finish 4017
begin 3 tidy 000000000000014e
apply 0
finish 4016
finish 4015
step 4021
begin 1 tidy 000000000000024c
finish 4022
begin 2 tidy 000000000000011d
begin 3 tidy 000000000000026b
finish 4020
begin 1 tidy 000000000000001f
step 4024
begin 3 tidy 000000000000021d
apply 0
step 4024
step 4025
step 4023
advance
finish 4024
begin 2 tidy 000000000000005e
finish 4023
finish 4021
step 4025
begin 1 tidy 0000000000000160
begin 3 tidy 000000000000019a
finish 4019
finish 4029
finish 4028
begin 2 tidy 0000000000000009
step 4030
finish 4027
begin 2 tidy 000000000000029a
finish 4030
finish 4026
begin 2 tidy 000000000000021b
begin 3 tidy 00000000000001a5
begin 1 tidy 0000000000000163
finish 4032
step 4034
begin 3 tidy 0000000000000188
finish 4033
begin 1 tidy 00000000000000bb
view 6 0 - 1000
begin 1 tidy 00000000000002a1
finish 4035
finish 4034
begin 2 tidy 00000000000001e8
finish 4038
begin 2 tidy 0000000000000116
feed 1296 1
begin 2 tidy 000000000000028d
finish 4036
step 4040
finish 4040
begin 3 tidy 0000000000000030
finish 4025
finish 4039
begin 2 tidy 00000000000001e6
finish 4042
step 4037
begin 2 tidy 00000000000001a3
apply 6
step 4041
finish 4031
begin 1 tidy 0000000000000263
begin 2 tidy 00000000000001f0
finish 4041
begin 1 tidy 00000000000002b7
step 4043
begin 1 tidy 00000000000000f0
finish 4044
begin 2 tidy 0000000000000291
advance
finish 4048
finish 4047
step 4046
begin 2 tidy 0000000000000022
begin 2 tidy 00000000000000d1
step 4050
finish 4050
finish 4043
begin 2 tidy 0000000000000252
begin 2 tidy 0000000000000285
step 4049
step 4046
finish 4051
finish 4037
begin 3 tidy 000000000000028e
begin 2 tidy 00000000000000c7
finish 4045
finish 4053
begin 2 tidy 0000000000000170
begin 1 tidy 000000000000020d
step 4055
step 4055
step 4049
finish 4052
step 4056
begin 1 tidy 00000000000001bc
finish 4057
begin 3 tidy 0000000000000034
step 4056
step 4054
finish 4058
begin 3 remove 00000000000000a9
view 6 0 - 1
finish 4055
finish 4056
begin 2 get 000000000000028c all
begin 3 tidy 0000000000000238
finish 4049
begin 2 tidy 0000000000000210
step 4062
finish 4046
begin 2 put 000000000000019a 0=0669
apply 6
step 4054
step 4060
finish 4063
begin 2 tidy 00000000000000ad
finish 4054
begin 1 tidy 00000000000000d4
step 4065
step 4065
finish 4062
step 4060
begin 2 tidy 00000000000000d0
step 4060
step 4060
step 4061
finish 4064
step 4061
begin 1 tidy 00000000000002a4
finish 4061
finish 4059
begin 3 tidy 0000000000000233
begin 3 tidy 0000000000000267
finish 4069
step 4068
begin 3 tidy 000000000000007d
step 4068
finish 4070
begin 2 tidy 00000000000001bb
finish 4066
step 4071
begin 2 tidy 00000000000001bf
finish 4072
begin 3 tidy 00000000000000c0
finish 4060
begin 1 tidy 0000000000000223
step 4067
finish 4067
step 4068
finish 4074
begin 1 tidy 00000000000000f1
step 4071
begin 3 tidy 0000000000000082
finish 4071
begin 1 tidy 000000000000007f
finish 4073
begin 3 tidy 000000000000002f
finish 4068
finish 4075
finish 4076
step 4078
finish 4077
step 4078
begin 3 tidy 000000000000026c
step 4079
finish 4065
finish 4079
begin 3 tidy 000000000000027f
begin 2 tidy 000000000000012c
finish 4078
collect
step 4080
begin 1 tidy 000000000000016c
finish 4082
finish 4081
collect
begin 2 tidy 00000000000000da
finish 4083
begin 1 tidy 000000000000022e
finish 4080
step 4084
finish 4084
begin 2 tidy 00000000000000e1
finish 4085
alone tidy 0000000000000259
alone tidy 0000000000000184
begin 3 tidy 00000000000001cd
finish 4088
alone tidy 000000000000004d
begin 3 tidy 00000000000001ed
step 4090
begin 3 tidy 0000000000000298
finish 4091
begin 1 tidy 0000000000000085
advance
begin 1 tidy 0000000000000089
step 4090
collect
finish 4093
begin 3 get 0000000000000139 all
begin 2 tidy 00000000000000f9
begin 2 tidy 000000000000029c
finish 4095
advance
finish 4096
finish 4090
step 4094
step 4094
step 4094
step 4094
step 4094
step 4094
begin 3 tidy 0000000000000044
finish 4094
begin 3 tidy 000000000000008a
finish 4097
begin 1 tidy 0000000000000018
finish 4099
begin 1 tidy 000000000000002b
advance
step 4098
step 4098
begin 1 tidy 00000000000002b8
begin 1 tidy 00000000000001ec
finish 4101
begin 2 tidy 00000000000001d0
step 4092
finish 4092
step 4100
begin 1 tidy 00000000000000aa
begin 1 tidy 0000000000000029
finish 4103
finish 4105
begin 3 tidy 00000000000000c4
step 4106
begin 2 tidy 0000000000000212
step 4104
finish 4102
begin 2 tidy 00000000000001f8
step 4104
step 4100
finish 4108
begin 1 tidy 0000000000000122
step 4106
finish 4109
apply 0
finish 4098
finish 4104
finish 4106
begin 3 tidy 000000000000025b
begin 3 tidy 00000000000001b4
begin 3 tidy 000000000000019f
step 4110
finish 4111
finish 4110
finish 4112
step 4100
step 4100
step 4100
step 4100
step 4100
step 4100
step 4100
step 4107
finish 4107
alone tidy 0000000000000019
advance
begin 1 tidy 000000000000024b
begin 3 tidy 0000000000000270
finish 4115
begin 3 tidy 00000000000001da
begin 2 tidy 00000000000000b3
finish 4114
finish 4117
finish 4116
begin 1 tidy 000000000000022b
begin 3 put 000000000000025a 0=-
finish 4119
finish 4118
alone tidy 00000000000000e3
begin 1 tidy 00000000000000e9
step 4121
begin 2 remove 000000000000005b
begin 3 tidy 0000000000000049
begin 2 tidy 00000000000000d7
finish 4123
finish 4121
begin 3 tidy 000000000000005a
collect
begin 2 tidy 00000000000001b9
begin 2 tidy 0000000000000148
finish 4124
view 6 0 - 1
finish 4125
begin 3 tidy 0000000000000155
begin 1 tidy 0000000000000294
step 4126
begin 3 tidy 00000000000001c5
step 4126
finish 4129
begin 1 tidy 0000000000000050
finish 4122
step 4126
step 4127
begin 2 tidy 00000000000000f5
finish 4132
step 4130
step 4130
begin 1 tidy 00000000000001ac
finish 4128
step 4131
step 4126
step 4126
step 4126
step 4126
step 4126
step 4126
step 4126
finish 4133
begin 2 tidy 0000000000000299
step 4127
begin 3 put 0000000000000259 0=0a9daa
finish 4131
finish 4135
finish 4127
finish 4134
finish 4130
begin 2 tidy 0000000000000179
begin 3 tidy 00000000000001f2
begin 3 tidy 000000000000022f
advance
step 4136
begin 1 tidy 000000000000016d
finish 4138
step 4139
finish 4136
begin 2 tidy 000000000000000d
begin 3 tidy 0000000000000096
begin 2 tidy 0000000000000077
begin 1 put 0000000000000172 0=a62fc0
step 4139
finish 4137
step 4141
begin 2 tidy 0000000000000038
step 4142
finish 4140
step 4141
advance
begin 2 tidy 000000000000001e
view 6 0 - 1
finish 4143
step 4139
step 4144
begin 2 tidy 0000000000000131
finish 4146
begin 3 tidy 0000000000000151
finish 4144
begin 3 tidy 0000000000000088
finish 4142
begin 3 put 0000000000000146 0=291025
finish 4145
step 4139
step 4139
step 4139
step 4139
step 4139
step 4139
step 4139
begin 3 tidy 00000000000001a9
finish 4148
begin 1 tidy 0000000000000095
finish 4147
begin 2 tidy 00000000000002a8
finish 4150
begin 2 tidy 0000000000000192
begin 1 tidy 000000000000026a
finish 4154
finish 4153
apply 0
begin 2 tidy 0000000000000244
begin 2 tidy 000000000000004b
step 4141
step 4141
step 4141
step 4141
step 4141
step 4141
step 4141
step 4141
step 4141
step 4141
step 4141
step 4141
step 4141
step 4141
step 4151
finish 4155
begin 2 tidy 0000000000000167
advance
begin 1 tidy 000000000000000b
step 4152
step 4157
step 4157
step 4156
finish 4152
finish 4156
begin 2 tidy 000000000000028f
begin 2 tidy 00000000000001d6
step 4160
finish 4160
begin 3 tidy 000000000000015e
step 4151
step 4159
finish 4159
begin 1 tidy 000000000000019c
finish 4162
finish 4149
step 4151
step 4151
step 4151
step 4151
step 4151
step 4151
step 4151
step 4151
step 4151
step 4151
step 4151
step 4151
step 4151
step 4151
finish 4157
begin 3 tidy 00000000000001fe
begin 1 tidy 000000000000005b
finish 4161
finish 4164
advance
apply 6
begin 1 tidy 000000000000023c
step 4165
finish 4163
begin 2 range 00000000000000e0 10 all
begin 3 tidy 0000000000000087
step 4165
step 4167
step 4165
finish 4166
step 4165
step 4165
step 4165
step 4165
step 4165
step 4165
step 4165
step 4165
step 4165
step 4165
step 4165
finish 4167
begin 2 tidy 0000000000000240
begin 1 tidy 0000000000000201
finish 4168
step 4158
begin 2 range 000000000000009f 3 all
begin 1 tidy 0000000000000187
finish 4158
finish 4171
step 4169
begin 3 tidy 0000000000000262
begin 1 tidy 0000000000000069
step 4173
begin 3 tidy 000000000000023f
begin 1 tidy 0000000000000120
finish 4174
begin 1 tidy 000000000000016f
collect
finish 4175
finish 4169
begin 2 tidy 00000000000000af
step 4177
begin 3 remove 000000000000020f
finish 4172
begin 3 tidy 0000000000000031
step 4177
finish 4177
begin 2 tidy 000000000000010e
finish 4179
finish 4180
advance
feed 65 1
begin 1 tidy 00000000000001a7
begin 1 tidy 0000000000000145
finish 4182
step 4178
begin 3 tidy 000000000000027a
finish 4176
begin 2 tidy 00000000000001b1
finish 4173
begin 2 tidy 00000000000000ca
finish 4181
begin 3 tidy 0000000000000084
finish 4170
finish 4185
begin 3 tidy 00000000000000f4
begin 2 tidy 000000000000029d
step 4186
finish 4178
step 4187
begin 3 tidy 00000000000001f4
step 4183
finish 4184
begin 2 tidy 0000000000000079
finish 4189
begin 2 tidy 00000000000001fb
finish 4188
step 4187
step 4190
apply 6
begin 1 tidy 0000000000000103
finish 4183
begin 1 tidy 0000000000000040
step 4190
finish 4191
step 4190
step 4190
step 4190
step 4190
step 4190
step 4190
step 4190
step 4190
step 4190
step 4190
step 4190
step 4190
step 4190
begin 3 tidy 0000000000000020
finish 4187
begin 1 tidy 0000000000000278
begin 3 tidy 0000000000000047
step 4195
step 4195
finish 4192
begin 2 tidy 00000000000001ba
step 4186
step 4194
finish 4193
step 4186
step 4186
step 4186
step 4186
step 4186
step 4186
step 4186
step 4186
step 4186
step 4186
step 4186
step 4186
step 4186
step 4186
begin 3 tidy 00000000000000b2
begin 1 tidy 0000000000000072
finish 4195
begin 1 tidy 000000000000006d
finish 4199
step 4194
begin 2 tidy 00000000000001ea
finish 4196
step 4198
begin 3 tidy 0000000000000012
step 4202
finish 4197
finish 4201
finish 4198
begin 3 tidy 00000000000002b6
begin 2 tidy 00000000000001d2
step 4204
finish 4203
begin 3 tidy 0000000000000134
begin 2 tidy 000000000000021a
advance
step 4202
step 4205
finish 4200
begin 2 tidy 000000000000027e
step 4194
step 4194
step 4194
step 4194
step 4194
step 4194
step 4194
finish 4204
begin 2 tidy 0000000000000139
begin 2 tidy 0000000000000149
finish 4207
begin 1 tidy 000000000000018c
finish 4202
begin 1 tidy 000000000000023e
collect
finish 4211
finish 4210
begin 2 tidy 0000000000000245
finish 4209
finish 4212
step 4208
finish 4206
step 4208
begin 2 tidy 000000000000013c
begin 2 tidy 000000000000013a
begin 2 tidy 0000000000000136
finish 4215
begin 1 tidy 0000000000000202
begin 3 tidy 00000000000001df
finish 4205
step 4208
step 4208
step 4208
step 4208
step 4208
step 4208
step 4208
step 4208
step 4208
step 4208
step 4208
step 4208
finish 4214
finish 4213
begin 2 tidy 000000000000007e
begin 3 tidy 0000000000000033
finish 4216
finish 4218
step 4217
finish 4219
apply 0
begin 2 tidy 0000000000000024
begin 2 tidy 00000000000000b9
finish 4221
begin 2 tidy 00000000000001e7
begin 1 get 000000000000000d all
finish 4217
step 4223
finish 4223
finish 4220
begin 1 tidy 000000000000025f
begin 2 tidy 000000000000003b
finish 4224
finish 4222
begin 1 tidy 0000000000000146
finish 4226
begin 3 tidy 000000000000012d
step 4227
begin 2 tidy 000000000000002e
begin 1 tidy 000000000000007a
step 4225
finish 4229
begin 2 tidy 000000000000014c
finish 4228
begin 1 tidy 0000000000000197
begin 3 tidy 0000000000000280
finish 4232
begin 3 tidy 0000000000000135
finish 4225
step 4231
begin 1 tidy 000000000000006a
begin 2 tidy 00000000000001e3
finish 4227
begin 3 tidy 00000000000000a4
step 4235
step 4231
finish 4236
advance
finish 4234
begin 1 tidy 0000000000000093
finish 4235
begin 3 tidy 0000000000000048
collect
begin 2 tidy 0000000000000255
finish 4239
begin 3 tidy 0000000000000232
finish 4231
begin 3 tidy 0000000000000268
finish 4230
step 4237
finish 4238
begin 3 tidy 0000000000000112
step 4242
begin 1 tidy 0000000000000001
finish 4241
begin 1 tidy 000000000000012b
finish 4233
finish 4240
finish 4242
begin 3 tidy 00000000000001a1
begin 3 tidy 0000000000000150
begin 1 tidy 0000000000000166
step 4247
finish 4244
begin 3 tidy 00000000000001c7
step 4247
step 4245
finish 4246
finish 4243
begin 1 tidy 00000000000000f7
collect
step 4247
finish 4237
begin 1 tidy 0000000000000117
finish 4249
step 4247
step 4247
step 4247
step 4247
step 4247
step 4247
step 4247
step 4248
finish 4250
begin 1 tidy 00000000000001b6
step 4245
collect
begin 1 tidy 00000000000000d8
begin 1 tidy 0000000000000025
finish 4252
finish 4251
finish 4248
begin 2 tidy 000000000000003d
finish 4253
begin 2 tidy 000000000000011f
begin 3 tidy 000000000000012e
step 4256
begin 1 tidy 00000000000001b5
collect
begin 1 tidy 0000000000000007
finish 4254
begin 2 tidy 000000000000021f
step 4255
step 4259
step 4257
finish 4258
begin 2 tidy 00000000000000ed
finish 4259
begin 2 tidy 00000000000001ca
step 4260
advance
finish 4245
begin 3 tidy 00000000000001db
finish 4257
begin 3 tidy 00000000000000d3
finish 4262
begin 2 tidy 000000000000010d
step 4260
finish 4255
begin 1 tidy 000000000000025a
step 4265
finish 4261
step 4260
step 4260
step 4260
step 4260
step 4260
step 4260
step 4260
step 4260
step 4260
finish 4256
finish 4263
begin 3 tidy 0000000000000279
begin 2 tidy 000000000000027b
step 4264
finish 4264
begin 3 tidy 000000000000004e
finish 4267
finish 4265
step 4266
apply 6
step 4266
step 4266
advance
begin 1 tidy 000000000000013d
begin 2 tidy 00000000000001dd
finish 4266
begin 2 tidy 0000000000000017
step 4270
finish 4271
begin 2 tidy 00000000000002a9
begin 1 tidy 0000000000000042
step 4272
step 4269
begin 2 tidy 0000000000000251
finish 4272
step 4274
finish 4268
finish 4270
step 4274
finish 4273
step 4269
begin 2 tidy 00000000000000c8
finish 4269
finish 4275
begin 2 tidy 0000000000000266
begin 1 tidy 0000000000000183
apply 0
step 4274
step 4277
finish 4277
apply 0
begin 3 tidy 0000000000000129
step 4276
finish 4274
step 4276
finish 4276
step 4278
begin 1 tidy 00000000000000a5
begin 1 tidy 0000000000000237
begin 3 tidy 00000000000002ae
step 4281
begin 3 tidy 000000000000015c
finish 4278
begin 1 tidy 0000000000000127
apply 0
begin 2 tidy 0000000000000142
finish 4279
step 4284
begin 3 tidy 000000000000011a
step 4280
step 4282
finish 4284
step 4280
begin 2 tidy 0000000000000229
step 4281
step 4282
finish 4283
apply 0
step 4280
begin 2 get 000000000000018f all
step 4281
step 4282
finish 4286
finish 4285
step 4287
finish 4282
step 4287
step 4287
begin 1 tidy 0000000000000070
finish 4288
begin 1 tidy 0000000000000222
begin 1 tidy 0000000000000039
step 4287
step 4287
step 4287
step 4287
step 4287
begin 2 tidy 000000000000010b
step 4287
begin 2 tidy 00000000000000a8
step 4290
finish 4280
view 6 0 - 10
step 4289
finish 4292
step 4291
begin 3 tidy 00000000000001e9
step 4291
begin 3 tidy 00000000000002aa
finish 4291
begin 1 tidy 0000000000000062
step 4289
finish 4293
advance
collect
step 4295
finish 4295
finish 4289
begin 1 tidy 000000000000024e
step 4290
step 4281
step 4281
step 4281
step 4281
step 4281
step 4281
step 4281
step 4281
step 4281
step 4281
step 4281
step 4281
step 4281
step 4281
step 4281
step 4281
step 4281
finish 4296
begin 2 tidy 00000000000000e8
step 4290
step 4290
step 4290
step 4290
step 4290
step 4290
step 4290
finish 4297
begin 3 tidy 0000000000000168
begin 2 tidy 0000000000000158
begin 2 tidy 000000000000025d
finish 4300
begin 3 tidy 0000000000000109
begin 1 tidy 000000000000007c
begin 1 tidy 0000000000000254
finish 4303
step 4302
begin 1 tidy 00000000000000a0
apply 0
advance
finish 4299
begin 2 tidy 00000000000000be
finish 4301
step 4298
step 4305
begin 3 tidy 00000000000001fc
finish 4305
begin 3 tidy 000000000000014f
finish 4294
step 4304
step 4302
begin 1 tidy 000000000000001d
finish 4302
finish 4307
begin 1 tidy 0000000000000206
finish 4309
begin 3 tidy 0000000000000011
step 4308
begin 1 tidy 0000000000000090
collect
finish 4311
step 4310
begin 2 tidy 0000000000000162
finish 4304
begin 1 tidy 0000000000000064
step 4310
step 4310
step 4310
step 4310
step 4310
step 4310
step 4310
advance
finish 4312
begin 2 tidy 0000000000000295
finish 4313
finish 4308
begin 3 tidy 00000000000001fd
step 4314
begin 2 tidy 0000000000000006
step 4314
begin 1 tidy 0000000000000292
finish 4306
begin 2 tidy 000000000000009b
step 4318
step 4317
finish 4298
begin 3 tidy 000000000000025e
finish 4319
finish 4315
finish 4316
finish 4318
step 4317
begin 1 get 00000000000001b4 all
begin 1 tidy 0000000000000075
begin 1 tidy 0000000000000219
begin 3 tidy 000000000000004c
finish 4317
begin 2 tidy 00000000000000ae
finish 4320
step 4321
begin 3 tidy 00000000000000a1
finish 4323
begin 3 tidy 000000000000026f
step 4326
step 4326
finish 4314
begin 2 tidy 0000000000000226
collect
finish 4322
begin 2 tidy 000000000000013f
finish 4325
step 4324
begin 3 tidy 0000000000000094
finish 4324
step 4327
collect
finish 4327
begin 1 tidy 00000000000001cc
begin 3 tidy 0000000000000045
finish 4328
begin 1 tidy 0000000000000297
view 6 0 - 10
finish 4331
finish 4332
finish 4326
begin 3 tidy 0000000000000035
begin 3 tidy 0000000000000195
step 4330
finish 4330
finish 4334
finish 4333
finish 4321
begin 3 tidy 000000000000000a
begin 2 tidy 000000000000024a
finish 4329
begin 3 tidy 000000000000000e
begin 2 tidy 00000000000000ce
begin 2 tidy 0000000000000121
collect
begin 3 tidy 0000000000000113
finish 4340
begin 1 tidy 00000000000000ef
finish 4337
finish 4336
begin 3 tidy 000000000000020b
finish 4342
apply 0
begin 1 tidy 000000000000006f
begin 2 tidy 0000000000000016
finish 4339
begin 2 tidy 0000000000000275
finish 4345
begin 2 tidy 000000000000027d
finish 4338
step 4346
begin 3 tidy 000000000000004a
step 4341
step 4343
finish 4344
step 4346
finish 4341
finish 4347
begin 1 tidy 000000000000017b
finish 4346
finish 4343
begin 1 tidy 0000000000000091
step 4349
finish 4349
finish 4348
step 4335
step 4335
begin 1 tidy 000000000000015a
begin 2 tidy 0000000000000286
begin 3 tidy 00000000000001d7
begin 1 tidy 0000000000000118
begin 1 tidy 00000000000000b6
step 4352
step 4352
step 4350
step 4335
step 4335
step 4335
step 4335
step 4335
step 4335
finish 4353
begin 3 tidy 000000000000019d
step 4355
begin 2 tidy 0000000000000191
step 4350
finish 4351
finish 4352
begin 3 tidy 0000000000000260
finish 4357
begin 1 tidy 00000000000001e4
finish 4358
apply 6
begin 3 tidy 00000000000001eb
step 4354
begin 2 tidy 0000000000000224
finish 4354
advance
step 4355
begin 3 tidy 0000000000000080
finish 4356
begin 1 range 0000000000000115 1 all
finish 4350
finish 4359
begin 2 tidy 000000000000008b
begin 2 tidy 000000000000014b
finish 4363
begin 2 tidy 000000000000017c
finish 4364
finish 4362
finish 4361
begin 3 tidy 00000000000000b8
begin 2 tidy 000000000000018d
finish 4360
finish 4365
begin 1 tidy 000000000000009c
begin 1 tidy 0000000000000242
finish 4367
apply 6
finish 4366
finish 4368
step 4355
begin 3 tidy 0000000000000101
begin 3 tidy 0000000000000281
begin 3 tidy 0000000000000241
begin 1 tidy 0000000000000205
finish 4355
advance
step 4369
begin 2 tidy 0000000000000140
step 4371
step 4371
advance
finish 4370
begin 3 tidy 00000000000001af
finish 4373
begin 1 tidy 000000000000003e
step 4369
finish 4372
begin 2 tidy 00000000000002b9
finish 4374
begin 2 tidy 0000000000000289
finish 4377
begin 3 tidy 0000000000000216
finish 4371
begin 2 tidy 0000000000000010
finish 4380
begin 1 tidy 0000000000000156
finish 4378
apply 6
step 4381
finish 4379
finish 4375
begin 2 tidy 0000000000000247
step 4382
step 4376
begin 3 tidy 0000000000000065
finish 4383
finish 4376
begin 3 tidy 00000000000001c0
begin 1 tidy 00000000000001aa
begin 3 tidy 00000000000000a3
finish 4386
begin 1 tidy 0000000000000284
step 4384
finish 4381
collect
begin 1 tidy 0000000000000059
advance
step 4385
finish 4385
advance
finish 4384
finish 4369
begin 3 tidy 000000000000020c
finish 4387
collect
step 4389
advance
finish 4389
finish 4382
begin 2 tidy 0000000000000296
step 4390
begin 1 tidy 00000000000000e7
begin 3 tidy 0000000000000076
begin 2 remove 0000000000000158
begin 2 tidy 000000000000009d
finish 4394
begin 1 tidy 0000000000000215
finish 4391
step 4393
begin 1 tidy 000000000000026d
step 4395
step 4396
step 4388
finish 4393
finish 4392
begin 2 tidy 0000000000000204
begin 1 tidy 000000000000012a
finish 4395
step 4390
view 6 0 - 1
begin 1 tidy 0000000000000026
step 4399
step 4398
finish 4399
finish 4388
begin 1 tidy 0000000000000248
begin 1 tidy 000000000000020a
finish 4396
begin 2 tidy 0000000000000173
finish 4390
step 4402
apply 6
finish 4397
advance
finish 4400
step 4402
step 4401
step 4402
apply 6
begin 3 tidy 00000000000001c2
begin 2 tidy 0000000000000000
step 4402
step 4402
step 4402
step 4402
step 4402
step 4402
step 4402
finish 4401
finish 4403
finish 4404
finish 4398
alone tidy 00000000000000d2
alone tidy 00000000000000e5
begin 1 tidy 00000000000001a0
finish 4407
alone tidy 0000000000000171
begin 3 tidy 00000000000000ab
finish 4409
begin 2 tidy 00000000000000c9
begin 3 tidy 0000000000000293
begin 2 put 000000000000021b 0=ff137117
begin 1 tidy 0000000000000052
begin 2 tidy 000000000000003c
finish 4410
finish 4413
finish 4414
begin 3 get 0000000000000218 all
collect
step 4412
finish 4411
begin 3 tidy 00000000000000c2
begin 2 tidy 00000000000000dd
advance
finish 4416
begin 1 tidy 00000000000001b0
finish 4415
view 6 0 - 10
step 4418
begin 1 tidy 0000000000000290
apply 6
begin 1 tidy 00000000000000ba
begin 2 tidy 000000000000013b
step 4412
finish 4421
begin 2 range 000000000000015e 3 all
finish 4417
finish 4419
advance
begin 1 tidy 000000000000024d
begin 2 tidy 00000000000001c4
step 4422
step 4422
finish 4418
begin 2 put 000000000000027a 0=e7acd9
finish 4420
begin 2 put 0000000000000270 0=32dc83
finish 4412
begin 1 put 0000000000000272 0=7797c023
finish 4425
begin 3 put 0000000000000268 0=8dee
finish 4427
begin 3 put 0000000000000273 0=b512fd67
finish 4423
finish 4428
step 4422
step 4422
step 4422
step 4422
begin 3 put 000000000000026f 0=7bd9
step 4422
step 4422
step 4422
finish 4430
advance
begin 3 put 0000000000000271 0=950f8a
collect
begin 2 put 0000000000000279 0=7cee0a
step 4432
finish 4426
finish 4424
finish 4431
begin 2 put 0000000000000269 0=2be0
view 6 0 - 1000
begin 2 put 000000000000026e 0=8f153c
begin 1 put 0000000000000276 0=-
step 4429
step 4432
step 4434
finish 4435
begin 1 put 0000000000000267 0=0383
finish 4433
begin 1 put 000000000000026a 0=-
finish 4434
step 4436
step 4436
begin 1 put 0000000000000275 0=d1a35fab
step 4437
step 4429
step 4432
finish 4429
finish 4436
begin 2 put 000000000000026b 0=78
begin 1 put 0000000000000274 0=149c
step 4440
drop 6
finish 4440
finish 4437
step 4438
finish 4432
begin 2 put 000000000000026c 0=-
begin 3 put 0000000000000277 0=f16a83
begin 3 put 0000000000000278 0=-
step 4422
finish 4438
step 4422
step 4422
step 4422
step 4422
step 4422
step 4422
step 4422
step 4422
step 4422
step 4422
step 4422
step 4422
step 4422
begin 2 put 000000000000026d 0=70
begin 2 remove 00000000000000fc
finish 4444
step 4443
begin 2 remove 0000000000000155
step 4446
step 4445
finish 4443
finish 4446
begin 2 remove 0000000000000000
begin 1 remove 0000000000000082
step 4448
finish 4439
begin 3 remove 000000000000002a
finish 4448
step 4441
step 4445
step 4447
begin 3 remove 00000000000001d7
finish 4447
finish 4445
finish 4441
begin 2 remove 0000000000000181
begin 2 remove 00000000000001de
feed 565 1
step 4450
finish 4452
step 4450
finish 4451
advance
finish 4442
step 4449
begin 3 remove 00000000000000cd
step 4453
begin 2 remove 0000000000000104
finish 4450
finish 4453
begin 1 remove 00000000000000ba
step 4449
begin 1 remove 0000000000000297
begin 2 remove 000000000000023f
begin 3 remove 0000000000000223
step 4454
step 4457
finish 4458
finish 4449
begin 3 remove 00000000000000f7
begin 1 remove 000000000000012d
finish 4455
begin 1 remove 0000000000000064
finish 4456
step 4457
step 4459
begin 3 remove 0000000000000150
step 4459
step 4461
finish 4462
step 4460
finish 4454
step 4460
finish 4461
step 4460
step 4457
begin 3 remove 000000000000016f
advance
begin 1 remove 00000000000001e2
begin 3 remove 00000000000001b5
step 4465
step 4464
step 4457
step 4464
step 4459
step 4464
step 4463
step 4460
step 4460
step 4460
step 4460
step 4460
step 4460
step 4460
step 4460
step 4460
step 4460
step 4460
step 4460
begin 3 remove 00000000000000b0
step 4465
step 4466
step 4459
step 4457
step 4457
step 4457
step 4457
step 4457
step 4457
step 4457
step 4457
step 4457
step 4457
step 4457
begin 1 remove 000000000000029e
step 4464
step 4463
step 4459
step 4459
step 4459
step 4459
step 4459
step 4459
step 4459
step 4459
step 4459
step 4459
step 4459
step 4459
begin 3 remove 0000000000000191
feed 482 10
feed 103 3
step 4468
step 4463
step 4465
step 4463
step 4467
step 4465
step 4463
step 4463
step 4463
step 4463
step 4463
step 4463
begin 2 remove 000000000000005f
step 4464
step 4464
step 4464
step 4465
step 4465
step 4465
step 4465
step 4465
step 4465
begin 2 remove 0000000000000020
begin 1 remove 000000000000010e
step 4469
finish 4467
begin 3 remove 000000000000001c
finish 4468
step 4469
finish 4469
finish 4471
begin 3 remove 0000000000000031
begin 2 remove 00000000000000d5
finish 4473
begin 3 remove 00000000000000fe
step 4472
begin 3 remove 000000000000017a
step 4472
finish 4472
begin 3 remove 0000000000000098
finish 4476
finish 4474
step 4466
advance
collect
finish 4477
begin 2 remove 0000000000000146
step 4466
finish 4466
finish 4470
begin 3 remove 0000000000000039
begin 3 remove 000000000000003d
begin 1 remove 000000000000029f
feed 1178 1
begin 2 remove 0000000000000205
finish 4478
finish 4481
finish 4479
begin 1 remove 0000000000000225
step 4475
step 4482
step 4480
finish 4483
begin 2 remove 00000000000002a4
begin 2 remove 00000000000000ef
finish 4485
begin 3 remove 000000000000026e
begin 1 remove 0000000000000174
step 4475
finish 4487
finish 4486
begin 3 remove 00000000000000c0
finish 4488
begin 2 remove 000000000000009b
step 4480
feed 1448 3
begin 1 get 0000000000000126 all
step 4484
step 4484
step 4480
step 4484
step 4489
step 4480
step 4480
step 4480
step 4480
step 4480
step 4480
step 4480
step 4480
step 4480
step 4480
step 4480
step 4480
step 4480
step 4480
step 4489
feed 1092 1
step 4475
advance
step 4475
step 4475
step 4475
step 4475
step 4475
step 4475
step 4475
step 4475
step 4475
step 4475
step 4475
finish 4480
begin 3 remove 00000000000001dc
begin 1 remove 0000000000000238
finish 4490
finish 4492
finish 4491
feed 306 1
finish 4482
begin 1 remove 000000000000001f
step 4489
step 4493
step 4493
step 4484
step 4493
begin 2 remove 00000000000000cc
begin 3 remove 0000000000000061
begin 2 remove 00000000000001ca
step 4494
step 4493
step 4493
step 4493
step 4496
step 4495
step 4495
step 4495
step 4494
step 4484
step 4484
step 4484
step 4484
step 4484
step 4484
step 4484
step 4484
step 4484
step 4484
step 4484
step 4484
step 4484
step 4484
step 4484
step 4496
begin 3 remove 0000000000000143
feed 1224 1
step 4495
step 4494
step 4497
step 4489
step 4489
step 4489
step 4489
step 4489
step 4489
step 4489
step 4489
step 4489
step 4489
step 4489
step 4489
step 4493
begin 1 remove 000000000000015b
feed 287 1
step 4494
step 4494
step 4494
step 4494
step 4494
step 4494
step 4494
step 4494
step 4494
step 4494
step 4494
begin 1 remove 0000000000000078
step 4495
step 4497
step 4495
step 4496
step 4496
step 4495
step 4498
step 4493
step 4493
step 4493
step 4493
step 4493
step 4493
step 4493
step 4493
step 4493
step 4493
step 4493
step 4493
step 4496
step 4496
step 4496
step 4496
step 4496
step 4496
collect
begin 3 remove 0000000000000021
feed 538 3
begin 1 remove 00000000000002a0
finish 4497
begin 3 remove 00000000000000ac
step 4500
finish 4495
begin 2 remove 00000000000001db
finish 4498
begin 3 remove 000000000000018d
finish 4499
finish 4504
finish 4503
finish 4500
begin 3 remove 0000000000000023
finish 4502
finish 4505
finish 4501
begin 2 remove 00000000000001b3
finish 4506
feed 1436 1
begin 2 remove 0000000000000051
advance
finish 4507
begin 2 remove 0000000000000219
begin 1 remove 000000000000022c
step 4509
begin 2 remove 000000000000004f
begin 1 remove 000000000000011d
finish 4509
finish 4510
finish 4511
finish 4508
alone remove 0000000000000068
alone remove 00000000000000d7
begin 2 remove 0000000000000250
begin 1 remove 0000000000000071
begin 1 remove 000000000000007e
begin 3 remove 000000000000018f
finish 4514
step 4516
begin 3 remove 0000000000000201
begin 2 remove 00000000000001fa
begin 2 remove 0000000000000175
finish 4520
finish 4518
begin 1 remove 0000000000000245
finish 4517
collect
begin 1 remove 0000000000000125
begin 2 remove 00000000000002aa
finish 4521
begin 3 remove 00000000000000a2
step 4515
finish 4523
step 4522
step 4516
step 4522
finish 4515
begin 2 remove 00000000000001d9
begin 1 remove 00000000000001ed
step 4524
step 4516
step 4524
finish 4516
feed 567 3
begin 2 remove 0000000000000231
finish 4526
finish 4525
begin 1 remove 000000000000021e
feed 822 3
finish 4527
begin 1 remove 0000000000000106
finish 4528
finish 4519
step 4522
step 4529
begin 1 remove 000000000000004e
begin 1 remove 0000000000000008
step 4531
begin 2 remove 000000000000002c
step 4531
finish 4522
begin 3 remove 0000000000000093
finish 4524
begin 3 remove 000000000000028d
finish 4530
finish 4531
begin 1 remove 0000000000000066
advance
begin 3 remove 0000000000000111
finish 4529
collect
feed 83 1
step 4535
begin 3 remove 0000000000000032
finish 4535
begin 3 remove 00000000000000e8
finish 4536
finish 4537
step 4538
step 4533
step 4533
finish 4533
begin 2 remove 00000000000000f8
begin 2 remove 00000000000000a7
step 4540
finish 4538
step 4532
begin 3 remove 00000000000000b9
begin 2 remove 0000000000000134
finish 4534
begin 3 remove 000000000000007d
finish 4543
begin 2 remove 00000000000001ec
finish 4540
finish 4541
finish 4542
begin 3 tidy 00000000000001cf
step 4545
begin 3 remove 0000000000000005
step 4539
finish 4539
finish 4532
begin 3 remove 00000000000001c1
begin 3 remove 0000000000000081
step 4546
begin 3 remove 0000000000000166
step 4548
finish 4549
finish 4546
begin 2 remove 00000000000001c8
step 4550
collect
collect
finish 4544
begin 3 remove 0000000000000137
finish 4551
feed 845 1
begin 1 remove 00000000000000bc
begin 2 remove 0000000000000056
finish 4553
begin 1 remove 00000000000001fd
collect
finish 4548
step 4554
begin 2 remove 00000000000000b6
finish 4545
finish 4554
begin 1 remove 0000000000000121
step 4555
begin 2 remove 0000000000000204
finish 4557
finish 4556
begin 2 remove 000000000000022d
finish 4547
step 4550
finish 4555
begin 2 range 000000000000006e 10 all
finish 4550
step 4558
finish 4552
step 4559
step 4559
step 4559
step 4559
step 4559
step 4559
collect
finish 4559
finish 4558
begin 2 remove 0000000000000187
finish 4560
collect
begin 1 remove 0000000000000283
begin 1 remove 00000000000000d8
step 4561
begin 3 remove 00000000000001ba
finish 4561
begin 1 remove 0000000000000189
finish 4562
begin 1 remove 0000000000000077
finish 4564
finish 4563
finish 4565
alone remove 00000000000000f3
begin 3 remove 00000000000001c4
begin 3 remove 0000000000000046
finish 4567
finish 4568
begin 2 remove 0000000000000293
step 4569
begin 2 remove 000000000000008e
begin 3 remove 0000000000000218
begin 1 remove 00000000000001c2
begin 2 remove 0000000000000226
finish 4573
begin 1 remove 00000000000002b6
finish 4570
begin 3 remove 0000000000000185
finish 4571
begin 1 remove 000000000000003c
begin 2 remove 0000000000000139
finish 4577
begin 3 remove 0000000000000042
finish 4575
begin 2 remove 000000000000009e
finish 4578
begin 2 remove 0000000000000284
finish 4569
begin 1 remove 00000000000000ca
step 4581
finish 4574
finish 4572
feed 1054 1
finish 4576
step 4581
step 4580
finish 4581
step 4579
begin 2 remove 00000000000000b3
collect
finish 4582
begin 2 remove 00000000000000d0
step 4579
finish 4580
begin 2 remove 00000000000001dd
finish 4579
begin 1 put 00000000000000f7 0=78
begin 3 remove 0000000000000045
step 4583
step 4584
step 4584
finish 4585
finish 4584
step 4586
step 4586
step 4583
step 4586
step 4583
step 4583
step 4583
step 4583
step 4583
step 4583
step 4583
step 4583
step 4583
step 4583
step 4583
step 4583
step 4583
begin 3 remove 00000000000001e9
step 4587
step 4586
step 4586
step 4586
step 4586
step 4586
step 4586
step 4586
step 4586
step 4586
step 4586
step 4586
begin 3 remove 0000000000000132
begin 3 remove 000000000000008f
begin 2 remove 0000000000000214
finish 4590
finish 4587
begin 1 range 0000000000000151 1000 all
begin 3 remove 000000000000026b
begin 1 remove 0000000000000019
begin 3 remove 0000000000000115
finish 4591
begin 3 remove 000000000000022b
finish 4594
begin 1 remove 0000000000000063
finish 4592
begin 1 remove 0000000000000060
feed 927 1
finish 4595
begin 2 remove 0000000000000159
feed 57 3
finish 4593
finish 4598
collect
begin 1 remove 000000000000023c
step 4588
feed 1338 3
finish 4597
begin 2 remove 00000000000002b7
finish 4589
finish 4588
finish 4596
finish 4599
begin 2 remove 00000000000000af
begin 1 remove 0000000000000043
finish 4600
begin 1 remove 00000000000001b8
step 4601
begin 3 remove 0000000000000076
step 4604
step 4601
begin 2 remove 000000000000007a
finish 4605
feed 271 10
begin 3 remove 0000000000000172
finish 4604
begin 3 remove 00000000000001c9
finish 4601
finish 4607
begin 2 remove 0000000000000003
begin 3 remove 00000000000001c3
step 4609
finish 4608
begin 3 remove 000000000000004d
begin 1 remove 000000000000029a
step 4610
step 4611
step 4610
step 4603
step 4610
step 4606
step 4606
step 4610
step 4610
step 4610
step 4610
step 4610
step 4610
step 4610
step 4610
step 4610
step 4610
finish 4609
step 4606
finish 4603
begin 1 remove 000000000000016c
finish 4612
begin 1 remove 0000000000000128
begin 2 remove 00000000000000db
begin 1 remove 0000000000000135
finish 4606
step 4614
finish 4615
begin 2 remove 000000000000008d
step 4611
begin 3 remove 00000000000002ac
finish 4613
finish 4611
step 4617
finish 4614
begin 3 remove 00000000000000df
finish 4618
begin 3 remove 0000000000000054
finish 4619
finish 4602
finish 4617
begin 1 get 000000000000017e all
begin 1 remove 0000000000000208
begin 3 remove 0000000000000041
begin 2 remove 0000000000000281
collect
begin 1 remove 00000000000001e5
step 4616
step 4624
step 4616
collect
finish 4621
finish 4620
step 4623
begin 2 remove 00000000000000c1
step 4622
begin 1 remove 0000000000000287
step 4626
step 4626
collect
step 4616
step 4616
step 4616
step 4616
step 4616
step 4616
step 4616
step 4616
step 4616
step 4616
begin 3 remove 00000000000001fe
finish 4627
advance
begin 2 remove 00000000000001a0
finish 4626
step 4625
begin 1 tidy 00000000000000c5
step 4624
finish 4628
finish 4623
advance
finish 4622
finish 4629
begin 1 remove 000000000000021d
step 4624
finish 4624
begin 3 remove 0000000000000165
step 4631
step 4630
begin 3 remove 0000000000000016
begin 2 remove 0000000000000215
finish 4633
begin 1 remove 0000000000000261
step 4634
begin 3 remove 00000000000000f5
step 4634
step 4630
step 4631
finish 4630
begin 2 remove 000000000000004c
step 4636
step 4634
step 4632
step 4636
step 4632
finish 4625
step 4632
begin 1 remove 00000000000001e0
finish 4632
finish 4635
finish 4637
begin 3 remove 00000000000000e1
begin 2 remove 0000000000000123
finish 4638
begin 1 remove 0000000000000062
begin 2 remove 00000000000001f7
step 4641
step 4634
step 4631
step 4631
step 4636
step 4640
step 4640
step 4634
step 4634
step 4634
step 4634
step 4634
step 4634
step 4634
step 4634
step 4634
step 4634
step 4634
step 4634
step 4634
step 4634
step 4631
step 4631
step 4631
step 4631
step 4631
begin 3 remove 000000000000018c
finish 4636
begin 3 remove 00000000000000c6
begin 1 remove 0000000000000147
finish 4640
begin 3 remove 0000000000000035
finish 4641
begin 3 remove 0000000000000233
finish 4646
begin 3 remove 0000000000000299
step 4644
step 4644
finish 4639
begin 3 remove 000000000000005b
step 4645
finish 4642
begin 2 remove 000000000000017f
step 4648
finish 4648
finish 4645
step 4643
begin 2 remove 000000000000026d
begin 2 remove 0000000000000033
step 4649
feed 1029 3
finish 4649
step 4647
finish 4647
begin 2 remove 0000000000000177
step 4650
begin 2 remove 0000000000000249
finish 4652
begin 3 remove 000000000000011e
step 4643
finish 4650
begin 2 remove 0000000000000260
finish 4651
finish 4654
begin 3 remove 00000000000000b5
step 4653
finish 4643
finish 4653
step 4656
begin 1 remove 0000000000000279
finish 4657
begin 2 remove 0000000000000247
begin 3 remove 00000000000000f0
begin 2 remove 0000000000000209
step 4644
finish 4644
step 4658
begin 1 remove 000000000000026f
step 4656
step 4660
step 4656
step 4659
step 4660
step 4658
step 4656
step 4656
step 4656
step 4656
step 4656
step 4656
step 4656
step 4656
step 4656
finish 4658
begin 1 remove 000000000000008b
begin 3 remove 00000000000001f9
step 4660
collect
feed 1251 10
step 4655
finish 4661
step 4662
advance
begin 1 remove 0000000000000212
finish 4662
finish 4663
begin 2 remove 0000000000000273
begin 3 remove 0000000000000092
finish 4660
begin 1 remove 0000000000000096
finish 4667
step 4664
finish 4659
step 4666
finish 4666
begin 3 remove 0000000000000122
begin 3 remove 00000000000000dd
begin 1 remove 000000000000019a
finish 4668
finish 4665
step 4670
finish 4655
finish 4664
begin 2 remove 000000000000020c
step 4669
begin 2 remove 000000000000017c
begin 1 remove 000000000000022e
begin 3 remove 000000000000014d
finish 4671
begin 1 remove 0000000000000202
step 4670
finish 4673
begin 2 remove 00000000000001e3
finish 4675
begin 3 remove 00000000000000bb
finish 4669
begin 2 remove 0000000000000086
step 4672
finish 4672
finish 4677
begin 3 remove 00000000000000e4
begin 1 remove 00000000000002b4
finish 4670
begin 1 remove 000000000000023a
step 4679
advance
finish 4679
begin 1 remove 00000000000001ae
finish 4682
finish 4678
feed 860 1
step 4680
step 4681
begin 2 range 0000000000000223 1000 all
begin 2 remove 000000000000013c
step 4684
step 4674
step 4676
step 4674
step 4684
step 4676
finish 4676
finish 4684
begin 1 remove 00000000000000de
finish 4683
begin 2 remove 0000000000000107
finish 4680
finish 4686
finish 4681
finish 4685
finish 4674
begin 2 remove 00000000000001d6
step 4687
finish 4687
alone remove 000000000000029b
alone remove 000000000000012e
begin 1 remove 0000000000000170
finish 4690
alone remove 000000000000009c
