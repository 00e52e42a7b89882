begin 3 put 616161616161616100 0=-
begin 1 put 62626262626262620000 0=c26b30
step 1
step 2
step 1
step 1
step 1
step 1
begin 2 put 6161616161616161626262626262626200 0=dd01e4
step 2
begin 3 put 61616161616161610101 0=34a20f0b
step 2
begin 2 tidy 62626262626262620000
begin 2 put 626262626262626201 0=6ed80e
step 5
step 2
step 2
step 3
step 4
step 3
finish 1
step 6
begin 1 put 616161616161616162626262626262620101 0=77b076
step 7
step 3
step 7
step 7
step 4
step 7
step 2
step 4
step 3
step 3
step 3
step 3
step 3
step 2
step 6
step 6
step 7
collect
step 2
step 5
step 5
step 5
step 5
step 5
step 6
begin 2 remove 616161616161616162626262626262620101
step 7
finish 3
begin 3 put 616161616161616102 0=0bd5
finish 8
begin 3 put 62626262626262620202 0=3daa
step 9
step 6
step 9
step 7
step 2
step 4
step 6
step 6
step 6
step 6
step 6
step 6
step 2
advance
step 2
step 2
step 2
step 6
collect
advance
step 6
step 4
step 4
step 4
step 4
step 4
step 4
step 4
step 4
step 7
step 7
step 7
step 7
step 7
step 7
step 7
step 7
step 7
step 7
step 7
step 7
step 7
step 7
step 7
step 9
step 9
step 9
step 9
step 9
step 9
step 9
step 9
step 9
step 9
begin 1 put 6161616161616161626262626262626202 0=91ff
step 9
step 10
step 11
step 4
step 4
step 2
step 11
step 4
step 7
step 10
step 7
step 10
step 4
step 2
step 2
step 2
step 2
step 2
step 2
collect
advance
step 7
step 7
step 7
step 4
step 7
step 4
step 4
step 4
step 4
step 4
step 4
step 4
step 4
step 2
step 10
step 4
step 7
step 7
step 2
step 9
step 10
step 7
step 7
step 7
step 7
step 7
step 7
step 2
step 2
step 2
step 4
step 9
step 7
begin 2 put 61616161616161610303 0=7cced4
step 7
begin 2 put 626262626262626203 0=bf2ce037
step 13
step 13
step 12
step 12
step 10
step 2
step 10
step 10
step 10
step 10
step 10
step 10
step 10
step 11
step 11
step 11
step 11
step 11
step 11
step 11
step 11
step 12
step 12
step 12
step 12
step 12
step 12
step 12
step 12
step 13
step 13
step 13
step 13
step 13
step 13
step 13
step 13
step 12
step 2
step 13
step 9
step 9
step 9
step 9
step 9
step 9
step 9
step 9
step 12
step 13
step 13
step 13
step 13
step 13
step 13
step 2
step 12
step 13
step 9
step 9
step 11
step 11
step 11
step 11
step 11
step 11
step 11
step 11
step 11
step 11
step 11
step 11
step 11
step 11
step 11
step 11
step 11
step 11
step 11
begin 2 put 616161616161616162626262626262620303 0=fa0f
step 13
begin 3 remove 616161616161616100
step 14
step 2
collect
step 2
step 2
step 2
step 2
step 2
step 2
step 2
step 15
step 14
step 14
step 14
step 14
step 14
step 14
step 14
step 12
step 14
step 15
step 15
step 15
step 15
step 15
step 15
step 15
step 12
step 12
step 12
step 12
step 12
step 12
step 12
step 12
step 12
step 14
step 12
step 11
step 15
step 15
step 12
step 14
step 14
step 14
step 14
step 14
step 14
step 14
step 14
step 14
step 14
step 10
advance
begin 3 remove 62626262626262620202
step 2
step 14
step 15
step 16
step 15
step 15
step 15
step 15
step 15
step 15
step 15
step 15
step 15
begin 2 remove 6161616161616161626262626262626200
step 14
step 15
feed 7 1
step 17
step 15
finish 15
begin 1 remove 62626262626262620000
step 2
step 17
step 17
step 17
step 17
step 17
step 17
step 17
begin 3 remove 626262626262626203
step 16
step 16
step 16
step 16
step 16
step 16
step 16
step 18
step 16
finish 14
begin 3 remove 616161616161616162626262626262620101
step 16
step 20
step 19
step 20
step 20
step 20
step 20
step 20
step 20
step 20
step 18
step 18
step 18
step 18
step 18
step 18
step 18
step 16
step 16
step 16
step 16
step 16
step 16
begin 1 remove 616161616161616102
finish 18
begin 1 tidy 616161616161616100
step 17
step 21
step 21
step 21
step 21
step 21
step 21
step 21
step 21
finish 19
begin 2 remove 616161616161616162626262626262620303
finish 17
finish 22
begin 1 remove 61616161616161610303
feed 0 3
begin 1 remove 626262626262626201
finish 25
begin 3 remove 61616161616161610101
finish 21
finish 10
feed 4 1
finish 26
collect
step 24
begin 2 remove 6161616161616161626262626262626202
begin 3 tidy 616161616161616100
step 28
finish 28
begin 3 tidy 62626262626262620202
finish 20
begin 2 tidy 6161616161616161626262626262626200
feed 2 10
begin 1 tidy 62626262626262620000
collect
step 29
finish 29
begin 1 tidy 626262626262626203
step 23
finish 24
begin 1 tidy 616161616161616162626262626262620101
finish 32
step 31
begin 2 tidy 616161616161616102
step 33
step 30
step 31
step 31
step 31
step 31
step 31
step 31
step 31
finish 30
feed 9 10
begin 2 tidy 616161616161616162626262626262620303
finish 34
begin 2 tidy 61616161616161610303
step 31
step 36
step 23
step 23
step 23
step 23
step 23
step 23
step 23
finish 27
step 33
step 33
step 33
step 33
step 33
step 33
step 33
begin 3 tidy 626262626262626201
finish 31
begin 1 tidy 61616161616161610101
step 38
step 37
finish 33
step 23
begin 3 tidy 6161616161616161626262626262626202
collect
step 37
step 37
step 37
step 37
step 37
step 37
step 37
step 35
step 35
step 35
step 35
step 35
step 35
step 35
step 38
step 38
step 38
step 38
step 38
step 38
step 37
step 36
step 36
step 36
step 36
step 36
step 36
advance
step 37
step 37
step 37
step 37
step 37
begin 3 remove 61616161616161610303
step 39
step 39
step 39
step 39
step 39
step 39
step 39
finish 35
advance
step 23
step 23
step 23
step 23
step 23
step 23
step 23
finish 39
step 40
step 40
step 40
step 40
step 40
step 40
step 40
step 40
begin 2 remove 62626262626262620202
finish 40
step 38
begin 2 remove 616161616161616162626262626262620303
begin 1 remove 616161616161616162626262626262620101
finish 23
step 36
step 36
step 36
step 36
step 36
step 36
begin 2 remove 626262626262626203
step 38
step 38
step 38
step 38
step 38
step 41
begin 3 remove 6161616161616161626262626262626200
step 41
step 41
step 41
step 41
step 41
step 41
step 41
begin 2 remove 616161616161616102
finish 44
finish 42
step 45
step 43
finish 41
finish 46
begin 1 remove 62626262626262620000
finish 45
begin 1 remove 6161616161616161626262626262626202
begin 2 remove 616161616161616100
begin 3 remove 626262626262626201
step 47
begin 3 remove 61616161616161610101
step 51
step 47
step 47
step 47
step 47
step 47
step 47
step 47
finish 48
finish 47
step 49
begin 2 tidy 61616161616161610303
advance
collect
step 43
step 43
step 43
step 43
step 43
step 43
step 43
finish 50
begin 2 tidy 62626262626262620202
finish 53
finish 43
finish 51
begin 3 tidy 616161616161616162626262626262620303
begin 2 tidy 616161616161616162626262626262620101
step 52
begin 3 tidy 626262626262626203
begin 2 tidy 6161616161616161626262626262626200
finish 56
begin 2 tidy 616161616161616102
advance
finish 57
finish 54
begin 3 tidy 62626262626262620000
step 58
step 52
step 52
step 52
step 52
begin 2 tidy 6161616161616161626262626262626202
begin 2 tidy 616161616161616100
finish 55
step 61
begin 1 tidy 626262626262626201
step 49
step 61
step 61
step 61
step 61
begin 2 get 616161616161616100 all
step 63
step 63
step 63
feed 3 10
step 62
step 62
step 62
step 62
step 62
step 58
step 58
step 58
step 58
begin 1 tidy 61616161616161610101
feed 22 3
step 60
step 49
step 49
step 49
begin 2 tidy 61616161616161610303
finish 65
begin 3 tidy 62626262626262620202
begin 3 tidy 616161616161616102
step 60
step 60
step 60
step 60
begin 2 tidy 616161616161616162626262626262620303
step 66
step 68
step 63
step 63
begin 2 tidy 616161616161616162626262626262620101
step 67
finish 69
step 68
step 68
step 68
step 68
begin 1 tidy 626262626262626203
advance
step 64
begin 2 tidy 6161616161616161626262626262626200
step 66
step 66
step 66
step 66
step 71
finish 71
begin 1 tidy 616161616161616102
finish 72
begin 1 tidy 62626262626262620000
finish 70
step 59
begin 3 tidy 6161616161616161626262626262626202
step 74
finish 74
begin 2 tidy 616161616161616100
step 64
step 64
step 64
step 64
step 73
begin 3 tidy 626262626262626201
begin 1 get 61616161616161610303 all
step 75
step 67
step 67
step 67
step 67
begin 1 tidy 61616161616161610101
step 59
step 59
step 59
step 59
step 78
step 75
step 75
step 75
step 75
begin 2 tidy 61616161616161610303
begin 2 tidy 62626262626262620202
step 79
finish 78
step 73
step 73
step 73
step 73
begin 2 tidy 616161616161616162626262626262620303
finish 76
step 79
step 79
step 79
step 79
finish 81
step 77
step 77
step 77
step 77
step 77
step 80
begin 3 tidy 616161616161616162626262626262620101
step 82
begin 1 tidy 626262626262626203
advance
begin 3 tidy 6161616161616161626262626262626200
finish 80
finish 83
step 84
begin 1 tidy 616161616161616102
feed 1 10
begin 2 tidy 62626262626262620000
begin 3 tidy 6161616161616161626262626262626202
step 87
step 86
feed 15 1
step 85
finish 85
step 86
step 86
step 86
step 86
step 87
step 87
step 87
step 87
collect
begin 2 tidy 616161616161616100
collect
begin 1 tidy 626262626262626201
step 82
step 82
step 82
step 82
begin 3 tidy 61616161616161610101
begin 2 tidy 61616161616161610303
step 84
step 84
step 84
step 84
begin 2 tidy 62626262626262620202
step 88
finish 91
finish 90
step 88
step 88
step 88
step 88
step 89
begin 3 tidy 616161616161616162626262626262620303
begin 1 tidy 616161616161616162626262626262620101
begin 3 tidy 626262626262626203
finish 94
begin 3 tidy 6161616161616161626262626262626200
begin 2 tidy 616161616161616102
step 96
finish 97
begin 3 remove 62626262626262620000
finish 92
begin 2 tidy 62626262626262620000
finish 99
begin 3 tidy 6161616161616161626262626262626202
step 89
step 89
step 89
step 89
step 100
begin 2 tidy 616161616161616100
step 95
step 100
step 100
step 100
step 100
step 98
step 98
begin 2 tidy 626262626262626201
step 101
step 93
feed 14 3
step 95
step 95
step 95
step 95
begin 3 tidy 61616161616161610101
step 93
step 93
step 93
step 93
step 96
step 96
step 96
step 96
begin 2 remove 616161616161616102
begin 2 remove 616161616161616162626262626262620101
step 101
step 101
step 101
step 101
begin 1 remove 616161616161616100
step 102
step 103
step 98
step 98
step 98
begin 1 get 6161616161616161626262626262626202 all
step 106
step 102
step 102
step 102
step 102
step 105
finish 106
step 105
begin 3 remove 61616161616161610303
step 103
step 103
step 103
step 103
begin 1 put 6161616161616161626262626262626202 0=-
step 108
step 107
step 107
step 107
step 107
begin 3 remove 6161616161616161626262626262626202
collect
step 104
step 110
finish 105
begin 3 remove 62626262626262620202
finish 107
step 104
step 108
finish 104
step 110
step 108
begin 3 remove 61616161616161610101
step 108
step 110
step 110
step 110
begin 2 remove 626262626262626201
step 111
begin 2 remove 6161616161616161626262626262626200
finish 111
step 114
begin 1 remove 616161616161616162626262626262620303
finish 112
begin 2 put 616161616161616162626262626262620101 0=a1
feed 5 3
step 108
step 113
step 113
step 116
step 116
step 108
step 108
step 108
finish 113
begin 1 remove 626262626262626203
feed 9 10
begin 1 remove 62626262626262620000
finish 114
step 118
step 118
begin 1 tidy 616161616161616102
step 117
step 115
step 115
step 115
finish 118
begin 3 tidy 616161616161616162626262626262620101
step 119
step 120
advance
step 117
step 116
finish 117
step 120
step 120
step 120
step 120
begin 1 tidy 616161616161616100
begin 3 tidy 61616161616161610303
step 115
step 116
step 116
step 109
step 109
step 121
step 122
step 116
step 116
step 116
step 115
step 115
step 115
finish 116
begin 3 tidy 6161616161616161626262626262626202
step 123
begin 3 tidy 62626262626262620202
finish 122
begin 2 tidy 61616161616161610101
step 125
step 123
step 123
step 123
step 123
step 123
begin 1 tidy 626262626262626201
step 119
step 119
step 119
step 119
step 119
finish 126
step 125
step 125
step 125
step 125
step 125
begin 2 tidy 6161616161616161626262626262626200
finish 124
begin 2 tidy 616161616161616162626262626262620303
finish 121
begin 1 tidy 626262626262626203
step 127
step 129
begin 3 tidy 62626262626262620000
begin 3 put 61616161616161610303 0=94b258
finish 128
step 109
begin 2 tidy 616161616161616102
step 109
step 109
step 109
step 109
step 109
step 130
step 127
step 127
step 127
step 127
step 127
step 132
begin 1 tidy 616161616161616162626262626262620101
step 129
step 129
step 129
step 129
step 129
begin 2 put 616161616161616162626262626262620101 0=07c6f9
step 131
step 133
step 131
step 132
step 132
step 132
step 132
step 132
begin 2 tidy 616161616161616100
step 135
step 134
step 133
step 133
step 133
step 133
step 133
step 130
step 130
step 130
step 130
step 130
step 131
step 109
begin 3 tidy 61616161616161610303
begin 2 tidy 6161616161616161626262626262626202
step 137
step 109
step 134
step 131
step 134
step 134
advance
step 135
step 135
step 135
step 135
step 135
step 131
begin 3 tidy 62626262626262620202
step 134
step 131
step 131
step 131
step 137
step 137
step 137
step 137
step 137
begin 2 tidy 61616161616161610101
step 139
step 139
step 139
step 139
step 139
step 139
step 131
begin 1 tidy 626262626262626201
collect
step 131
step 109
step 109
step 109
step 134
step 109
step 134
step 134
step 134
step 134
step 134
step 134
step 109
step 136
step 138
finish 134
begin 2 tidy 6161616161616161626262626262626200
finish 131
begin 2 tidy 616161616161616162626262626262620303
finish 141
finish 142
finish 140
step 136
step 136
step 136
step 136
step 136
step 136
step 109
step 136
step 109
step 109
step 109
step 109
step 109
step 109
step 109
begin 2 range 61616161616161610303 1000 all
finish 109
step 138
step 138
step 138
step 138
step 138
begin 3 tidy 626262626262626203
begin 1 tidy 62626262626262620000
begin 1 put 61616161616161610101 0=-
begin 3 put 626262626262626201 0=1fdb98c8
step 147
step 146
step 143
feed 4 3
step 136
step 136
step 136
step 136
step 136
step 147
step 144
begin 2 put 616161616161616162626262626262620101 0=f4e0
step 143
step 147
step 147
step 147
step 147
step 147
step 147
step 145
step 147
step 143
step 147
finish 146
begin 1 put 616161616161616102 0=f4e2
feed 3 1
finish 144
step 143
step 143
step 143
finish 149
finish 143
finish 143
begin 2 put 62626262626262620202 0=58e0e997
begin 1 remove 626262626262626203
begin 1 remove 616161616161616162626262626262620303
finish 150
finish 148
step 152
finish 152
step 151
step 151
step 151
step 151
step 151
step 151
step 151
step 151
begin 1 tidy 626262626262626203
step 151
finish 145
begin 3 tidy 616161616161616162626262626262620303
step 153
step 151
begin 2 tidy 626262626262626203
begin 2 tidy 616161616161616162626262626262620303
step 151
step 151
step 151
step 151
step 151
step 155
begin 1 tidy 626262626262626203
finish 155
finish 157
begin 2 tidy 616161616161616162626262626262620303
begin 1 tidy 626262626262626203
finish 158
begin 1 tidy 616161616161616162626262626262620303
begin 2 put 6161616161616161626262626262626202 0=02f6
step 153
step 153
step 153
step 153
step 153
step 153
step 153
step 160
step 154
finish 154
step 159
begin 1 put 616161616161616162626262626262620303 0=7b
finish 160
begin 1 put 616161616161616162626262626262620101 0=cc67
finish 153
step 156
finish 162
finish 159
advance
step 156
step 156
step 156
step 156
step 156
step 156
begin 2 put 626262626262626203 0=25a1c56c
finish 164
begin 3 put 62626262626262620202 0=6ecd39
collect
feed 20 1
begin 3 put 616161616161616102 0=e4ac
step 156
collect
finish 166
feed 12 3
step 156
step 156
step 156
step 156
step 156
step 156
step 156
step 156
step 156
finish 161
begin 2 put 61616161616161610303 0=-
advance
step 156
step 163
step 167
feed 21 10
step 165
begin 2 remove 616161616161616162626262626262620101
finish 165
step 156
step 156
step 156
step 156
step 156
step 156
step 156
begin 1 remove 616161616161616102
finish 163
finish 168
step 169
begin 2 remove 62626262626262620202
step 169
step 169
step 169
step 169
step 169
step 169
step 169
begin 1 remove 6161616161616161626262626262626202
step 171
step 167
step 167
step 167
step 167
step 167
step 167
step 167
finish 167
begin 2 remove 61616161616161610303
begin 1 remove 626262626262626203
finish 169
begin 1 put 616161616161616162626262626262620101 0=5313d871
begin 2 remove 616161616161616162626262626262620303
feed 24 3
finish 173
step 170
begin 1 tidy 616161616161616162626262626262620101
step 175
step 172
step 172
step 172
step 172
step 172
step 172
step 172
step 172
step 174
finish 172
finish 176
collect
begin 1 tidy 616161616161616102
finish 175
begin 2 put 62626262626262620202 0=-
step 171
step 171
step 171
step 171
step 171
step 171
step 171
begin 2 tidy 62626262626262620202
finish 170
step 178
finish 179
begin 2 get 616161616161616162626262626262620101 all
step 174
step 174
step 174
step 174
step 174
step 174
step 174
finish 180
begin 3 tidy 6161616161616161626262626262626202
begin 1 tidy 61616161616161610303
step 177
collect
finish 177
begin 2 tidy 626262626262626203
step 181
finish 182
step 181
step 181
step 181
step 181
step 181
step 181
begin 1 tidy 616161616161616162626262626262620303
step 183
finish 184
begin 1 range 6161616161616161626262626262626200 1 all
step 181
step 185
step 185
step 185
step 171
step 185
finish 185
begin 3 get 62626262626262620000 all
finish 171
step 183
step 183
step 183
step 183
step 183
step 183
step 183
begin 2 remove 61616161616161610303
step 174
step 186
step 178
step 178
step 178
step 178
step 178
step 178
step 178
step 186
step 186
step 186
step 186
step 186
step 186
step 186
step 186
step 186
step 186
step 186
step 186
step 186
begin 3 remove 626262626262626203
step 188
finish 174
advance
step 178
begin 1 tidy 62626262626262620000
step 188
step 188
step 188
step 188
step 188
step 188
step 188
feed 26 1
finish 178
begin 3 remove 616161616161616162626262626262620303
step 189
step 183
step 189
step 189
step 189
step 189
step 189
step 189
step 189
step 183
step 183
step 183
step 183
step 183
step 183
step 181
step 181
step 181
step 181
step 181
step 181
step 181
begin 1 tidy 61616161616161610303
feed 17 10
step 190
step 189
finish 191
step 190
step 190
step 190
step 190
step 190
step 190
step 190
begin 2 get 626262626262626203 all
step 181
step 187
finish 190
begin 2 tidy 626262626262626203
step 188
finish 181
finish 189
step 188
begin 3 tidy 616161616161616162626262626262620303
begin 2 put 616161616161616102 0=6e526e
step 195
step 194
collect
step 193
step 187
step 187
step 187
step 187
step 187
step 187
step 187
step 188
step 188
step 188
step 188
step 188
step 187
finish 192
advance
step 195
step 195
step 195
step 195
step 195
step 195
step 195
step 195
begin 2 tidy 61616161616161610303
begin 1 tidy 626262626262626203
finish 187
step 197
begin 2 tidy 616161616161616162626262626262620303
step 196
step 193
step 193
step 193
step 193
step 193
step 193
step 193
step 194
step 194
step 194
step 194
step 194
step 194
step 194
step 193
finish 194
begin 2 remove 616161616161616100
finish 196
step 197
step 197
step 197
step 197
step 197
step 197
step 197
step 198
begin 2 get 616161616161616162626262626262620101 all
feed 47 3
feed 6 10
finish 197
advance
begin 3 tidy 616161616161616100
finish 198
begin 3 remove 62626262626262620000
step 195
step 202
collect
step 201
step 200
step 193
step 193
step 193
step 193
step 193
step 193
step 201
step 201
step 201
step 201
step 201
step 201
step 200
step 200
step 199
step 195
step 195
step 195
step 195
step 195
begin 1 tidy 62626262626262620000
finish 195
begin 1 remove 6161616161616161626262626262626200
feed 11 3
finish 200
begin 1 tidy 6161616161616161626262626262626200
finish 202
begin 3 remove 61616161616161610101
step 205
step 204
step 205
step 205
step 205
step 205
step 205
step 205
finish 201
begin 1 tidy 61616161616161610101
step 206
finish 207
begin 3 remove 626262626262626201
finish 208
begin 3 tidy 626262626262626201
step 203
collect
step 203
step 203
step 203
step 203
step 203
step 203
step 203
step 209
finish 205
begin 1 remove 616161616161616162626262626262620101
step 206
step 206
step 206
step 206
step 206
step 206
step 206
step 206
finish 203
step 209
step 209
step 209
step 209
step 209
step 209
step 209
begin 1 tidy 616161616161616162626262626262620101
step 204
step 204
step 204
step 204
step 204
step 204
step 204
step 206
advance
step 210
step 209
step 210
step 210
step 210
step 210
step 210
step 210
step 210
step 211
step 199
step 199
step 199
step 199
step 199
step 199
step 199
step 211
step 211
step 211
step 211
step 211
step 211
step 209
step 209
step 209
step 209
step 209
step 199
step 210
begin 2 remove 616161616161616102
step 204
step 211
collect
step 204
step 211
step 211
step 211
step 211
step 211
step 211
step 211
step 211
step 212
feed 10 10
begin 1 tidy 616161616161616102
finish 206
step 204
step 204
step 204
step 204
step 204
step 204
step 204
step 204
step 204
step 204
step 204
step 204
step 204
begin 3 remove 62626262626262620202
step 211
step 213
step 211
step 211
step 211
step 211
step 211
step 213
step 213
step 213
step 213
step 213
step 213
step 210
step 210
step 210
step 210
step 210
step 210
step 210
begin 3 tidy 62626262626262620202
step 215
step 215
step 215
step 215
step 215
step 215
step 215
step 215
step 199
step 213
step 214
step 210
step 214
step 214
step 214
step 214
step 214
step 214
step 214
step 212
step 212
step 212
step 212
step 212
step 212
step 212
step 215
step 210
step 215
step 215
step 215
step 215
step 215
step 212
begin 2 remove 6161616161616161626262626262626202
step 199
step 199
step 199
step 199
step 199
feed 24 1
begin 2 tidy 6161616161616161626262626262626202
step 210
step 210
step 210
step 210
step 210
step 214
step 210
feed 53 10
step 217
collect
step 212
step 214
step 216
step 210
finish 210
step 214
step 214
step 214
step 214
step 214
begin 1 remove 61616161616161610303
step 218
step 216
step 216
step 216
step 216
step 216
step 216
step 216
step 217
step 217
step 217
step 217
step 217
step 217
step 213
step 213
step 213
step 213
step 213
step 212
step 212
step 212
step 212
step 212
step 212
begin 1 tidy 61616161616161610303
step 219
step 219
step 219
step 219
step 219
step 219
step 219
step 219
step 219
step 219
step 219
step 219
step 219
step 219
step 212
begin 2 remove 626262626262626203
step 212
finish 212
begin 2 tidy 626262626262626203
step 216
step 216
step 216
step 216
step 216
step 216
step 216
feed 1 10
step 218
step 218
step 218
step 218
step 218
step 218
step 218
step 217
step 217
step 217
step 217
step 217
step 217
step 217
step 216
step 216
step 217
step 214
step 218
step 220
step 214
finish 214
begin 1 remove 616161616161616162626262626262620303
step 218
step 217
step 217
step 217
step 217
begin 1 tidy 616161616161616162626262626262620303
step 220
step 220
step 220
step 220
step 220
step 220
step 220
step 223
step 216
step 216
step 216
begin 3 put 62626262626262620000 0=751b
step 223
step 223
step 223
step 223
step 223
step 223
step 222
step 221
finish 218
finish 221
step 222
step 222
step 222
step 222
step 222
step 222
finish 220
step 224
begin 2 put 626262626262626203 0=-
begin 1 put 6161616161616161626262626262626200 0=-
step 226
step 220
step 223
finish 226
advance
step 225
begin 1 put 616161616161616102 0=c6718d
step 220
step 220
step 220
step 220
step 220
begin 3 put 6161616161616161626262626262626202 0=2e
step 225
step 227
step 222
step 224
step 225
step 225
step 225
step 225
step 224
step 228
finish 225
begin 1 put 61616161616161610303 0=-
step 223
step 223
step 223
step 223
step 223
step 223
step 227
step 227
step 227
step 227
step 227
step 227
step 227
step 229
finish 227
collect
step 229
step 229
step 229
step 229
step 229
step 229
step 229
step 228
step 228
step 228
step 228
step 228
step 228
step 228
step 228
begin 2 remove 62626262626262620202
step 224
step 230
step 230
step 222
step 222
step 222
step 222
step 222
step 222
step 222
step 230
step 229
feed 32 10
step 229
step 229
step 229
step 229
step 229
step 229
step 229
step 229
step 224
step 224
step 224
step 224
step 224
step 224
step 230
step 230
step 224
step 224
step 228
step 229
step 224
step 224
step 224
step 223
step 223
step 223
step 223
step 223
step 223
step 224
collect
begin 1 put 626262626262626201 0=a8
step 224
step 222
step 231
step 231
step 231
step 231
step 231
step 231
step 231
step 231
step 224
collect
step 229
step 228
step 228
step 228
step 228
step 228
step 228
step 228
step 228
step 228
step 228
step 228
step 228
step 228
step 228
step 228
step 228
step 228
step 228
step 230
step 230
step 230
step 230
step 230
step 230
step 230
step 224
step 224
step 224
step 224
step 224
step 224
begin 1 put 616161616161616162626262626262620303 0=b6545c
begin 3 put 61616161616161610101 0=fc
step 231
collect
step 231
step 232
step 231
step 222
step 232
step 232
step 232
step 232
step 232
step 232
step 232
step 224
step 233
step 232
step 222
step 222
step 222
step 222
step 222
step 231
step 224
step 230
begin 2 put 616161616161616162626262626262620101 0=6f2022
step 234
feed 36 3
begin 3 put 62626262626262620202 0=bca7dc
step 231
finish 231
finish 232
step 235
begin 2 remove 616161616161616162626262626262620303
begin 1 tidy 616161616161616162626262626262620303
step 234
step 234
step 234
step 234
step 234
step 234
step 234
finish 233
step 230
begin 3 tidy 616161616161616162626262626262620303
step 235
step 235
step 235
step 235
step 235
step 235
step 235
step 238
step 237
finish 230
step 234
begin 2 tidy 616161616161616162626262626262620303
finish 236
begin 1 tidy 616161616161616162626262626262620303
step 239
finish 240
finish 235
step 239
step 239
step 239
step 239
step 239
step 239
begin 3 put 616161616161616162626262626262620101 0=fdff6227
begin 2 put 62626262626262620202 0=-
step 238
step 238
step 238
step 238
step 238
step 238
finish 237
step 238
step 238
step 238
step 238
step 238
step 238
step 238
step 238
step 238
step 238
begin 1 tidy 616161616161616162626262626262620101
feed 5 1
step 243
step 241
step 242
finish 234
begin 3 put 61616161616161610303 0=7c
step 242
step 242
step 242
step 242
step 242
step 242
step 242
step 238
step 239
finish 242
begin 1 put 616161616161616162626262626262620303 0=-
step 239
step 239
step 239
step 239
step 239
step 239
step 239
step 239
step 239
step 245
step 241
step 241
step 241
step 241
step 241
step 241
step 241
step 244
step 243
step 243
step 243
step 243
step 243
step 243
step 238
step 238
step 238
step 238
step 238
step 238
step 238
begin 1 put 6161616161616161626262626262626202 0=8a
step 244
step 244
step 244
step 244
step 244
step 244
step 244
finish 239
begin 3 put 626262626262626201 0=76c0
step 247
step 244
advance
step 245
step 245
step 245
step 245
step 245
step 245
step 245
step 247
step 247
step 247
step 247
step 247
step 247
step 247
finish 244
step 246
step 243
begin 1 put 626262626262626203 0=4798
finish 247
begin 2 put 616161616161616102 0=336ae1cc
finish 246
begin 2 remove 616161616161616162626262626262620303
finish 250
step 248
finish 249
finish 241
feed 40 10
begin 1 get 6161616161616161626262626262626202 all
feed 46 10
step 251
begin 3 tidy 616161616161616162626262626262620303
step 245
begin 1 tidy 616161616161616162626262626262620303
finish 243
step 251
step 251
step 251
step 251
begin 2 tidy 616161616161616162626262626262620303
step 253
step 248
step 248
step 248
step 248
step 248
step 248
step 248
finish 254
begin 3 tidy 616161616161616162626262626262620303
step 248
step 255
step 248
step 253
step 253
step 253
step 253
step 253
step 253
step 248
step 248
step 248
step 248
step 248
step 248
step 248
step 248
step 251
step 255
step 255
step 255
step 255
step 255
step 255
step 251
step 245
step 245
step 245
step 245
step 245
step 245
step 245
step 245
step 245
step 248
step 252
step 251
step 251
step 252
step 252
step 252
step 252
step 252
step 252
step 252
step 248
finish 253
begin 2 put 61616161616161610101 0=eb968f
finish 256
step 245
step 245
begin 1 put 61616161616161610303 0=1d35c1
step 255
step 255
step 255
step 255
step 255
step 255
step 255
step 255
step 255
step 255
begin 1 put 616161616161616162626262626262620303 0=-
step 251
step 251
step 251
step 251
step 251
step 251
step 251
step 251
step 251
step 251
step 251
step 251
step 251
step 251
step 251
step 251
step 251
begin 3 put 616161616161616102 0=a0
advance
finish 245
step 258
finish 258
step 259
begin 3 put 6161616161616161626262626262626202 0=5790b0
begin 1 put 6161616161616161626262626262626200 0=1fe88ded
step 252
step 252
step 252
step 252
step 252
step 252
step 252
step 252
step 252
step 260
step 259
step 259
step 259
step 259
step 259
step 259
step 259
step 259
step 257
step 260
step 260
step 260
step 260
step 260
step 260
step 260
step 260
step 255
step 260
step 260
step 260
step 260
step 260
step 260
step 260
step 260
step 260
step 260
step 261
step 252
step 257
step 257
step 257
step 257
step 257
step 257
step 257
step 259
step 252
step 252
step 252
step 252
step 252
step 252
step 252
step 252
step 255
step 255
step 255
step 255
step 255
step 255
step 255
step 255
begin 1 put 616161616161616100 0=dad8
step 259
step 259
step 259
step 259
step 259
step 259
step 259
step 259
step 260
feed 56 10
begin 1 get 61616161616161610101 all
step 260
step 260
step 260
step 260
step 260
step 260
step 260
step 260
step 261
step 261
step 261
step 261
step 261
step 261
step 261
step 262
step 259
step 263
step 260
step 262
step 262
step 262
step 262
step 262
step 262
step 262
step 262
step 261
step 260
begin 1 build range 62626262626262620000 626262626262626203 any
step 259
begin 2 get 616161616161616162626262626262620101 all
finish 264
step 265
step 265
step 265
step 265
begin 3 put 626262626262626203 0=1ca6
step 262
step 266
step 257
step 257
apply 0
step 257
step 266
step 266
step 266
step 266
step 266
step 266
step 266
step 262
step 262
step 262
step 262
step 262
step 262
step 262
step 262
step 262
step 262
finish 262
begin 3 put 62626262626262620000 0=ffa94867
finish 261
begin 1 put 626262626262626201 0=f9efa3
step 263
step 268
step 263
step 263
step 263
step 263
step 263
step 263
step 263
step 263
step 263
step 263
step 263
step 263
step 263
begin 3 put 616161616161616162626262626262620101 0=8f3a43
step 268
step 268
step 268
step 268
step 268
step 268
step 268
step 267
step 269
step 267
step 267
step 267
step 267
step 267
step 267
step 267
step 265
finish 269
finish 267
step 265
begin 3 put 62626262626262620202 0=c3
step 265
step 265
begin 1 remove 616161616161616100
step 265
step 265
step 265
step 265
finish 268
begin 2 tidy 616161616161616100
step 257
step 265
step 265
step 265
step 265
step 265
step 265
step 265
step 265
step 265
step 265
step 265
step 265
step 265
step 265
begin 2 remove 62626262626262620000
step 257
step 257
step 257
step 257
step 257
step 257
step 257
step 257
step 257
step 273
step 257
step 271
step 257
begin 1 tidy 62626262626262620000
step 270
step 273
step 273
step 273
step 273
step 273
step 273
step 273
step 271
step 271
step 271
step 271
step 271
step 271
step 271
finish 271
step 273
begin 3 remove 6161616161616161626262626262626200
step 270
step 270
step 270
step 270
step 270
step 270
step 270
step 272
step 272
step 272
step 272
step 272
step 272
step 272
step 270
finish 266
begin 2 get 616161616161616102 all
finish 273
begin 3 tidy 6161616161616161626262626262626200
step 276
step 274
step 275
advance
step 272
step 274
step 274
step 274
step 274
step 274
step 274
step 274
step 272
step 272
step 272
step 272
step 272
step 270
step 275
step 275
step 275
step 275
step 275
step 275
step 275
step 276
begin 2 remove 61616161616161610101
step 274
step 274
step 274
step 274
step 274
step 274
begin 2 tidy 61616161616161610101
step 270
step 270
step 270
step 270
step 270
step 270
step 270
step 277
step 278
finish 270
begin 1 remove 626262626262626201
finish 278
begin 2 tidy 626262626262626201
finish 280
step 275
step 281
finish 281
collect
begin 3 remove 616161616161616162626262626262620101
begin 2 tidy 616161616161616162626262626262620101
finish 279
step 277
step 277
step 277
step 277
step 277
step 277
advance
step 275
step 275
step 275
step 275
step 275
step 275
step 275
step 275
finish 282
step 275
view 1 0 - 1000
finish 275
begin 1 remove 616161616161616102
begin 2 tidy 616161616161616102
begin 2 remove 62626262626262620202
step 283
step 286
step 277
step 286
step 286
step 286
step 286
step 286
step 286
step 286
finish 276
finish 284
step 277
step 277
step 277
step 277
step 277
step 277
step 277
view 1 0 - 1000
step 285
begin 1 tidy 62626262626262620202
advance
advance
step 283
step 283
step 283
step 283
step 283
step 283
step 286
begin 1 remove 6161616161616161626262626262626202
advance
finish 277
begin 3 tidy 6161616161616161626262626262626202
step 288
step 287
finish 287
begin 1 remove 61616161616161610303
apply 0
finish 286
step 288
step 288
step 288
step 288
step 288
step 288
step 288
step 289
begin 2 remove 6161616161616161626262626262626200
finish 290
begin 2 remove 616161616161616102
finish 292
step 291
step 283
step 291
step 291
step 291
step 291
step 291
step 291
step 291
step 289
step 289
step 289
step 289
step 289
step 289
step 283
step 283
step 283
step 283
step 283
step 283
step 285
step 285
step 285
step 285
step 285
step 285
begin 2 tidy 61616161616161610303
finish 283
begin 3 remove 626262626262626203
finish 294
step 291
begin 2 tidy 626262626262626203
step 293
finish 295
begin 3 remove 616161616161616162626262626262620303
finish 291
advance
begin 2 tidy 616161616161616162626262626262620303
finish 296
finish 285
step 297
step 289
begin 2 remove 6161616161616161626262626262626202
begin 2 remove 62626262626262620202
finish 299
finish 293
step 289
step 289
step 289
step 289
step 289
step 289
step 298
step 289
begin 1 remove 626262626262626201
begin 2 remove 616161616161616102
step 298
step 298
step 298
step 298
step 298
step 298
step 300
step 289
step 289
step 289
step 289
step 289
begin 1 remove 6161616161616161626262626262626200
step 300
step 300
step 300
step 300
step 300
begin 2 remove 626262626262626203
step 303
step 303
step 288
step 298
step 288
step 288
step 288
step 288
step 288
step 288
step 297
step 297
step 297
step 297
step 297
step 297
step 297
step 303
step 303
step 303
step 303
begin 2 remove 62626262626262620000
step 297
step 297
step 297
step 297
step 297
step 297
step 298
step 298
step 298
step 298
step 298
step 298
collect
finish 304
begin 1 remove 616161616161616162626262626262620101
step 298
step 302
collect
step 301
finish 302
advance
begin 2 range 626262626262626203 10 all
step 298
step 288
step 305
step 305
step 305
step 305
step 305
step 305
step 305
step 298
step 298
step 298
step 298
step 298
step 305
step 297
step 306
step 306
view 1 0 - 1000
step 297
step 297
step 297
step 297
step 297
step 305
step 305
step 305
step 305
step 305
step 305
step 305
begin 1 remove 616161616161616100
step 307
step 307
step 307
step 307
step 307
step 307
step 307
drop 1
step 306
step 306
step 306
step 306
step 306
step 298
step 307
step 301
step 301
step 301
step 301
step 301
step 301
finish 298
step 305
step 307
step 301
step 307
step 307
step 307
step 307
begin 1 get 616161616161616162626262626262620101 all
step 301
begin 3 remove 616161616161616102
begin 2 get 61616161616161610101 all
step 308
step 308
step 301
step 301
step 301
step 301
begin 2 remove 61616161616161610303
advance
step 308
step 308
step 309
step 288
feed 39 3
step 288
step 305
step 305
step 305
begin 3 remove 616161616161616162626262626262620303
collect
finish 312
begin 1 put 6161616161616161626262626262626202 0=e1ee29
step 288
finish 288
begin 2 remove 61616161616161610101
step 309
step 309
step 309
step 309
step 309
step 309
step 314
step 314
step 314
step 314
step 314
step 314
step 314
step 308
step 308
step 308
step 308
step 314
feed 78 3
step 313
finish 310
step 314
begin 1 tidy 6161616161616161626262626262626202
step 314
step 314
step 314
step 314
step 308
step 308
step 308
step 308
step 308
step 308
step 308
step 308
step 308
step 308
step 308
advance
feed 69 3
begin 3 tidy 62626262626262620202
begin 3 get 62626262626262620000 all
finish 311
step 313
step 313
step 313
step 313
step 313
step 313
begin 3 tidy 626262626262626201
step 316
step 317
finish 315
finish 318
begin 2 tidy 616161616161616102
begin 3 tidy 6161616161616161626262626262626200
finish 319
finish 316
step 320
step 317
step 317
step 317
step 317
finish 313
step 313
step 309
begin 2 tidy 626262626262626203
begin 1 tidy 62626262626262620000
step 320
step 320
step 320
step 320
begin 1 get 616161616161616100 all
begin 2 tidy 616161616161616162626262626262620101
step 324
step 322
step 313
step 324
step 324
step 324
step 324
begin 3 tidy 616161616161616100
step 323
finish 313
finish 321
begin 2 tidy 61616161616161610303
finish 322
step 325
step 325
step 325
step 325
step 325
step 325
begin 3 tidy 616161616161616162626262626262620303
feed 32 3
step 309
step 326
collect
begin 2 tidy 61616161616161610101
step 323
step 323
step 323
step 323
step 323
step 328
begin 2 tidy 6161616161616161626262626262626202
finish 328
begin 1 tidy 62626262626262620202
begin 1 tidy 626262626262626201
step 327
step 309
step 326
step 326
step 326
step 326
step 326
begin 2 get 626262626262626201 all
collect
step 327
step 327
step 327
step 327
step 327
step 331
begin 1 tidy 616161616161616102
step 309
step 309
step 309
step 309
step 309
begin 1 put 616161616161616162626262626262620101 0=-
step 333
step 330
step 332
step 332
finish 333
step 334
begin 3 tidy 6161616161616161626262626262626200
finish 330
step 331
step 331
step 331
step 331
step 331
step 332
step 332
step 332
step 332
finish 329
step 334
begin 1 tidy 626262626262626203
begin 3 tidy 62626262626262620000
begin 3 tidy 616161616161616102
step 337
begin 3 tidy 616161616161616162626262626262620101
step 334
step 334
step 334
step 334
step 334
step 335
step 334
step 339
step 338
step 334
step 338
step 338
step 338
step 338
step 338
step 334
step 334
step 334
begin 1 tidy 616161616161616100
step 339
step 339
step 339
step 339
step 339
step 339
step 340
step 340
step 340
step 340
step 340
step 340
step 340
step 335
step 335
step 335
step 335
step 335
step 335
step 335
finish 334
begin 1 tidy 61616161616161610303
finish 341
begin 3 tidy 616161616161616162626262626262620303
step 340
step 339
step 335
step 335
step 335
step 335
step 335
step 335
finish 335
step 337
step 337
step 337
step 337
step 337
step 336
begin 2 tidy 61616161616161610101
begin 1 put 6161616161616161626262626262626202 0=7d89b167
finish 339
feed 39 10
begin 2 tidy 6161616161616161626262626262626202
step 345
collect
step 340
step 340
step 340
step 340
step 340
step 344
finish 344
step 342
finish 336
step 342
step 342
step 342
step 342
step 342
step 342
begin 2 tidy 62626262626262620202
begin 1 tidy 626262626262626201
begin 3 tidy 616161616161616102
collect
finish 343
step 347
step 345
step 345
step 345
step 345
step 345
step 345
begin 3 tidy 6161616161616161626262626262626200
step 349
step 347
step 347
step 347
step 347
step 347
begin 3 tidy 626262626262626203
feed 10 3
step 348
step 350
step 350
step 350
step 350
step 350
step 350
step 342
begin 2 get 62626262626262620000 all
step 345
step 345
step 345
step 345
step 345
step 345
step 345
finish 342
finish 349
step 348
step 348
step 348
step 348
step 348
step 348
step 346
begin 1 tidy 62626262626262620000
begin 2 tidy 616161616161616162626262626262620101
finish 353
advance
step 352
begin 1 tidy 616161616161616100
finish 351
begin 2 tidy 61616161616161610303
step 348
step 348
step 348
step 348
step 348
step 348
begin 3 tidy 616161616161616162626262626262620303
step 346
step 346
step 346
step 346
step 346
finish 355
finish 352
step 345
feed 97 3
step 356
step 356
step 356
step 356
step 356
step 356
step 356
collect
step 345
step 345
step 345
step 345
step 345
step 345
step 354
step 354
step 354
step 354
step 354
step 354
step 354
step 354
step 356
collect
step 356
step 356
step 356
step 356
step 356
step 356
begin 2 tidy 61616161616161610101
begin 3 tidy 6161616161616161626262626262626202
begin 1 tidy 62626262626262620202
finish 356
feed 78 1
finish 354
begin 3 tidy 626262626262626201
step 360
begin 3 get 616161616161616162626262626262620101 all
step 361
step 361
step 361
step 361
step 361
step 361
step 358
step 358
step 358
step 358
step 358
step 358
step 358
finish 360
begin 1 tidy 616161616161616102
begin 3 tidy 6161616161616161626262626262626200
finish 361
step 359
begin 1 tidy 626262626262626203
step 363
finish 359
begin 2 remove 62626262626262620000
step 357
step 363
step 363
step 363
step 363
step 363
step 363
step 363
step 358
step 365
step 364
step 362
step 358
step 358
step 358
step 358
step 358
step 358
finish 358
begin 2 tidy 62626262626262620000
step 363
step 363
step 363
step 363
step 363
step 363
step 357
step 357
step 357
step 357
step 357
step 357
step 357
step 362
step 362
step 362
step 362
step 362
step 362
step 363
finish 365
step 357
step 357
step 357
step 357
step 357
begin 1 tidy 616161616161616162626262626262620101
begin 3 range 61616161616161610303 1 all
step 366
finish 368
step 367
finish 364
begin 1 tidy 616161616161616100
begin 2 tidy 61616161616161610303
step 362
finish 366
step 367
step 367
step 367
step 367
step 367
step 367
feed 52 3
step 369
step 362
step 362
step 362
step 362
step 362
begin 1 put 616161616161616162626262626262620101 0=7ba3
begin 2 tidy 616161616161616162626262626262620303
step 372
finish 363
step 369
step 369
step 369
step 369
step 369
step 369
begin 1 tidy 61616161616161610101
finish 369
step 370
finish 370
begin 1 remove 61616161616161610303
collect
begin 3 remove 626262626262626203
step 371
step 374
step 367
step 372
step 372
step 372
step 372
step 372
step 372
step 374
step 374
step 374
step 374
step 374
step 374
step 367
step 367
step 367
step 367
step 367
step 367
step 373
step 372
step 374
step 374
step 367
step 375
step 373
step 373
step 373
step 373
step 373
step 373
step 374
step 374
step 374
step 374
step 372
step 372
step 372
step 372
step 372
step 372
begin 1 remove 616161616161616162626262626262620303
step 375
step 367
step 367
step 367
step 367
step 367
step 373
step 372
step 376
collect
begin 3 put 616161616161616162626262626262620303 0=05ea
step 376
step 372
step 372
step 372
step 372
step 372
step 372
begin 3 tidy 61616161616161610303
step 371
step 378
step 373
step 373
step 373
step 373
step 373
collect
step 378
step 378
step 378
step 378
step 378
step 378
begin 2 tidy 626262626262626203
step 379
step 375
step 375
step 375
step 375
step 371
step 371
step 371
step 371
step 371
step 371
step 371
step 371
step 371
step 371
step 371
step 371
step 371
step 371
step 376
step 376
step 376
step 376
step 376
step 376
begin 3 tidy 616161616161616162626262626262620303
step 371
step 376
step 377
step 376
step 376
step 376
step 376
step 376
step 376
step 379
step 379
step 379
step 379
step 379
step 377
step 377
step 377
step 377
step 377
step 377
begin 2 remove 616161616161616100
collect
step 380
step 377
step 380
step 380
step 380
step 380
step 380
step 380
step 371
step 371
step 371
step 371
step 371
step 371
step 381
step 377
step 377
step 377
step 377
step 377
step 377
step 377
step 376
step 381
step 381
step 381
step 381
step 381
step 381
step 378
step 371
step 376
step 376
step 381
finish 371
begin 2 remove 62626262626262620000
step 382
finish 376
begin 2 remove 6161616161616161626262626262626200
step 378
step 378
step 378
step 378
step 378
begin 3 remove 61616161616161610101
step 383
step 381
collect
step 382
step 383
step 384
step 384
collect
step 381
step 381
step 381
step 381
step 380
begin 2 remove 626262626262626201
finish 382
step 383
step 383
step 383
step 383
step 383
step 383
step 384
step 384
step 384
step 384
step 384
step 384
begin 1 remove 616161616161616162626262626262620101
step 383
step 384
step 386
step 383
step 383
step 383
step 383
step 383
step 383
step 383
step 385
step 377
step 384
step 377
step 377
step 377
step 377
step 377
step 377
step 377
step 386
step 386
step 386
step 386
step 386
step 386
step 385
step 385
step 385
step 385
step 385
begin 2 remove 616161616161616102
step 384
step 384
step 384
step 384
step 387
begin 3 remove 62626262626262620202
step 383
step 386
step 377
step 388
step 386
step 386
step 386
step 386
step 386
step 386
step 388
step 383
feed 64 10
step 380
step 380
step 380
step 380
step 380
step 380
step 380
step 377
begin 1 remove 6161616161616161626262626262626202
step 386
step 387
step 380
step 380
step 380
step 380
step 380
step 380
step 380
begin 1 remove 61616161616161610303
step 388
step 388
step 388
step 388
step 387
step 387
step 387
step 387
step 387
step 387
begin 2 remove 626262626262626203
step 391
step 383
step 390
step 391
step 383
step 383
step 383
step 383
step 383
step 383
step 390
begin 3 remove 616161616161616162626262626262620303
step 386
advance
step 386
step 386
step 386
step 386
step 386
step 386
step 386
step 392
step 387
step 392
step 387
step 387
step 387
step 387
step 387
begin 1 remove 616161616161616162626262626262620303
step 389
step 386
step 386
finish 386
begin 3 tidy 616161616161616100
step 391
step 391
step 391
step 391
step 390
step 390
step 390
step 390
step 390
step 390
step 390
step 392
step 392
step 392
step 392
step 392
step 392
step 392
step 394
begin 2 tidy 62626262626262620000
step 393
step 394
step 394
step 394
step 394
step 394
step 394
feed 8 3
step 393
step 393
step 393
step 393
step 393
step 393
finish 394
step 395
step 390
step 392
begin 2 tidy 6161616161616161626262626262626200
step 396
step 389
step 389
step 389
step 389
step 389
step 389
step 389
step 393
step 389
step 395
step 395
step 395
step 395
step 395
begin 2 tidy 61616161616161610101
step 397
step 397
step 397
step 397
step 397
step 397
step 397
step 397
step 396
step 396
step 396
step 396
step 396
step 396
step 393
step 396
step 390
step 390
step 390
step 390
step 389
step 389
step 389
step 389
step 389
step 389
step 389
step 389
step 389
step 389
step 389
step 389
step 389
step 389
step 392
step 392
step 392
step 392
step 392
step 392
step 392
step 392
step 393
step 393
step 393
step 393
step 393
step 393
step 397
step 397
step 397
step 397
step 397
step 392
begin 2 tidy 62626262626262620202
begin 3 tidy 626262626262626201
step 389
step 389
finish 389
begin 3 tidy 616161616161616162626262626262620101
feed 59 10
step 399
advance
finish 392
begin 1 tidy 616161616161616102
finish 398
begin 1 tidy 62626262626262620202
step 396
step 396
step 396
step 396
step 396
step 396
finish 399
begin 2 get 616161616161616100 all
step 402
step 401
finish 393
step 401
step 401
step 401
step 401
step 401
step 401
begin 1 tidy 6161616161616161626262626262626202
step 404
step 401
step 396
step 402
step 402
step 402
step 402
step 402
collect
begin 3 tidy 616161616161616100
step 400
step 405
step 405
step 405
step 405
step 405
step 405
step 405
step 405
step 404
step 404
step 404
step 404
step 404
step 404
step 404
step 396
step 396
step 396
step 396
step 396
step 396
step 403
step 403
step 403
step 403
step 396
step 396
step 396
step 396
step 396
finish 396
begin 2 tidy 61616161616161610303
step 404
step 404
step 404
step 404
step 404
step 404
step 406
finish 404
begin 3 tidy 626262626262626203
finish 407
begin 2 tidy 616161616161616162626262626262620303
step 406
step 406
step 406
step 406
begin 1 remove 6161616161616161626262626262626202
collect
step 400
step 400
step 400
step 400
advance
step 403
step 403
step 403
step 403
step 403
step 403
step 403
step 403
step 403
begin 1 remove 6161616161616161626262626262626200
begin 3 range 6161616161616161626262626262626202 1 all
step 409
finish 408
begin 3 remove 61616161616161610303
step 412
finish 409
begin 1 remove 626262626262626201
step 410
step 412
step 412
step 412
step 412
begin 1 remove 61616161616161610101
step 414
step 414
step 411
step 411
step 411
step 401
step 405
step 405
step 401
step 405
step 405
step 405
step 405
begin 3 remove 626262626262626203
step 415
step 415
step 415
step 414
step 414
step 414
step 415
step 410
begin 1 tidy 616161616161616162626262626262620303
feed 107 10
step 415
step 415
step 415
begin 2 remove 62626262626262620202
step 401
step 401
step 401
step 401
step 416
step 410
step 411
step 411
step 413
finish 410
begin 3 tidy 61616161616161610303
begin 3 remove 616161616161616100
begin 2 remove 616161616161616162626262626262620101
step 413
step 416
step 416
step 416
step 416
begin 3 remove 616161616161616162626262626262620303
step 418
step 419
step 413
step 413
step 413
begin 3 remove 62626262626262620000
step 419
step 420
step 420
step 418
step 418
step 418
step 418
begin 1 remove 616161616161616102
step 423
step 421
step 422
step 423
finish 419
step 420
step 422
advance
begin 3 tidy 6161616161616161626262626262626202
step 421
step 422
step 424
step 422
step 422
step 423
step 423
step 423
step 422
step 417
step 421
step 422
feed 22 3
feed 106 10
step 420
step 420
step 420
finish 424
feed 105 1
step 417
begin 1 tidy 6161616161616161626262626262626200
step 417
step 417
step 417
finish 421
finish 423
begin 1 tidy 61616161616161610303
begin 1 tidy 626262626262626201
finish 426
begin 1 tidy 61616161616161610101
begin 2 tidy 626262626262626203
step 422
begin 2 tidy 62626262626262620202
advance
step 422
step 422
step 422
begin 1 tidy 616161616161616100
finish 427
begin 2 tidy 616161616161616162626262626262620101
advance
step 429
step 429
step 429
step 429
step 429
collect
begin 3 tidy 616161616161616162626262626262620303
step 432
step 430
finish 432
step 428
begin 3 get 6161616161616161626262626262626202 all
finish 428
begin 1 tidy 62626262626262620000
step 433
step 430
step 430
step 430
step 430
begin 3 tidy 616161616161616102
step 425
step 435
finish 433
begin 3 tidy 6161616161616161626262626262626202
step 434
step 434
step 434
step 434
finish 435
step 425
step 425
step 425
step 425
step 434
begin 2 tidy 6161616161616161626262626262626200
begin 3 tidy 61616161616161610303
begin 3 tidy 626262626262626201
finish 438
begin 2 tidy 61616161616161610101
step 440
step 431
step 431
step 431
step 431
step 431
step 437
step 439
begin 1 tidy 626262626262626203
step 439
step 439
step 439
step 439
step 441
begin 3 remove 62626262626262620202
finish 440
begin 3 range 61616161616161610101 3 all
collect
finish 441
begin 3 tidy 62626262626262620202
step 442
step 442
step 442
step 442
step 442
step 445
begin 1 tidy 616161616161616100
step 446
finish 443
begin 1 tidy 616161616161616162626262626262620101
step 445
step 445
step 445
step 445
begin 1 tidy 616161616161616162626262626262620303
step 447
finish 437
step 436
begin 2 tidy 62626262626262620000
finish 449
begin 2 tidy 616161616161616102
step 450
step 446
step 446
step 446
step 446
begin 2 remove 616161616161616162626262626262620303
step 444
step 444
step 444
step 444
step 448
step 444
step 447
step 447
step 447
step 447
step 451
begin 2 remove 626262626262626203
finish 448
begin 3 tidy 616161616161616162626262626262620303
finish 451
begin 3 tidy 626262626262626203
begin 1 tidy 616161616161616162626262626262620303
finish 454
step 452
step 452
step 436
step 436
step 436
step 436
begin 1 tidy 626262626262626203
step 453
collect
begin 2 put 616161616161616100 0=a912
step 450
step 450
step 450
step 450
finish 452
begin 2 put 62626262626262620000 0=-
begin 1 put 6161616161616161626262626262626200 0=083758
step 458
step 456
step 459
step 455
finish 453
step 458
begin 3 put 61616161616161610101 0=e34e27
step 458
step 458
step 458
step 459
step 456
begin 3 put 626262626262626201 0=b7bc20
finish 458
step 456
step 456
step 456
step 456
step 456
finish 457
step 455
step 455
step 455
step 455
step 455
step 460
begin 2 put 616161616161616162626262626262620101 0=-
finish 462
step 461
begin 3 put 616161616161616102 0=a7d9
begin 2 put 62626262626262620202 0=7426
begin 3 put 6161616161616161626262626262626202 0=05a3
collect
step 461
step 465
step 464
step 463
step 459
step 461
step 461
step 461
step 461
step 461
step 461
step 460
step 461
step 465
step 461
step 464
step 463
begin 2 put 61616161616161610303 0=9bbf64b3
step 466
step 461
step 461
step 461
step 461
step 459
step 459
step 459
step 459
step 459
step 459
step 459
step 459
step 460
step 460
step 460
step 460
step 460
step 460
step 460
step 460
step 460
step 460
step 460
step 460
step 460
step 460
step 460
step 460
step 460
step 460
step 463
step 463
step 463
step 463
step 463
step 463
step 463
step 463
step 465
step 465
step 465
step 465
step 465
step 465
step 465
step 465
step 465
step 465
step 465
step 465
step 465
step 465
step 465
step 465
step 463
step 463
step 464
step 464
step 464
step 464
step 464
step 464
step 464
step 464
advance
step 465
step 461
step 461
step 464
step 459
step 459
feed 90 3
feed 80 1
step 463
step 461
step 461
step 461
step 461
step 461
step 461
step 461
step 459
step 464
step 463
feed 44 3
step 465
step 464
step 466
step 466
step 466
step 466
step 466
step 466
step 466
feed 107 3
step 466
step 464
step 461
step 463
begin 1 put 626262626262626203 0=2dc161
step 466
step 463
step 459
step 459
step 463
step 463
step 464
step 459
step 467
step 466
step 465
step 465
step 465
step 466
step 466
step 467
step 467
step 467
step 467
step 467
step 467
step 467
step 467
step 466
step 463
collect
step 463
step 467
step 467
step 463
feed 29 1
step 463
step 466
step 463
step 466
step 466
step 465
step 467
step 465
step 459
step 459
step 459
step 459
step 459
step 459
step 459
step 459
step 467
step 467
step 465
step 466
step 464
step 464
step 464
step 464
step 464
step 464
step 464
step 467
step 464
step 463
step 464
begin 3 get 616161616161616162626262626262620101 all
step 468
step 468
step 468
step 467
step 468
step 468
step 467
step 467
step 467
step 467
step 467
step 467
step 467
step 467
step 468
step 468
step 467
step 463
step 467
step 466
step 466
step 466
step 466
step 466
step 466
step 466
step 466
begin 2 put 616161616161616162626262626262620303 0=a6
step 466
step 459
step 459
step 459
step 459
step 465
step 465
step 465
step 465
step 469
step 466
begin 2 remove 616161616161616162626262626262620101
finish 465
begin 3 remove 616161616161616102
step 463
step 468
step 459
step 463
step 463
step 463
step 463
step 463
step 463
step 463
step 463
step 463
step 469
step 469
step 469
step 469
step 469
step 469
step 469
step 468
step 468
step 463
step 463
begin 1 build range 616161616161616102 none any
step 472
step 472
step 472
step 468
step 468
step 468
step 468
step 468
step 468
step 468
step 468
step 468
step 468
step 468
step 468
step 468
step 468
step 468
begin 2 build prefix 61616161 any
step 471
feed 15 1
step 459
step 459
step 459
step 459
step 459
step 459
step 459
step 473
step 473
step 473
step 473
step 473
step 473
feed 21 1
step 473
step 473
step 473
step 469
step 470
step 471
step 471
step 471
step 471
step 471
step 471
step 471
step 469
step 469
step 469
step 469
step 469
step 469
step 469
step 469
step 469
step 469
step 473
step 473
step 473
step 473
step 473
step 473
step 473
step 473
step 469
step 472
step 473
step 471
step 459
step 472
step 472
step 472
step 472
step 471
step 459
step 471
step 471
step 471
step 471
step 471
step 471
step 471
step 471
step 471
begin 3 range 6161616161616161626262626262626200 1000 all
step 473
step 469
step 470
step 470
step 470
step 470
step 470
step 470
step 470
step 474
step 474
step 474
step 471
step 469
step 469
step 469
step 469
step 469
step 469
step 469
step 469
step 469
step 471
finish 471
begin 3 remove 62626262626262620202
step 470
step 473
feed 81 10
step 475
step 475
step 475
step 475
step 475
step 475
step 475
step 475
step 475
step 474
step 474
step 474
step 474
step 474
step 475
step 475
step 475
step 475
step 475
step 475
step 475
step 475
step 475
step 473
step 473
step 473
step 473
feed 6 10
step 470
step 470
step 470
step 470
step 470
step 470
step 470
step 470
step 470
step 473
step 475
step 473
step 473
step 473
step 472
step 472
step 472
step 472
step 472
step 472
step 470
feed 105 3
step 475
finish 475
step 473
step 473
step 473
step 473
step 473
step 473
begin 2 remove 6161616161616161626262626262626202
step 476
step 472
step 472
step 472
step 472
step 472
step 472
step 476
step 476
step 476
step 476
step 476
step 476
step 476
finish 469
finish 474
begin 2 remove 61616161616161610303
feed 0 10
step 472
feed 111 1
finish 472
collect
begin 1 tidy 616161616161616162626262626262620101
step 476
step 473
step 476
step 476
step 476
step 476
step 476
step 476
step 476
step 476
step 476
begin 3 tidy 616161616161616102
step 478
finish 470
finish 477
begin 3 tidy 62626262626262620202
begin 1 tidy 6161616161616161626262626262626202
step 476
step 476
step 476
step 476
step 476
step 476
step 476
step 476
step 476
step 480
step 473
step 473
apply 2
step 478
step 478
step 478
step 478
step 478
step 478
advance
step 479
advance
step 473
step 473
step 473
step 473
step 473
step 473
step 480
step 480
step 480
step 480
step 480
step 480
step 480
step 479
step 479
step 479
step 479
step 479
step 479
step 480
step 480
step 480
step 480
step 480
step 480
step 480
step 480
step 479
step 479
step 479
step 479
step 479
step 479
step 479
step 479
step 476
drop 2
begin 1 tidy 61616161616161610303
step 476
finish 476
finish 481
begin 2 tidy 616161616161616162626262626262620101
begin 1 tidy 616161616161616102
begin 3 tidy 62626262626262620202
finish 478
step 483
begin 2 tidy 6161616161616161626262626262626202
step 486
step 483
step 483
step 483
step 483
step 483
step 483
step 485
step 483
step 482
finish 473
begin 1 tidy 61616161616161610303
finish 482
begin 2 tidy 616161616161616162626262626262620101
step 483
step 483
step 483
step 483
step 483
step 483
step 483
step 483
step 488
step 486
step 486
step 486
step 486
step 486
step 486
step 483
step 483
step 483
step 483
step 483
step 483
step 483
begin 3 tidy 616161616161616102
step 485
step 485
step 485
step 485
step 485
step 485
step 485
step 488
step 488
step 488
step 488
step 488
step 488
step 488
finish 484
step 485
begin 2 tidy 62626262626262620202
step 486
finish 485
finish 489
finish 486
finish 490
step 488
step 488
step 488
step 488
step 488
step 488
step 488
step 488
finish 487
finish 488
alone tidy 6161616161616161626262626262626202
begin 2 tidy 61616161616161610303
finish 492
begin 3 tidy 616161616161616162626262626262620101
step 493
begin 2 tidy 616161616161616102
begin 3 tidy 62626262626262620202
begin 2 tidy 6161616161616161626262626262626202
step 496
advance
step 494
begin 2 tidy 61616161616161610303
step 493
step 493
step 493
step 493
step 493
step 493
step 494
step 494
step 494
step 494
step 494
step 494
finish 497
apply 0
finish 496
begin 1 remove 6161616161616161626262626262626200
begin 3 tidy 6161616161616161626262626262626200
step 493
step 499
begin 2 remove 61616161616161610101
step 494
step 493
step 493
step 493
step 493
step 493
step 493
step 493
step 493
step 495
finish 495
begin 2 tidy 61616161616161610101
finish 501
finish 494
step 493
step 493
step 493
step 493
step 493
step 493
step 493
step 500
step 499
step 499
step 499
step 499
step 499
step 499
step 499
step 498
finish 500
collect
begin 3 remove 626262626262626201
step 499
step 499
step 499
step 499
step 499
step 499
step 499
begin 3 tidy 626262626262626201
step 499
finish 503
step 499
step 499
step 499
step 499
step 499
begin 2 remove 616161616161616162626262626262620101
finish 504
begin 3 tidy 616161616161616162626262626262620101
finish 502
apply 0
step 498
step 498
step 498
step 498
step 498
step 498
step 498
begin 1 remove 616161616161616102
step 506
finish 506
begin 2 tidy 616161616161616102
advance
finish 498
apply 3
step 507
begin 1 remove 616161616161616162626262626262620303
step 505
finish 508
apply 0
begin 2 tidy 616161616161616162626262626262620303
finish 505
finish 509
finish 507
begin 3 tidy 616161616161616162626262626262620303
finish 510
begin 1 remove 616161616161616162626262626262620101
step 511
begin 3 tidy 616161616161616162626262626262620101
step 511
step 511
step 511
step 511
step 511
step 511
step 511
begin 1 remove 616161616161616102
step 512
begin 3 tidy 616161616161616102
begin 1 remove 62626262626262620202
begin 1 tidy 62626262626262620202
step 514
view 3 0 - 1
finish 514
begin 1 remove 6161616161616161626262626262626202
finish 512
step 513
step 511
begin 1 get 6161616161616161626262626262626200 all
step 516
step 515
step 511
step 515
step 515
step 515
step 515
step 515
step 515
step 515
step 516
step 516
step 516
step 516
step 516
step 516
step 516
finish 511
begin 1 get 62626262626262620000 all
finish 519
begin 2 tidy 61616161616161610303
apply 0
step 517
step 513
step 513
step 513
step 513
step 513
step 513
step 513
step 520
apply 0
step 520
step 520
step 520
step 520
step 520
step 520
step 518
step 516
step 515
step 517
step 517
step 517
step 517
step 517
step 517
step 517
step 520
step 520
step 520
step 520
step 520
step 520
step 513
begin 2 tidy 6161616161616161626262626262626202
step 521
step 518
step 517
step 518
step 518
finish 515
begin 1 remove 61616161616161610303
step 522
apply 0
finish 521
step 522
step 522
step 522
step 522
step 522
step 522
step 522
begin 2 tidy 61616161616161610303
finish 522
step 513
step 513
step 513
step 513
step 513
begin 2 remove 626262626262626203
begin 3 tidy 626262626262626203
step 525
finish 524
step 516
step 516
step 516
step 516
step 516
begin 2 remove 616161616161616162626262626262620303
begin 1 tidy 616161616161616162626262626262620303
step 523
step 527
finish 518
finish 517
step 526
step 527
step 527
step 527
step 527
step 527
step 527
begin 2 remove 626262626262626201
begin 1 tidy 626262626262626201
finish 527
begin 1 remove 616161616161616102
step 523
step 523
step 523
step 523
step 523
step 523
finish 525
step 529
begin 3 tidy 616161616161616102
step 529
step 529
step 529
step 529
step 529
step 529
step 529
finish 523
begin 2 remove 62626262626262620202
step 528
step 532
collect
step 532
step 532
step 532
step 532
step 532
step 532
step 532
finish 531
begin 3 tidy 62626262626262620202
step 532
finish 533
step 530
step 529
step 528
step 528
step 528
step 528
step 528
step 528
step 528
step 532
begin 2 remove 616161616161616162626262626262620303
step 528
step 532
step 532
step 532
step 532
begin 1 tidy 616161616161616162626262626262620303
step 529
step 529
step 529
step 529
step 529
step 526
step 526
step 526
step 526
step 526
step 526
step 526
begin 3 remove 61616161616161610303
step 530
step 530
step 530
step 530
step 530
step 530
step 530
finish 536
begin 3 tidy 61616161616161610303
step 526
step 526
advance
step 530
step 535
step 528
step 526
step 526
step 526
step 526
begin 1 remove 626262626262626203
collect
step 528
step 528
step 528
step 528
finish 538
step 537
step 530
begin 1 tidy 626262626262626203
begin 3 get 6161616161616161626262626262626200 all
step 540
step 540
step 540
step 540
step 540
step 540
step 535
step 535
step 535
step 535
step 535
step 535
collect
step 535
advance
step 537
step 537
step 537
step 537
step 537
step 537
step 539
step 535
step 535
step 535
step 535
step 535
step 530
step 530
step 530
step 530
step 537
begin 1 remove 616161616161616162626262626262620101
begin 2 tidy 616161616161616162626262626262620101
step 541
step 542
finish 534
begin 3 remove 6161616161616161626262626262626202
advance
step 541
step 541
step 541
step 541
step 541
step 541
step 541
step 540
step 540
finish 543
begin 2 get 6161616161616161626262626262626202 all
finish 540
begin 1 remove 626262626262626201
step 544
step 544
step 544
step 544
step 541
step 544
step 544
step 544
step 537
step 537
step 537
step 537
step 537
step 545
step 539
step 539
step 539
step 539
step 539
step 539
step 539
begin 2 tidy 6161616161616161626262626262626202
step 541
advance
advance
step 541
step 541
step 541
step 541
begin 1 remove 616161616161616100
step 546
step 545
step 545
step 545
step 545
step 545
step 545
step 545
step 542
step 542
step 542
step 542
step 542
step 542
step 539
step 542
finish 542
step 547
begin 2 tidy 616161616161616162626262626262620101
step 544
step 546
step 546
step 546
step 546
step 546
step 546
step 544
step 544
step 544
step 544
step 544
begin 2 remove 62626262626262620000
step 548
finish 549
begin 2 get 6161616161616161626262626262626200 all
step 546
collect
step 539
step 539
step 539
step 539
step 539
step 539
step 547
step 547
step 547
step 547
step 547
step 547
step 547
feed 49 3
step 539
step 539
step 539
step 539
step 539
step 539
step 550
step 550
step 550
step 550
step 550
step 550
view 3 0 - 1
finish 539
step 545
finish 547
begin 3 remove 6161616161616161626262626262626200
finish 550
step 545
begin 3 remove 61616161616161610101
step 546
step 546
step 546
step 546
step 546
step 546
step 548
step 548
step 548
step 548
step 548
step 548
begin 1 remove 626262626262626201
step 552
step 548
step 545
step 553
step 553
step 553
step 546
step 545
step 545
step 545
step 545
begin 2 remove 616161616161616162626262626262620101
collect
step 552
step 552
step 552
step 552
step 552
step 552
step 548
step 548
step 548
step 548
step 551
step 552
step 554
begin 3 remove 616161616161616102
step 552
step 553
step 546
begin 3 remove 62626262626262620202
step 554
step 552
step 555
step 551
step 553
step 553
step 553
step 553
step 551
step 551
step 551
step 551
step 551
step 551
step 554
step 554
step 554
step 554
step 554
step 554
step 552
step 552
step 552
finish 551
begin 2 remove 6161616161616161626262626262626202
step 555
step 555
step 555
step 555
step 555
step 555
drop 3
step 554
begin 1 remove 61616161616161610303
step 557
begin 1 remove 626262626262626203
step 557
step 557
step 557
step 557
step 557
step 557
finish 557
step 558
step 555
begin 3 remove 616161616161616162626262626262620303
step 559
finish 555
step 558
step 558
step 558
step 558
step 558
step 558
step 559
begin 3 tidy 616161616161616100
finish 559
finish 558
begin 2 tidy 62626262626262620000
advance
step 561
step 556
begin 1 tidy 6161616161616161626262626262626200
step 563
step 560
finish 560
begin 3 tidy 61616161616161610101
step 564
step 563
step 563
step 563
step 563
step 563
step 563
step 556
step 556
step 556
step 556
step 556
begin 1 range 6161616161616161626262626262626202 3 all
step 561
step 561
step 561
step 561
step 561
step 561
step 564
step 564
step 564
step 564
step 564
step 564
finish 562
step 563
finish 565
begin 3 tidy 626262626262626201
begin 1 tidy 616161616161616162626262626262620101
step 567
advance
step 563
step 563
step 563
step 563
step 563
step 563
step 566
step 561
step 567
step 567
step 567
step 567
step 567
step 567
step 554
step 564
step 566
step 566
step 566
step 566
step 566
begin 1 tidy 616161616161616102
step 554
finish 563
advance
step 564
begin 3 tidy 62626262626262620202
step 568
finish 568
step 564
step 561
begin 2 tidy 6161616161616161626262626262626202
step 569
step 554
step 564
step 564
step 564
step 564
begin 3 tidy 61616161616161610303
step 571
collect
feed 5 10
step 569
step 569
step 569
step 569
step 561
feed 94 10
step 554
begin 1 tidy 626262626262626203
step 571
step 571
step 571
step 571
begin 3 tidy 616161616161616162626262626262620303
step 567
step 570
step 554
step 561
step 561
step 561
step 561
finish 554
finish 567
step 573
finish 570
begin 2 remove 61616161616161610101
finish 573
begin 1 remove 616161616161616102
step 572
begin 2 remove 616161616161616162626262626262620101
begin 2 remove 626262626262626201
begin 2 remove 62626262626262620202
step 576
finish 575
begin 2 tidy 61616161616161610101
finish 576
begin 1 tidy 616161616161616102
finish 577
finish 578
step 580
feed 57 3
step 579
step 572
step 572
step 572
step 572
finish 574
finish 580
finish 579
begin 2 tidy 616161616161616162626262626262620101
step 581
begin 1 tidy 626262626262626201
begin 1 put 616161616161616162626262626262620101 0=6a
begin 2 tidy 62626262626262620202
begin 3 tidy 61616161616161610101
begin 3 tidy 616161616161616102
finish 585
step 586
finish 583
feed 29 3
step 584
step 582
step 584
step 584
step 584
step 584
step 584
step 586
step 586
step 586
step 586
step 586
step 581
step 581
step 581
step 581
step 581
begin 3 tidy 616161616161616162626262626262620101
step 582
step 582
step 582
step 582
step 582
begin 1 tidy 626262626262626201
begin 1 tidy 62626262626262620202
finish 587
step 589
finish 588
begin 1 put 616161616161616100 0=2fbb5c
begin 1 tidy 61616161616161610303
begin 1 put 62626262626262620000 0=-
step 591
begin 3 put 6161616161616161626262626262626200 0=d14a88de
step 590
begin 1 put 61616161616161610101 0=6f346e
finish 591
begin 1 put 626262626262626201 0=52a0c339
finish 589
finish 594
advance
advance
begin 1 put 616161616161616162626262626262620101 0=edca92
feed 87 3
step 590
step 590
step 590
step 590
step 590
step 590
begin 1 put 62626262626262620000 0=d4
step 597
finish 592
begin 2 put 616161616161616102 0=0c24
finish 597
begin 1 put 62626262626262620202 0=1cf83b
step 598
finish 599
begin 2 put 6161616161616161626262626262626202 0=f0
step 598
step 598
step 598
step 598
step 598
step 598
step 598
advance
advance
step 593
step 596
finish 595
begin 2 put 61616161616161610303 0=846a
finish 601
begin 2 put 626262626262626203 0=-
step 602
step 593
step 593
step 593
step 593
step 593
step 593
step 593
step 596
step 596
step 596
step 596
step 596
step 596
step 596
step 602
step 602
step 602
step 602
step 602
step 602
step 602
step 600
step 598
finish 602
begin 1 put 616161616161616162626262626262620303 0=-
collect
step 598
finish 598
finish 593
finish 600
begin 1 remove 616161616161616100
begin 2 remove 62626262626262620000
begin 2 remove 6161616161616161626262626262626200
step 596
finish 590
step 596
step 596
step 596
step 596
step 596
step 596
step 596
step 596
step 596
step 596
finish 604
begin 1 remove 61616161616161610101
begin 1 remove 626262626262626201
step 606
step 605
step 605
step 605
step 605
step 605
step 605
step 605
step 605
step 606
step 606
step 606
step 606
step 606
step 606
step 606
finish 606
begin 3 remove 616161616161616162626262626262620101
finish 605
advance
step 608
begin 3 get 626262626262626203 all
step 610
step 610
step 610
step 603
collect
finish 609
begin 1 remove 616161616161616102
step 603
step 603
step 603
step 603
step 603
step 603
step 603
step 608
step 608
step 608
step 608
step 608
step 608
step 608
step 607
step 607
step 607
step 607
step 607
step 607
step 607
step 607
finish 607
begin 2 remove 62626262626262620202
finish 610
step 603
finish 596
step 608
collect
step 608
collect
begin 2 build range 616161616161616162626262626262620101 none any
begin 3 remove 6161616161616161626262626262626202
step 613
step 603
step 603
step 603
step 603
step 603
step 603
step 603
step 603
step 603
step 612
step 614
step 613
step 611
step 608
step 608
step 608
step 608
step 608
step 608
step 608
step 614
step 614
step 614
step 614
step 614
step 614
step 614
step 613
step 613
step 613
step 613
step 613
step 613
step 612
step 612
step 612
step 612
step 612
step 612
step 612
step 614
step 614
step 614
step 614
step 614
step 614
step 614
step 614
step 614
step 611
step 611
step 611
step 611
step 611
step 611
step 611
step 614
collect
step 612
step 613
collect
step 608
step 613
step 613
step 603
advance
step 613
step 613
step 611
step 612
step 611
advance
step 614
step 612
step 608
finish 608
step 613
begin 1 remove 61616161616161610303
step 603
step 603
step 603
step 603
step 603
step 603
step 603
step 613
step 613
step 613
step 613
step 613
step 613
step 614
step 614
step 615
step 611
step 611
step 611
step 611
step 611
step 611
step 611
step 612
step 611
step 611
finish 611
step 603
begin 2 remove 626262626262626203
step 616
step 614
step 603
begin 1 remove 616161616161616162626262626262620303
step 615
step 615
step 615
step 615
step 615
step 615
step 615
step 612
step 612
step 612
step 612
step 612
step 612
step 613
step 613
step 613
step 613
step 617
step 614
step 617
step 617
step 617
step 617
step 617
step 617
step 617
step 613
step 613
step 613
step 613
step 613
step 613
step 614
step 614
step 614
step 614
step 614
step 614
step 614
step 614
step 612
step 613
step 617
step 614
finish 614
begin 3 get 616161616161616162626262626262620303 all
step 615
step 615
step 612
finish 612
feed 36 1
begin 3 tidy 616161616161616100
step 616
step 616
step 616
step 616
step 616
step 616
step 616
step 615
step 615
step 615
step 615
step 615
step 615
step 613
step 617
step 615
step 619
collect
step 619
step 619
step 619
step 619
step 619
step 619
step 613
step 613
step 613
step 613
step 613
step 613
step 615
finish 615
step 617
step 617
step 617
step 617
step 617
step 617
step 619
step 619
step 619
step 619
step 619
step 619
begin 3 tidy 62626262626262620000
finish 617
begin 1 tidy 6161616161616161626262626262626200
begin 1 tidy 61616161616161610101
step 620
step 620
step 620
step 620
step 620
step 620
step 620
step 620
step 618
step 618
step 618
step 618
step 622
step 622
step 622
step 622
step 622
step 622
step 622
step 618
step 618
step 616
step 621
finish 616
begin 1 tidy 626262626262626201
step 621
step 621
step 621
step 621
step 621
step 621
step 620
step 623
step 621
step 623
step 623
step 623
step 623
step 623
step 623
step 623
step 620
step 620
step 620
step 620
step 620
step 620
step 620
step 620
step 620
step 620
step 620
step 620
step 621
step 621
step 621
step 621
step 621
step 621
step 621
finish 620
begin 2 tidy 616161616161616162626262626262620101
step 622
step 624
finish 613
begin 1 put 626262626262626201 0=-
step 622
step 622
step 622
step 622
step 622
step 625
finish 624
finish 621
step 625
begin 2 tidy 616161616161616102
collect
step 623
begin 2 tidy 62626262626262620202
step 623
begin 2 tidy 6161616161616161626262626262626202
step 627
step 626
step 618
step 618
step 618
step 618
step 618
step 625
step 625
step 625
step 625
step 625
step 625
step 625
step 627
begin 3 tidy 61616161616161610303
step 628
step 623
step 618
step 618
finish 625
step 627
step 627
step 627
step 627
step 627
step 627
step 623
step 623
step 623
step 623
step 623
step 623
step 626
step 626
step 626
step 626
step 626
step 626
begin 3 tidy 626262626262626203
begin 1 tidy 616161616161616162626262626262620303
step 630
finish 628
begin 3 remove 61616161616161610303
step 632
finish 618
step 626
begin 2 tidy 61616161616161610303
step 630
step 630
step 630
step 630
step 630
step 630
begin 3 remove 626262626262626203
apply 4
finish 633
begin 2 tidy 626262626262626203
finish 634
finish 632
begin 1 remove 616161616161616162626262626262620303
step 636
advance
begin 1 tidy 616161616161616162626262626262620303
step 635
step 636
step 636
step 636
step 636
step 636
step 636
step 636
apply 4
step 636
step 629
step 637
finish 631
step 629
step 629
step 629
step 629
step 629
step 629
step 626
step 626
step 626
step 626
step 626
begin 1 remove 6161616161616161626262626262626202
step 637
step 637
step 637
step 637
step 637
step 637
step 636
step 636
step 636
step 636
step 636
step 636
finish 635
step 636
begin 1 remove 6161616161616161626262626262626200
begin 2 remove 616161616161616162626262626262620101
step 629
step 637
step 637
step 637
step 637
step 637
step 637
step 637
finish 640
finish 629
step 639
begin 1 remove 616161616161616102
step 641
finish 637
finish 639
step 641
step 641
step 641
step 641
step 641
step 641
step 641
finish 638
finish 636
begin 2 remove 62626262626262620000
finish 636
begin 2 remove 616161616161616162626262626262620303
step 642
begin 1 remove 62626262626262620202
step 642
drop 4
feed 49 1
begin 3 remove 616161616161616100
step 642
step 642
step 642
step 642
step 642
step 642
finish 643
begin 1 remove 626262626262626201
step 641
finish 645
step 646
step 646
step 644
step 644
step 644
begin 3 remove 61616161616161610101
step 641
step 644
step 644
begin 2 remove 626262626262626203
step 648
begin 1 remove 61616161616161610303
step 646
step 646
step 646
step 646
step 646
step 646
step 641
step 641
step 641
step 649
step 644
step 649
begin 1 tidy 6161616161616161626262626262626202
step 648
feed 68 10
step 644
step 647
step 646
step 647
step 648
step 650
step 650
step 650
step 650
step 650
step 650
step 650
step 648
step 644
step 648
step 648
step 646
finish 646
step 647
step 647
step 647
step 647
step 647
step 647
step 647
step 649
step 649
step 649
step 649
step 649
step 649
step 649
step 649
step 644
step 648
begin 2 tidy 6161616161616161626262626262626200
step 650
step 649
step 649
step 649
step 644
step 644
step 644
step 644
begin 1 tidy 616161616161616162626262626262620101
begin 3 tidy 616161616161616102
advance
step 648
collect
step 650
step 650
step 650
step 650
step 650
step 650
step 648
step 648
step 648
step 648
begin 3 tidy 62626262626262620000
step 651
step 651
step 651
step 651
step 651
step 651
step 651
step 652
step 650
step 650
step 650
step 650
step 650
step 651
step 647
step 651
step 651
step 651
step 651
begin 1 tidy 616161616161616162626262626262620303
step 655
step 647
step 654
step 655
step 655
step 655
step 655
step 655
step 655
step 654
step 654
step 654
step 654
step 654
finish 650
begin 1 tidy 62626262626262620202
step 653
step 655
finish 653
step 655
finish 647
step 652
step 652
step 652
step 652
begin 3 tidy 616161616161616100
finish 647
begin 1 tidy 626262626262626201
step 655
step 655
step 655
step 655
begin 1 tidy 61616161616161610101
step 656
begin 2 tidy 626262626262626203
step 656
step 656
step 656
step 656
begin 2 tidy 61616161616161610303
begin 1 tidy 6161616161616161626262626262626202
step 658
feed 8 10
feed 88 1
step 662
step 661
finish 662
begin 2 range 62626262626262620202 10 all
step 661
step 661
step 661
step 661
step 663
step 663
step 663
step 663
step 659
step 657
begin 2 tidy 6161616161616161626262626262626200
finish 658
begin 3 tidy 616161616161616162626262626262620101
finish 660
begin 2 tidy 616161616161616102
step 659
step 659
step 659
step 659
step 666
step 666
step 666
step 666
step 666
begin 3 tidy 62626262626262620000
begin 2 tidy 616161616161616162626262626262620303
step 664
advance
step 668
step 657
step 657
step 657
step 657
step 668
step 668
step 668
step 668
begin 3 tidy 62626262626262620202
begin 2 tidy 616161616161616100
finish 669
begin 3 tidy 626262626262626201
finish 671
finish 664
begin 2 tidy 61616161616161610101
begin 1 tidy 626262626262626203
step 673
step 672
finish 670
begin 1 tidy 61616161616161610303
step 667
step 667
step 667
step 667
step 667
begin 2 tidy 6161616161616161626262626262626202
finish 663
step 674
step 673
step 673
step 673
step 673
finish 665
begin 1 tidy 6161616161616161626262626262626200
feed 128 10
finish 675
begin 1 tidy 616161616161616162626262626262620101
begin 2 tidy 616161616161616102
step 676
begin 2 tidy 62626262626262620000
step 679
step 676
step 676
step 676
step 676
begin 1 tidy 616161616161616162626262626262620303
finish 672
begin 1 tidy 62626262626262620202
step 678
finish 680
begin 2 tidy 616161616161616100
step 677
feed 101 3
finish 679
begin 2 tidy 626262626262626201
step 677
step 677
step 677
step 677
step 681
begin 3 tidy 61616161616161610101
step 682
step 684
finish 683
finish 684
begin 2 tidy 626262626262626203
begin 1 tidy 61616161616161610303
finish 674
begin 2 tidy 6161616161616161626262626262626202
step 681
step 681
step 681
step 681
begin 1 tidy 6161616161616161626262626262626200
advance
step 685
step 687
step 685
step 685
step 685
step 685
finish 686
begin 3 tidy 616161616161616162626262626262620101
begin 2 tidy 616161616161616102
step 682
step 682
step 682
step 682
begin 3 tidy 62626262626262620000
finish 691
begin 1 tidy 616161616161616162626262626262620303
finish 690
step 692
finish 689
begin 3 tidy 626262626262626203
begin 2 tidy 62626262626262620202
finish 693
step 694
step 692
step 692
step 692
step 692
step 694
step 694
step 694
step 694
begin 2 remove 6161616161616161626262626262626200
step 687
step 687
step 687
step 687
step 695
step 695
step 688
advance
step 678
step 678
step 678
step 678
begin 1 tidy 616161616161616100
step 688
step 688
step 688
step 688
begin 2 tidy 626262626262626201
step 696
begin 2 tidy 61616161616161610101
begin 3 tidy 626262626262626203
begin 1 tidy 61616161616161610303
step 697
advance
step 698
feed 84 10
step 697
step 697
step 697
step 697
step 698
step 698
step 698
step 698
feed 32 3
begin 1 remove 626262626262626203
finish 695
begin 2 tidy 626262626262626203
finish 699
begin 1 remove 61616161616161610303
begin 2 tidy 61616161616161610303
step 696
step 696
step 696
step 696
step 700
step 700
step 700
step 700
step 700
step 703
begin 2 remove 6161616161616161626262626262626202
begin 1 tidy 6161616161616161626262626262626202
finish 705
begin 1 remove 616161616161616162626262626262620303
finish 707
begin 3 tidy 616161616161616162626262626262620303
step 703
step 702
step 704
step 708
step 708
step 708
step 708
step 708
begin 1 remove 616161616161616100
finish 703
begin 3 tidy 616161616161616100
step 704
step 704
step 704
step 704
step 709
begin 3 remove 62626262626262620000
step 709
step 702
step 702
step 702
step 702
step 711
begin 1 tidy 62626262626262620000
step 706
step 712
step 701
step 711
step 710
step 710
step 710
step 710
step 710
step 712
step 712
step 712
step 712
advance
step 709
step 709
step 709
step 706
step 706
step 706
step 706
begin 2 remove 6161616161616161626262626262626200
step 701
step 711
begin 3 tidy 6161616161616161626262626262626200
step 714
step 711
step 711
begin 1 get 61616161616161610101 all
begin 3 remove 61616161616161610101
step 715
step 715
step 715
step 715
step 715
step 713
begin 2 tidy 61616161616161610101
step 713
step 711
step 717
step 717
step 717
step 717
step 717
begin 2 remove 626262626262626201
step 716
step 713
step 714
step 714
step 714
step 714
begin 3 tidy 626262626262626201
step 713
finish 701
finish 719
step 713
finish 713
finish 718
finish 716
step 711
feed 53 10
begin 1 remove 616161616161616162626262626262620101
step 711
step 711
step 711
begin 3 tidy 616161616161616162626262626262620101
begin 1 remove 616161616161616102
step 720
begin 3 tidy 616161616161616102
begin 1 remove 62626262626262620202
begin 2 tidy 62626262626262620202
step 721
step 724
advance
step 720
step 721
step 721
step 721
step 721
step 724
collect
step 724
begin 2 remove 6161616161616161626262626262626202
step 720
step 720
step 720
step 725
begin 3 tidy 6161616161616161626262626262626202
step 723
finish 727
begin 3 remove 61616161616161610303
feed 147 3
step 724
step 723
step 723
step 723
step 723
step 726
step 724
step 724
step 724
begin 2 tidy 61616161616161610303
begin 2 remove 626262626262626203
collect
step 729
finish 726
begin 3 tidy 626262626262626203
finish 725
step 728
begin 1 remove 616161616161616162626262626262620303
finish 722
step 729
step 729
step 729
step 729
step 728
step 732
begin 1 tidy 616161616161616162626262626262620303
step 731
step 732
begin 3 remove 616161616161616162626262626262620303
step 732
step 730
finish 728
begin 1 remove 626262626262626203
step 730
step 733
step 732
step 735
step 730
step 730
step 730
begin 1 tidy 616161616161616162626262626262620303
finish 736
step 733
step 733
step 733
step 733
step 734
step 735
begin 3 tidy 626262626262626203
begin 1 tidy 616161616161616162626262626262620303
step 737
step 737
step 737
step 737
step 737
begin 2 tidy 626262626262626203
step 732
step 739
step 735
step 735
step 735
step 731
step 731
step 731
step 731
step 739
step 739
step 739
step 739
begin 2 put 62626262626262620202 0=-
begin 3 put 6161616161616161626262626262626202 0=8b7be3
finish 732
begin 3 put 61616161616161610303 0=950089
step 742
finish 738
step 740
begin 2 put 626262626262626203 0=-
begin 1 put 616161616161616162626262626262620303 0=f1
step 741
step 744
collect
step 742
step 741
feed 59 3
collect
step 743
finish 742
step 740
begin 1 remove 626262626262626203
step 741
step 741
step 740
step 740
step 740
step 740
step 744
finish 740
step 745
begin 3 remove 616161616161616162626262626262620303
finish 734
begin 1 tidy 626262626262626203
advance
step 741
step 741
step 741
step 741
step 741
step 741
step 741
step 746
step 747
step 747
step 747
step 747
step 747
step 747
step 747
begin 3 tidy 616161616161616162626262626262620303
step 741
step 743
step 746
step 746
step 748
step 745
step 748
step 748
step 748
step 748
step 748
step 743
begin 3 tidy 626262626262626203
step 746
step 743
step 743
step 745
step 746
step 741
advance
step 749
finish 741
step 746
step 746
step 746
step 746
step 746
step 746
step 746
begin 3 tidy 626262626262626203
step 744
step 744
step 744
step 744
step 744
step 744
step 744
step 743
step 743
step 743
step 743
step 743
step 743
step 743
step 744
step 745
step 746
finish 743
finish 746
begin 3 tidy 616161616161616162626262626262620303
collect
begin 2 tidy 626262626262626203
step 745
step 745
step 745
step 745
step 745
step 745
step 745
step 749
step 749
step 749
step 749
step 749
step 749
step 749
finish 749
feed 104 3
begin 3 tidy 616161616161616162626262626262620303
finish 753
feed 24 10
finish 744
step 750
step 751
step 751
step 751
step 751
step 751
step 751
step 751
begin 1 tidy 626262626262626203
begin 3 tidy 616161616161616162626262626262620303
step 754
step 755
step 752
step 755
step 755
step 755
step 755
step 755
step 755
step 751
step 745
finish 755
begin 1 put 616161616161616100 0=37
step 754
step 754
step 754
step 754
step 754
step 754
step 754
step 745
step 752
step 752
step 752
step 752
step 752
step 752
step 752
step 745
step 745
step 745
step 745
step 745
step 745
step 756
step 754
step 750
step 750
step 750
step 750
step 750
step 750
step 750
step 754
step 754
step 754
step 754
step 754
step 754
begin 1 put 62626262626262620000 0=d3821b86
step 756
step 756
step 756
step 756
step 756
step 756
step 756
step 756
step 750
step 750
step 750
step 750
step 750
step 750
step 750
step 756
step 752
step 745
begin 2 put 6161616161616161626262626262626200 0=a350
step 745
finish 745
begin 1 put 61616161616161610101 0=1c
step 759
step 752
step 752
step 752
step 752
step 752
step 758
collect
begin 1 put 626262626262626201 0=94f196e7
feed 157 3
step 751
step 751
step 751
step 751
step 751
step 751
step 751
step 758
step 758
step 758
step 758
step 758
step 758
step 758
step 759
step 759
step 759
step 759
step 759
step 759
step 759
step 759
finish 756
step 759
begin 3 put 616161616161616162626262626262620101 0=4469f78c
step 757
step 761
step 758
step 760
step 761
step 761
step 761
step 761
step 761
step 761
step 761
collect
step 761
step 758
advance
step 751
step 760
step 760
step 760
step 760
step 760
step 760
step 760
step 761
feed 104 3
step 760
collect
finish 759
step 758
step 758
step 758
step 758
step 758
step 758
step 758
step 758
step 758
step 758
step 761
step 761
step 761
step 761
step 761
step 761
step 761
step 761
step 761
step 761
begin 2 put 62626262626262620000 0=bc3a
step 758
step 762
advance
step 758
step 758
step 758
step 758
step 758
step 758
step 758
step 761
step 751
step 751
step 751
step 751
step 751
step 751
step 761
begin 3 put 616161616161616102 0=3b5ebb99
step 760
step 763
step 762
step 762
step 762
step 762
step 762
step 762
step 762
step 758
step 757
step 757
step 757
step 757
step 757
step 757
step 757
step 758
step 760
step 760
step 760
step 760
step 760
step 760
begin 1 put 62626262626262620202 0=-
step 761
step 763
step 763
step 763
step 763
step 763
step 763
step 763
step 757
step 761
step 761
step 761
step 761
step 761
step 761
step 761
step 761
step 763
step 763
step 763
step 763
step 763
step 763
step 763
step 763
step 763
step 763
step 763
step 762
step 761
step 764
step 763
step 764
step 764
step 764
step 764
step 764
step 764
step 764
advance
step 764
step 764
step 762
step 761
step 757
begin 2 put 6161616161616161626262626262626202 0=b0e5c5
step 765
step 757
feed 124 1
step 757
step 757
step 765
step 765
step 765
step 765
step 765
step 765
step 765
feed 109 1
step 760
step 765
step 760
step 764
step 757
step 765
begin 1 put 61616161616161610303 0=e6
step 766
step 757
step 757
step 766
step 766
step 766
step 766
step 766
step 766
step 766
step 764
step 764
step 764
step 764
step 764
step 764
step 763
step 765
step 765
step 765
step 765
step 765
step 765
step 765
step 765
step 765
step 765
step 764
step 766
finish 764
feed 87 3
step 762
step 762
step 762
step 762
step 762
step 762
step 762
step 762
step 757
begin 2 put 626262626262626203 0=8414
step 767
step 765
step 765
step 765
step 765
step 765
step 765
step 765
step 765
step 765
step 765
begin 3 put 616161616161616162626262626262620303 0=777681
step 767
step 767
step 767
step 767
step 767
step 767
step 767
step 762
step 766
advance
step 766
step 766
step 766
step 766
step 766
step 766
step 766
step 766
step 766
step 766
step 757
step 768
step 757
step 768
step 768
step 768
step 768
step 768
step 768
step 768
step 765
step 766
step 765
begin 1 remove 6161616161616161626262626262626202
begin 1 remove 616161616161616102
step 757
step 767
step 769
step 768
step 767
step 769
step 769
step 769
step 769
step 769
step 769
step 769
step 757
step 762
step 768
step 768
step 768
step 768
step 768
step 768
step 768
step 768
step 768
step 768
begin 3 remove 616161616161616102
advance
finish 769
begin 1 remove 62626262626262620202
step 768
step 768
step 770
step 771
step 767
step 772
step 767
step 767
step 767
step 767
step 767
step 767
step 767
step 767
advance
step 767
step 757
step 768
step 768
step 768
step 768
step 768
step 768
step 768
step 768
step 767
step 757
step 768
begin 1 remove 626262626262626201
begin 3 remove 616161616161616162626262626262620101
step 774
step 770
step 770
step 770
step 770
step 770
step 770
step 770
step 774
step 774
step 774
step 774
step 774
step 774
step 774
step 774
step 772
step 772
step 772
step 772
step 772
step 772
step 772
step 773
step 770
step 772
step 774
step 774
step 774
step 774
step 774
step 774
step 774
step 774
step 774
step 774
collect
step 757
step 757
step 757
step 757
step 757
step 757
step 757
step 757
step 773
step 773
step 773
step 773
step 773
step 773
step 773
step 770
step 771
step 771
step 771
step 771
step 771
step 771
step 771
step 774
step 770
step 770
step 770
step 770
step 770
step 770
step 770
step 770
step 770
step 772
feed 27 3
step 772
step 772
step 773
step 772
step 757
step 771
step 771
step 773
step 772
step 772
step 772
step 770
step 773
step 773
step 772
step 770
finish 770
step 774
begin 1 tidy 6161616161616161626262626262626202
step 757
begin 1 tidy 616161616161616102
step 772
step 771
step 771
step 771
step 771
step 771
step 771
step 771
step 771
feed 149 1
begin 1 tidy 62626262626262620202
step 775
step 777
step 774
step 774
step 774
step 774
step 774
step 774
step 774
step 773
step 774
step 777
step 777
step 777
step 777
step 777
step 777
step 777
step 772
step 772
step 772
step 772
step 772
step 772
step 772
step 772
step 775
step 775
step 775
step 775
step 775
step 775
step 773
step 777
step 775
step 774
finish 774
begin 2 get 61616161616161610101 all
step 773
step 776
step 776
step 776
step 776
step 776
step 776
step 776
collect
step 772
step 773
step 775
step 775
step 775
step 775
step 775
step 775
step 775
step 775
step 775
step 773
step 773
advance
step 778
step 778
step 778
step 778
step 776
finish 772
step 775
begin 2 tidy 626262626262626201
step 773
step 779
step 778
step 778
step 776
step 776
step 776
step 776
step 776
step 776
step 776
begin 3 tidy 616161616161616162626262626262620101
step 779
step 779
step 779
step 779
step 779
step 779
step 779
step 779
step 777
step 777
step 777
step 777
step 777
step 777
step 777
begin 1 tidy 6161616161616161626262626262626202
step 781
step 775
step 775
step 775
step 775
step 775
step 775
step 773
step 773
step 773
step 773
step 773
step 773
step 773
begin 2 tidy 616161616161616102
feed 79 3
step 778
step 773
step 779
step 779
step 779
step 779
step 779
step 779
step 781
step 781
step 781
step 781
step 781
step 781
step 778
step 778
step 778
step 778
step 778
step 778
step 778
step 778
step 782
step 773
finish 773
step 780
step 782
step 782
step 782
step 782
step 782
step 782
finish 780
step 781
begin 2 tidy 62626262626262620202
begin 2 tidy 626262626262626201
begin 3 tidy 616161616161616162626262626262620101
begin 2 tidy 6161616161616161626262626262626202
collect
feed 8 3
step 782
collect
finish 785
begin 1 get 61616161616161610101 all
finish 782
finish 783
begin 3 tidy 616161616161616102
step 787
advance
begin 1 tidy 62626262626262620202
step 786
step 787
step 784
step 786
step 786
step 786
step 786
step 786
step 786
step 787
step 788
step 786
step 787
step 787
step 787
step 787
step 787
step 787
step 787
step 787
step 787
step 787
step 787
step 787
begin 2 tidy 626262626262626201
step 789
finish 790
finish 781
begin 2 tidy 616161616161616162626262626262620101
begin 3 tidy 6161616161616161626262626262626202
step 791
step 788
step 788
step 788
step 788
step 788
step 788
step 786
step 786
step 786
step 786
step 786
step 786
step 786
step 786
step 786
step 788
finish 786
finish 791
step 784
step 784
step 784
step 784
step 784
step 784
step 784
step 792
begin 2 tidy 616161616161616102
finish 788
begin 1 tidy 62626262626262620202
step 793
step 792
step 792
step 792
step 792
step 792
step 792
begin 2 tidy 626262626262626201
step 784
step 784
step 784
step 784
step 784
step 784
step 784
step 794
begin 3 tidy 616161616161616162626262626262620101
step 789
step 789
step 789
step 789
step 789
step 789
step 789
feed 110 1
finish 789
step 792
begin 2 remove 616161616161616162626262626262620101
step 795
step 794
step 794
step 794
step 794
step 794
step 794
step 794
step 794
step 794
step 794
step 794
step 794
step 794
step 794
step 793
step 793
step 793
step 793
step 793
step 793
begin 1 remove 616161616161616102
step 797
finish 795
begin 3 remove 62626262626262620202
step 797
step 797
step 797
step 797
step 797
step 797
step 797
finish 793
finish 796
step 797
begin 1 remove 6161616161616161626262626262626202
collect
finish 799
step 798
begin 3 remove 61616161616161610303
step 800
step 800
step 800
step 800
step 800
step 800
step 800
step 800
step 798
step 798
step 798
step 798
step 798
step 798
step 798
begin 3 tidy 616161616161616162626262626262620101
step 801
finish 801
begin 2 tidy 616161616161616102
feed 2 1
step 792
step 792
step 792
step 792
step 792
step 792
step 792
step 792
step 800
step 800
step 800
step 800
step 800
step 800
step 800
step 800
step 800
step 797
step 797
step 797
step 797
step 797
step 797
step 797
step 797
feed 101 10
step 800
step 800
step 800
step 800
step 800
step 800
step 800
begin 1 tidy 62626262626262620202
step 802
collect
step 804
step 804
step 804
step 804
step 804
step 804
step 804
step 804
step 798
advance
finish 802
finish 804
finish 798
begin 2 tidy 6161616161616161626262626262626202
finish 797
begin 3 tidy 61616161616161610303
begin 1 remove 616161616161616100
begin 3 remove 62626262626262620000
feed 121 3
step 806
step 807
finish 792
step 805
finish 806
finish 805
begin 2 remove 6161616161616161626262626262626200
begin 3 get 6161616161616161626262626262626202 all
step 809
step 803
step 809
step 809
step 809
step 809
step 809
step 809
step 809
begin 3 remove 61616161616161610101
step 811
step 807
step 807
step 807
step 807
step 807
step 807
step 807
finish 808
begin 1 remove 626262626262626201
step 812
step 810
step 810
step 811
step 811
step 811
step 811
step 811
step 811
step 811
step 807
step 803
step 803
step 803
step 803
step 803
step 803
finish 810
step 807
step 812
step 812
step 812
step 812
step 812
step 812
step 812
step 807
step 807
step 807
step 807
step 807
step 807
step 807
step 811
feed 39 1
begin 2 remove 616161616161616162626262626262620101
step 811
step 812
step 811
step 812
step 813
step 813
step 813
step 813
step 813
step 813
step 813
step 813
step 809
step 807
step 812
step 812
step 812
step 812
step 811
begin 1 remove 616161616161616102
step 811
step 813
step 813
step 807
finish 807
step 813
step 813
step 813
step 813
step 813
step 813
step 813
step 813
step 803
step 811
begin 1 remove 62626262626262620202
step 814
step 814
step 814
step 814
step 814
step 814
step 814
step 814
step 803
step 803
step 803
step 803
step 803
step 803
begin 1 remove 6161616161616161626262626262626202
advance
step 815
step 815
step 815
step 815
step 815
step 815
step 815
step 815
step 815
feed 125 3
step 816
step 816
step 816
step 816
step 816
step 816
step 816
step 816
step 809
step 811
step 811
step 811
step 811
step 811
step 811
feed 59 3
step 811
finish 811
step 809
step 809
step 809
step 809
step 809
step 809
step 809
begin 1 remove 61616161616161610303
step 813
step 813
step 813
step 813
step 813
step 813
step 816
step 816
step 816
step 816
step 816
step 816
step 816
finish 816
begin 3 remove 626262626262626203
finish 815
begin 1 remove 616161616161616162626262626262620303
step 814
begin 3 tidy 616161616161616100
step 819
finish 820
begin 3 tidy 62626262626262620000
step 818
finish 818
finish 821
step 819
step 819
step 819
step 819
step 819
step 819
finish 819
step 817
begin 2 tidy 6161616161616161626262626262626200
step 809
begin 3 tidy 61616161616161610101
begin 1 tidy 626262626262626201
step 822
step 824
step 817
step 817
step 817
step 817
step 817
step 817
step 823
step 823
step 823
step 823
step 823
step 823
step 823
step 822
step 822
step 822
step 822
step 822
step 822
finish 809
step 814
step 823
step 823
step 823
step 823
step 823
step 823
begin 3 tidy 616161616161616162626262626262620101
begin 1 tidy 616161616161616102
step 824
step 824
step 824
step 824
step 824
begin 3 tidy 62626262626262620202
finish 814
finish 817
feed 49 10
begin 1 tidy 6161616161616161626262626262626202
step 828
step 826
begin 2 tidy 61616161616161610303
finish 822
begin 1 tidy 626262626262626203
finish 829
step 826
step 826
step 826
step 826
begin 3 tidy 616161616161616162626262626262620303
begin 2 remove 6161616161616161626262626262626202
step 825
finish 825
begin 2 remove 616161616161616162626262626262620303
step 828
step 828
step 828
step 828
step 833
begin 2 remove 62626262626262620202
step 832
step 832
finish 832
feed 131 1
step 834
step 834
begin 2 remove 61616161616161610303
step 835
step 834
step 834
step 834
begin 2 remove 626262626262626203
step 827
step 831
step 835
finish 835
finish 831
begin 2 remove 616161616161616102
begin 3 tidy 6161616161616161626262626262626202
step 836
feed 138 3
finish 836
begin 2 tidy 616161616161616162626262626262620303
finish 833
begin 2 tidy 62626262626262620202
step 830
step 837
step 827
step 827
step 827
step 827
step 839
begin 1 tidy 61616161616161610303
step 838
finish 840
finish 830
step 841
begin 1 range 616161616161616162626262626262620303 1000 all
step 842
step 842
begin 3 tidy 626262626262626203
step 837
advance
step 841
step 841
step 841
step 841
step 838
step 838
step 838
step 838
step 842
step 842
step 842
begin 2 tidy 616161616161616102
step 844
begin 2 tidy 6161616161616161626262626262626202
begin 3 build prefix 61616161 atleast 0 108
step 845
step 846
step 846
step 846
step 846
step 846
step 837
step 837
step 837
begin 3 tidy 616161616161616162626262626262620303
step 843
step 847
step 844
step 844
step 844
step 844
begin 2 tidy 62626262626262620202
finish 847
feed 69 3
step 848
step 846
step 843
step 843
step 843
step 843
begin 3 tidy 61616161616161610303
finish 839
step 848
step 848
step 848
step 848
begin 3 tidy 626262626262626203
begin 3 tidy 616161616161616102
finish 851
step 845
step 845
step 845
step 845
begin 1 tidy 6161616161616161626262626262626202
begin 3 tidy 616161616161616162626262626262620303
step 849
step 853
step 849
step 849
step 849
step 849
begin 1 tidy 62626262626262620202
begin 3 tidy 61616161616161610303
step 850
finish 855
apply 0
begin 3 tidy 626262626262626203
step 852
step 856
begin 3 tidy 616161616161616102
finish 856
begin 2 get 6161616161616161626262626262626202 all
step 858
finish 853
finish 852
step 857
step 854
step 850
step 850
step 850
step 850
advance
begin 2 tidy 6161616161616161626262626262626202
begin 1 tidy 616161616161616162626262626262620303
finish 857
begin 1 tidy 62626262626262620202
apply 5
begin 3 tidy 61616161616161610303
finish 861
begin 1 tidy 626262626262626203
finish 854
feed 155 3
begin 3 tidy 616161616161616102
step 860
step 860
step 860
step 860
step 860
begin 3 get 626262626262626203 all
finish 863
step 859
begin 3 put 6161616161616161626262626262626202 0=17
step 859
step 859
step 859
step 859
step 858
step 858
step 858
step 858
begin 3 put 626262626262626203 0=de5eba
begin 2 put 616161616161616162626262626262620303 0=7c72aa
step 867
collect
step 865
step 865
step 865
step 865
step 865
finish 867
apply 5
step 868
advance
apply 0
begin 3 put 61616161616161610303 0=36
begin 1 put 616161616161616100 0=7e
step 862
finish 869
step 864
step 862
step 862
step 862
step 862
step 862
apply 0
begin 1 put 62626262626262620000 0=-
begin 2 put 6161616161616161626262626262626200 0=4af08cd0
step 866
step 871
step 866
step 871
step 868
step 870
step 870
step 871
apply 0
step 870
step 866
step 866
step 866
step 866
step 866
step 866
step 868
step 871
step 864
step 864
step 864
step 864
step 864
begin 2 put 61616161616161610101 0=acdb51
step 872
step 868
step 870
advance
step 872
step 868
step 872
step 866
step 872
step 868
step 871
step 868
step 870
step 870
step 873
advance
step 866
step 871
drop 5
finish 866
step 871
advance
begin 3 put 626262626262626201 0=03
step 868
step 871
step 871
step 871
step 871
step 871
step 871
step 873
finish 871
step 868
step 868
step 868
step 868
step 868
step 868
step 868
step 873
step 873
step 873
step 873
step 873
step 873
step 873
step 873
begin 2 put 616161616161616162626262626262620101 0=d37bce
step 873
step 875
step 875
step 875
step 875
step 875
step 875
step 875
step 875
step 868
step 870
step 870
step 870
step 870
step 870
step 870
step 870
step 872
step 872
step 872
step 872
step 872
step 872
step 872
step 868
step 875
step 870
step 872
step 870
step 872
step 868
feed 28 1
step 874
step 875
step 870
step 868
advance
step 870
step 868
step 868
step 870
step 872
finish 873
begin 3 put 616161616161616102 0=-
finish 875
begin 1 put 62626262626262620202 0=f06aa7
step 872
step 872
step 872
step 872
step 872
step 872
step 872
step 872
step 874
step 874
step 874
step 874
step 874
step 874
step 874
step 877
step 872
step 868
step 868
step 868
step 868
step 868
step 868
step 868
step 868
step 872
step 877
step 877
step 877
step 877
step 877
step 877
step 877
finish 872
begin 3 put 6161616161616161626262626262626202 0=fd
step 878
collect
step 874
step 868
finish 876
step 874
begin 1 put 61616161616161610303 0=a3414022
step 878
step 878
step 878
step 878
step 878
step 878
step 878
step 877
step 877
step 874
step 874
step 874
step 874
step 874
step 874
step 874
step 878
step 870
step 879
step 878
step 874
step 877
step 870
step 870
step 870
step 870
step 870
step 870
step 870
step 870
step 870
step 868
step 868
step 868
step 868
step 868
step 868
step 868
step 868
step 868
step 879
step 879
step 879
step 879
step 879
step 879
step 879
step 877
step 874
begin 2 put 626262626262626203 0=8ffd
step 870
step 877
step 868
step 870
step 878
step 878
step 878
step 878
step 878
step 878
step 878
step 878
step 878
step 878
step 878
step 878
step 878
step 878
step 879
begin 1 put 616161616161616162626262626262620303 0=e2ae61
step 879
step 868
step 881
begin 2 remove 62626262626262620000
step 881
step 881
step 881
step 881
step 881
step 881
step 881
step 882
step 879
step 879
step 879
step 879
step 879
step 879
step 879
step 879
step 879
step 877
step 877
step 877
step 877
step 877
step 877
step 877
step 877
step 882
step 882
step 882
step 882
step 882
step 882
step 882
step 877
step 879
step 881
step 877
step 882
step 878
step 879
begin 2 remove 616161616161616162626262626262620303
step 880
begin 1 remove 616161616161616102
step 878
step 878
step 878
step 878
step 878
step 878
step 878
step 878
step 880
step 880
step 880
step 880
step 880
step 880
step 880
step 878
step 878
step 880
begin 3 remove 626262626262626203
step 883
step 885
finish 885
begin 2 remove 6161616161616161626262626262626202
finish 886
begin 2 remove 626262626262626201
step 883
step 883
step 883
step 883
step 883
step 883
step 883
step 882
step 881
step 881
step 881
step 881
step 881
step 881
step 881
step 881
step 881
step 881
step 883
step 884
step 882
step 882
step 882
step 882
step 882
step 882
step 882
step 887
step 883
step 883
step 883
step 883
step 883
step 883
step 883
step 883
step 883
step 883
step 883
step 880
step 880
step 884
step 884
step 884
step 884
step 884
step 884
step 884
step 887
step 887
step 887
step 887
step 887
step 887
step 887
step 883
step 883
step 883
step 883
step 883
step 883
step 883
step 883
step 881
step 881
step 884
step 882
step 883
step 887
step 880
step 884
step 881
step 884
step 884
step 884
step 884
step 884
step 884
step 884
step 884
step 884
step 880
feed 135 1
step 881
feed 52 3
step 883
finish 883
begin 1 remove 616161616161616100
step 880
step 880
step 884
step 880
step 882
finish 882
collect
feed 7 3
begin 3 remove 62626262626262620202
step 889
step 887
step 880
step 881
step 881
step 881
step 881
step 881
step 881
step 881
step 881
step 881
step 889
step 889
step 889
step 889
step 889
step 889
step 889
step 889
step 889
step 887
step 887
step 887
step 887
step 887
step 887
step 889
step 888
step 887
feed 110 1
step 884
finish 884
begin 3 get 616161616161616162626262626262620101 all
step 887
finish 887
collect
begin 1 remove 61616161616161610303
step 888
step 888
step 888
step 888
step 888
step 888
step 888
step 881
begin 2 remove 61616161616161610101
finish 888
begin 2 remove 6161616161616161626262626262626200
finish 889
step 892
feed 39 3
begin 3 remove 616161616161616162626262626262620101
feed 129 1
step 890
step 890
step 893
step 890
step 880
step 890
step 894
step 894
step 894
step 894
step 894
step 894
step 894
step 894
step 891
step 891
step 891
step 891
step 891
step 891
step 891
step 891
collect
step 880
step 880
step 880
step 880
step 880
step 891
step 893
step 893
step 893
step 893
step 893
step 893
step 893
step 890
step 890
step 890
step 890
step 892
step 892
step 892
step 892
step 892
step 892
step 892
step 894
step 891
step 891
step 891
step 891
step 891
step 891
step 891
step 891
step 894
step 893
collect
step 892
step 892
step 892
step 890
step 890
step 890
step 893
step 891
step 891
finish 891
step 893
step 893
step 893
step 893
step 893
step 893
step 893
step 894
step 894
step 894
step 894
step 894
step 894
step 894
step 894
begin 3 tidy 62626262626262620000
step 893
step 892
step 893
step 880
step 890
step 890
step 890
step 890
step 890
step 890
step 890
step 890
step 890
step 890
step 890
step 890
step 890
finish 890
begin 2 tidy 616161616161616162626262626262620303
step 893
step 893
step 893
step 893
step 893
step 893
step 893
step 895
step 896
step 896
step 896
step 896
step 896
step 896
step 896
step 894
step 880
step 894
step 893
begin 3 tidy 616161616161616102
step 892
step 892
step 892
step 892
step 892
step 892
step 897
step 894
step 897
step 897
step 897
step 897
step 897
step 897
step 892
step 897
step 894
step 892
finish 892
begin 3 tidy 626262626262626203
step 895
step 895
step 895
step 895
step 895
step 895
step 895
step 896
step 896
step 896
step 896
step 896
step 896
step 896
step 897
step 897
step 897
step 897
step 897
step 896
begin 3 tidy 6161616161616161626262626262626202
step 898
step 895
step 896
step 896
step 896
step 896
step 896
step 896
begin 2 tidy 626262626262626201
step 898
step 898
step 898
step 898
step 898
step 898
step 898
step 895
step 895
step 895
step 895
step 895
begin 1 tidy 616161616161616100
step 899
step 893
finish 893
finish 901
begin 2 tidy 62626262626262620202
begin 2 tidy 61616161616161610303
step 900
finish 898
begin 3 tidy 61616161616161610101
step 900
step 900
step 900
step 900
step 900
step 900
step 900
finish 900
feed 158 3
begin 3 tidy 6161616161616161626262626262626200
step 899
step 899
step 899
step 899
step 899
step 899
collect
step 905
step 899
step 905
step 905
step 905
step 905
step 905
step 905
step 905
step 905
step 905
step 905
step 905
step 905
step 905
step 899
step 899
step 899
step 899
step 899
step 899
step 902
finish 903
begin 2 tidy 616161616161616162626262626262620101
step 906
step 905
step 904
finish 899
begin 2 tidy 62626262626262620000
step 906
step 906
step 906
step 906
step 906
step 906
step 902
step 902
step 902
step 902
step 902
step 902
step 902
step 905
step 905
step 905
step 905
step 905
begin 3 tidy 616161616161616162626262626262620303
step 908
step 904
step 904
step 904
step 904
step 904
step 904
step 908
step 908
step 908
step 908
step 908
step 908
feed 198 10
step 908
finish 902
begin 1 tidy 616161616161616102
step 908
step 908
step 908
step 908
step 908
step 908
step 907
step 906
step 894
step 909
step 904
step 907
step 907
step 907
step 907
step 907
step 907
step 907
step 906
step 906
step 906
step 906
step 906
step 906
step 906
step 907
step 907
step 907
step 907
step 907
step 907
step 904
step 904
step 904
step 904
step 904
step 908
step 894
step 894
step 894
step 894
step 894
step 894
finish 894
begin 3 tidy 626262626262626203
finish 910
step 909
step 909
step 909
step 909
step 909
step 909
step 909
begin 1 tidy 6161616161616161626262626262626202
begin 3 tidy 626262626262626201
collect
finish 906
step 908
step 908
step 908
step 908
step 908
begin 3 tidy 616161616161616100
step 911
begin 1 tidy 62626262626262620202
step 909
step 909
step 909
step 909
step 909
advance
begin 3 tidy 61616161616161610303
step 915
step 911
step 911
step 911
step 911
step 911
step 911
begin 1 tidy 61616161616161610101
step 914
step 916
finish 911
begin 1 tidy 6161616161616161626262626262626200
step 912
step 916
step 916
step 916
step 916
step 916
step 916
step 915
step 915
step 915
step 915
step 915
step 915
step 912
step 912
step 912
step 912
step 912
step 912
step 912
step 917
finish 912
begin 3 tidy 616161616161616162626262626262620101
step 918
finish 918
begin 2 tidy 62626262626262620000
step 917
step 917
step 917
step 917
step 917
step 917
step 914
step 914
step 914
step 914
step 914
step 914
step 914
step 919
step 917
finish 917
step 914
begin 3 tidy 616161616161616162626262626262620303
feed 112 10
finish 914
begin 2 tidy 616161616161616102
step 921
finish 921
step 919
step 919
step 919
step 919
step 919
step 919
step 919
feed 105 1
step 915
step 916
advance
begin 3 tidy 626262626262626203
step 913
finish 919
begin 3 get 626262626262626201 all
step 923
step 923
step 923
step 922
finish 922
begin 3 remove 62626262626262620202
finish 924
begin 1 tidy 6161616161616161626262626262626202
collect
step 916
step 916
step 916
step 916
step 916
begin 2 tidy 626262626262626201
step 925
finish 925
begin 1 tidy 616161616161616100
step 927
finish 927
begin 3 tidy 62626262626262620202
step 915
step 915
step 915
step 915
step 915
step 920
step 920
step 920
step 920
step 920
step 920
step 920
begin 3 tidy 61616161616161610303
step 926
step 913
step 913
step 913
step 913
step 913
step 913
step 923
step 920
step 920
step 920
step 920
step 920
step 920
step 920
step 926
step 926
step 926
step 926
step 926
step 926
step 926
feed 153 1
step 913
step 928
advance
step 920
advance
step 926
finish 929
begin 2 tidy 61616161616161610101
finish 923
step 913
step 913
step 913
step 913
step 913
begin 3 tidy 6161616161616161626262626262626200
begin 1 tidy 616161616161616162626262626262620101
feed 153 10
step 926
step 926
step 926
step 926
step 926
finish 930
begin 2 tidy 62626262626262620000
begin 3 tidy 616161616161616162626262626262620303
collect
step 928
step 928
step 928
step 928
step 928
step 928
step 928
step 933
finish 920
begin 1 tidy 616161616161616102
finish 935
step 934
begin 2 tidy 626262626262626203
step 936
step 933
step 933
step 933
step 933
step 933
step 933
step 933
step 932
finish 931
begin 3 tidy 6161616161616161626262626262626202
step 932
step 932
step 932
step 932
step 932
step 932
finish 928
begin 3 tidy 626262626262626201
step 932
finish 938
step 934
step 934
step 934
step 934
step 934
step 934
step 937
begin 3 tidy 616161616161616100
step 939
collect
step 934
step 936
step 936
step 936
step 936
step 936
step 936
step 936
finish 932
finish 939
step 933
begin 1 tidy 62626262626262620202
step 940
step 936
begin 3 tidy 61616161616161610303
step 936
step 936
step 936
step 936
step 936
begin 2 tidy 61616161616161610101
step 933
step 933
step 933
step 933
step 933
finish 937
begin 1 tidy 6161616161616161626262626262626200
step 942
begin 1 tidy 616161616161616162626262626262620101
step 940
step 940
step 940
step 940
step 940
step 940
step 940
step 940
step 941
finish 934
begin 2 remove 616161616161616100
step 940
step 940
step 940
step 940
step 940
step 944
begin 1 remove 62626262626262620000
step 943
step 944
step 944
step 944
step 944
step 944
step 944
step 942
step 942
step 942
step 942
step 942
step 942
step 941
step 941
step 941
step 941
step 941
step 941
finish 941
collect
begin 1 remove 6161616161616161626262626262626200
step 944
finish 945
step 942
advance
begin 3 remove 61616161616161610101
step 943
step 943
step 943
step 943
step 943
step 943
finish 947
step 944
step 944
step 944
step 944
step 944
step 944
begin 3 remove 626262626262626201
step 949
step 942
step 942
step 942
step 942
step 942
begin 2 remove 616161616161616162626262626262620101
step 948
finish 944
step 943
feed 153 10
begin 3 remove 616161616161616102
advance
finish 948
step 946
step 946
step 946
step 946
step 946
step 946
step 946
step 946
begin 1 remove 62626262626262620202
finish 943
begin 2 remove 6161616161616161626262626262626202
step 952
finish 953
step 949
step 949
step 949
step 949
step 949
step 949
step 949
step 951
begin 2 remove 61616161616161610303
step 952
step 952
step 952
step 952
step 952
step 952
step 952
step 951
step 951
step 951
step 951
step 951
step 951
step 951
finish 951
step 950
step 952
begin 2 remove 626262626262626203
finish 954
step 949
begin 3 remove 616161616161616162626262626262620303
finish 955
begin 3 tidy 616161616161616100
finish 956
begin 2 tidy 62626262626262620000
finish 958
step 957
begin 3 tidy 6161616161616161626262626262626200
step 959
step 957
step 957
step 957
step 957
step 957
step 957
finish 952
step 946
finish 949
step 952
finish 959
finish 949
finish 952
feed 11 1
step 946
step 957
step 957
step 957
step 957
step 957
step 957
step 957
step 946
step 957
advance
step 950
step 957
begin 1 tidy 61616161616161610101
step 946
step 946
step 946
step 946
step 950
step 950
step 950
step 950
step 950
step 950
begin 3 tidy 626262626262626201
begin 3 tidy 616161616161616162626262626262620101
begin 3 tidy 616161616161616102
step 960
advance
begin 2 tidy 62626262626262620202
finish 962
begin 2 tidy 6161616161616161626262626262626202
step 964
step 964
step 964
step 964
step 964
begin 3 tidy 61616161616161610303
feed 79 10
finish 950
step 963
step 950
step 963
step 963
step 963
step 963
begin 3 tidy 626262626262626203
step 950
step 965
step 966
collect
step 960
step 960
step 960
step 960
begin 2 tidy 616161616161616162626262626262620303
step 965
step 965
step 965
step 965
feed 143 10
begin 2 remove 61616161616161610101
finish 950
finish 969
step 961
step 967
begin 1 tidy 61616161616161610101
begin 2 put 61616161616161610303 0=-
step 970
finish 971
begin 2 range 6161616161616161626262626262626200 10 all
advance
finish 961
collect
begin 3 remove 616161616161616162626262626262620303
finish 973
step 966
step 966
step 966
step 966
step 966
step 967
step 967
step 967
step 967
step 967
begin 2 tidy 616161616161616162626262626262620303
step 968
begin 3 remove 616161616161616102
step 975
step 975
begin 2 tidy 616161616161616102
step 975
step 975
step 975
step 975
step 975
finish 968
step 970
step 970
step 970
step 970
step 970
begin 2 remove 616161616161616162626262626262620101
step 974
step 972
begin 1 tidy 616161616161616162626262626262620101
feed 123 10
begin 1 remove 61616161616161610303
step 979
step 979
step 978
step 972
step 972
step 972
step 972
step 972
step 972
begin 3 put 616161616161616162626262626262620303 0=a1
step 976
step 980
step 979
step 979
step 979
step 979
step 979
step 976
step 976
step 976
step 976
step 976
begin 1 tidy 61616161616161610303
step 977
step 977
step 977
feed 103 10
step 979
step 974
step 974
step 974
step 974
step 977
begin 1 remove 6161616161616161626262626262626200
step 981
step 980
step 978
step 978
step 978
step 978
step 977
step 982
begin 3 tidy 6161616161616161626262626262626200
step 982
step 977
step 983
step 980
step 983
step 983
step 983
step 983
begin 2 remove 626262626262626201
step 977
step 979
finish 979
begin 1 tidy 626262626262626201
step 985
step 980
step 985
step 985
step 985
step 985
begin 3 remove 62626262626262620202
step 986
step 986
step 977
finish 980
begin 3 tidy 62626262626262620202
collect
feed 176 3
step 986
step 981
step 981
step 981
step 981
step 981
step 984
feed 49 1
begin 2 remove 616161616161616100
step 984
step 982
step 984
step 984
step 982
step 986
step 986
step 986
step 986
begin 1 tidy 616161616161616100
step 989
feed 47 1
feed 60 3
finish 987
begin 1 get 616161616161616100 all
finish 977
step 984
begin 2 remove 62626262626262620000
step 982
step 990
step 990
step 990
step 990
step 990
step 982
step 990
step 989
step 989
step 989
step 989
step 989
begin 2 put 616161616161616100 0=22e4e966
begin 1 tidy 62626262626262620000
step 991
step 984
step 984
step 984
step 984
begin 1 remove 6161616161616161626262626262626202
step 994
step 982
step 994
step 982
step 982
step 982
step 982
step 982
finish 991
step 994
begin 3 tidy 6161616161616161626262626262626202
step 994
step 994
step 994
step 994
step 994
step 992
begin 1 remove 626262626262626203
step 988
step 993
begin 1 tidy 626262626262626203
finish 993
begin 2 put 6161616161616161626262626262626202 0=89
finish 996
begin 3 put 6161616161616161626262626262626202 0=286124
step 988
step 988
step 988
step 988
step 988
step 988
begin 2 put 616161616161616162626262626262620303 0=-
step 995
step 1000
step 997
step 997
step 997
step 997
step 997
step 997
begin 2 put 616161616161616162626262626262620101 0=6e
step 999
step 1001
step 1000
step 1000
step 1000
step 1000
step 1000
step 1000
step 998
step 998
step 992
step 999
step 1000
step 992
step 992
step 1001
step 995
step 995
step 995
step 995
step 995
begin 3 put 626262626262626201 0=-
step 1002
feed 68 1
step 1000
feed 149 1
step 1001
begin 1 put 6161616161616161626262626262626200 0=a60b
step 992
step 1001
step 1001
step 1001
step 1001
step 1001
step 1001
step 1003
step 999
step 1003
step 998
advance
step 1001
step 1001
step 1001
step 1001
step 998
step 1003
finish 1001
step 998
step 998
step 998
step 998
step 998
step 998
step 998
step 1003
step 1003
step 1003
step 1003
step 1003
step 1003
step 1003
step 1003
step 1003
step 1003
step 1003
step 1003
step 1003
begin 1 put 62626262626262620202 0=-
step 998
step 998
step 998
step 998
step 998
step 998
step 1003
finish 992
begin 2 put 61616161616161610101 0=58
step 1003
step 1003
step 1003
step 1003
step 1003
step 1003
step 1003
step 1003
step 999
step 999
step 999
step 999
step 999
step 999
step 1003
step 1002
step 998
step 999
step 1004
step 1004
step 1004
step 1003
step 1004
step 1004
finish 1002
advance
step 999
step 999
step 999
step 999
step 999
step 999
step 999
begin 1 put 61616161616161610303 0=65e207
begin 1 put 626262626262626203 0=3ffa57
step 1005
step 999
step 1004
step 998
step 998
step 998
step 998
step 998
step 998
step 998
step 998
step 998
step 1007
step 1007
step 1006
step 1007
step 1007
step 1007
step 1004
step 1004
step 1004
step 1004
step 1004
step 1004
step 998
collect
step 1007
step 999
step 1007
step 1004
step 999
step 1004
step 1007
step 998
step 1004
step 1004
step 1004
step 1007
step 999
step 1006
advance
begin 2 put 61616161616161610101 0=-
step 1005
step 1008
advance
step 999
step 999
step 999
step 999
step 999
step 999
step 999
step 999
collect
step 1008
step 999
step 1004
step 1005
step 1005
step 1005
step 1005
step 1005
step 1005
step 1005
step 1005
step 1006
step 1006
step 1006
step 1006
step 1006
step 1006
step 1006
step 1006
step 1006
step 1007
step 1007
step 1007
step 1007
step 1007
step 1007
step 1007
step 1007
step 1007
step 1008
step 1008
step 1008
step 1008
step 1008
step 1008
step 1008
step 1004
step 1006
step 1006
step 1006
step 1006
step 1006
step 1006
step 1006
step 1008
step 999
begin 1 put 616161616161616102 0=ec72
step 1008
step 1008
step 1006
step 1005
step 1007
step 1007
step 1007
step 1007
step 1007
step 1007
step 1004
step 1005
step 1006
begin 3 remove 61616161616161610303
step 1007
finish 1007
begin 3 tidy 61616161616161610303
step 1011
step 1010
finish 1005
step 1010
step 1010
step 1010
step 1010
step 1010
step 1010
step 1010
begin 2 remove 62626262626262620000
step 1009
step 1004
finish 1004
step 1008
step 1009
step 1009
step 1009
step 1009
step 1009
step 1009
step 1009
begin 2 tidy 62626262626262620000
advance
step 1012
step 1013
step 1011
step 1011
step 1011
step 1011
step 1011
step 1011
step 1012
step 1012
step 1012
step 1012
step 1012
step 1012
step 1012
step 1011
step 1013
step 1013
step 1013
step 1013
step 1013
step 1013
step 1013
step 1009
step 1011
step 1011
step 1011
step 1011
step 1011
step 1011
step 1011
begin 2 remove 6161616161616161626262626262626200
step 1008
step 1008
step 1008
step 1008
step 1008
step 1008
step 1008
step 1008
step 1012
step 1014
step 1009
step 1012
step 1013
step 1010
step 1008
step 1012
step 1012
step 1012
step 1012
step 1012
step 1012
begin 1 tidy 6161616161616161626262626262626200
step 1010
step 1015
step 1014
step 1014
step 1014
step 1014
step 1014
step 1014
step 1014
step 1013
step 1013
step 1013
step 1013
step 1013
begin 2 remove 626262626262626201
step 1015
step 1015
step 1015
step 1015
step 1015
step 1015
step 1010
step 1014
step 1010
step 1010
step 1016
step 1010
step 1010
step 1014
step 1015
step 1010
step 1009
feed 226 1
finish 1008
step 1014
step 1014
step 1014
step 1014
step 1014
step 1014
step 1014
step 1014
step 1014
begin 3 tidy 626262626262626201
step 1015
step 1015
step 1015
step 1015
step 1015
step 1015
step 1015
step 1015
step 1015
step 1014
finish 1010
step 1015
advance
step 1014
step 1016
step 1016
step 1016
step 1016
step 1016
step 1016
step 1016
begin 2 remove 616161616161616102
step 1009
step 1017
step 1014
step 1014
step 1014
step 1014
step 1014
step 1014
step 1014
step 1014
advance
step 1017
step 1017
step 1017
step 1017
step 1017
step 1017
step 1017
step 1016
collect
step 1017
step 1014
step 1016
step 1014
finish 1014
begin 2 tidy 616161616161616102
step 1009
step 1009
step 1009
step 1009
step 1009
step 1009
step 1009
step 1009
step 1016
step 1016
step 1016
step 1016
step 1016
step 1016
step 1016
step 1019
step 1019
step 1019
step 1019
step 1019
step 1019
step 1019
step 1018
step 1018
step 1018
step 1018
step 1018
step 1018
step 1018
step 1018
step 1015
step 1015
step 1015
step 1015
step 1015
begin 2 remove 62626262626262620202
step 1018
step 1018
step 1019
step 1020
step 1017
step 1017
step 1017
step 1017
step 1017
begin 2 tidy 62626262626262620202
feed 65 10
step 1018
step 1021
step 1020
step 1020
step 1020
step 1020
step 1020
step 1020
step 1020
step 1016
step 1021
step 1021
step 1021
step 1021
step 1021
step 1021
step 1021
step 1020
step 1021
step 1021
step 1021
step 1021
step 1021
step 1021
begin 2 remove 616161616161616100
feed 120 3
step 1019
begin 2 tidy 616161616161616100
step 1018
step 1023
step 1018
step 1009
feed 50 10
step 1020
step 1018
step 1022
step 1023
step 1023
step 1023
step 1023
step 1023
step 1023
step 1009
step 1019
step 1019
step 1019
step 1019
step 1019
step 1019
step 1019
step 1020
step 1023
step 1020
begin 1 remove 61616161616161610101
step 1023
step 1023
step 1023
step 1023
step 1023
step 1018
begin 3 tidy 61616161616161610101
collect
step 1024
step 1022
step 1022
step 1022
step 1022
step 1022
step 1022
step 1022
step 1020
step 1016
finish 1016
step 1024
step 1024
step 1024
step 1024
step 1024
step 1024
step 1024
step 1025
begin 3 remove 616161616161616162626262626262620303
step 1024
step 1025
step 1025
step 1025
step 1025
step 1025
step 1025
step 1022
step 1022
finish 1018
begin 2 tidy 616161616161616162626262626262620303
step 1024
step 1024
step 1024
step 1024
step 1024
step 1024
step 1024
step 1024
step 1020
step 1027
step 1025
step 1025
step 1025
step 1025
step 1025
step 1025
step 1025
begin 1 remove 6161616161616161626262626262626202
step 1022
step 1026
step 1020
step 1020
step 1020
step 1020
step 1020
step 1020
step 1020
feed 116 10
step 1027
step 1027
step 1027
step 1027
step 1027
step 1027
step 1028
step 1028
step 1028
step 1028
step 1028
step 1028
step 1028
step 1028
step 1024
step 1027
step 1028
step 1028
step 1026
step 1026
step 1026
step 1026
step 1026
step 1026
step 1026
step 1027
step 1027
step 1027
step 1027
step 1027
step 1027
step 1027
feed 34 1
step 1027
step 1022
step 1020
finish 1020
step 1026
step 1022
step 1026
begin 3 tidy 6161616161616161626262626262626202
advance
step 1027
step 1027
step 1027
step 1027
step 1027
step 1027
step 1027
begin 3 remove 616161616161616162626262626262620101
step 1022
step 1024
finish 1024
step 1026
step 1026
step 1026
step 1026
step 1026
step 1026
step 1026
step 1026
step 1028
step 1028
step 1028
step 1028
step 1028
step 1028
step 1028
step 1028
step 1028
step 1028
step 1028
step 1028
step 1028
step 1028
step 1028
step 1028
step 1026
begin 3 tidy 616161616161616162626262626262620101
advance
step 1030
collect
step 1029
step 1031
step 1026
step 1026
finish 1028
begin 2 remove 626262626262626203
finish 1030
finish 1029
step 1026
step 1032
step 1031
step 1031
step 1031
step 1031
step 1031
step 1031
begin 1 tidy 626262626262626203
step 1022
begin 1 remove 616161616161616162626262626262620303
step 1032
step 1032
step 1032
step 1032
step 1032
step 1032
step 1032
step 1022
step 1022
step 1022
step 1022
step 1022
step 1022
step 1031
step 1033
step 1034
feed 25 10
step 1031
step 1031
step 1031
step 1031
step 1031
step 1031
step 1031
step 1026
step 1026
step 1026
step 1026
step 1026
step 1031
step 1026
step 1032
step 1033
step 1033
step 1033
step 1033
step 1033
step 1033
step 1033
step 1026
finish 1026
begin 2 put 61616161616161610303 0=4b48
step 1034
step 1034
step 1034
step 1034
step 1034
step 1034
step 1034
step 1033
step 1031
step 1031
step 1031
step 1031
step 1031
step 1031
step 1032
step 1035
step 1033
step 1033
step 1033
step 1033
step 1033
step 1022
step 1034
step 1031
begin 2 put 616161616161616162626262626262620101 0=-
step 1035
step 1035
step 1035
step 1035
step 1035
step 1035
step 1035
step 1034
step 1032
step 1032
step 1032
step 1032
step 1032
collect
step 1031
begin 3 put 62626262626262620202 0=5ba492
step 1032
step 1022
finish 1022
step 1034
step 1034
step 1034
step 1034
step 1034
step 1034
step 1034
collect
begin 1 put 62626262626262620000 0=6869f266
step 1034
step 1035
step 1032
finish 1032
begin 2 remove 61616161616161610101
step 1036
step 1038
step 1038
step 1038
step 1038
step 1038
step 1038
step 1038
step 1038
step 1039
step 1035
step 1034
step 1034
step 1034
begin 2 put 616161616161616102 0=3e38ae
step 1037
step 1037
step 1037
step 1037
step 1037
step 1037
step 1037
step 1037
step 1040
step 1037
step 1039
step 1039
step 1039
step 1039
step 1039
step 1039
step 1039
step 1038
step 1039
step 1039
step 1037
step 1037
step 1037
step 1037
step 1037
step 1037
feed 242 10
step 1040
step 1040
step 1040
step 1040
step 1040
step 1040
step 1040
step 1036
step 1036
step 1036
step 1036
step 1036
step 1036
step 1036
step 1039
feed 227 3
step 1040
step 1040
step 1039
step 1038
step 1036
step 1038
step 1037
step 1039
step 1040
step 1037
begin 2 put 6161616161616161626262626262626200 0=ce
step 1038
step 1040
step 1040
step 1036
step 1038
step 1038
step 1038
step 1038
step 1038
step 1038
step 1035
step 1035
step 1035
step 1035
step 1035
step 1035
step 1038
step 1040
step 1041
step 1040
step 1040
step 1040
step 1035
step 1038
step 1035
step 1036
step 1036
step 1036
step 1036
step 1036
step 1036
step 1036
step 1036
step 1036
finish 1036
finish 1039
feed 212 3
begin 1 put 6161616161616161626262626262626202 0=-
finish 1041
finish 1040
begin 1 put 616161616161616100 0=-
step 1042
finish 1042
step 1043
begin 3 put 626262626262626203 0=2665
begin 2 put 616161616161616162626262626262620303 0=-
finish 1043
begin 2 put 61616161616161610101 0=32
begin 2 put 626262626262626201 0=-
finish 1047
step 1045
begin 3 remove 626262626262626203
step 1044
finish 1045
begin 3 tidy 626262626262626203
step 1046
finish 1049
begin 1 remove 616161616161616162626262626262620303
step 1046
step 1046
step 1046
step 1046
step 1046
step 1046
step 1046
step 1046
step 1046
step 1050
begin 1 tidy 616161616161616162626262626262620303
step 1044
step 1044
step 1044
step 1044
step 1044
step 1044
step 1044
step 1048
step 1051
begin 2 remove 61616161616161610303
step 1052
step 1044
step 1048
step 1048
step 1048
step 1048
step 1048
step 1048
step 1048
step 1052
step 1052
step 1052
step 1052
step 1052
step 1052
step 1052
step 1051
step 1051
step 1051
step 1051
step 1051
step 1051
step 1048
step 1046
step 1046
step 1046
step 1046
step 1046
step 1046
step 1046
step 1046
step 1046
step 1052
step 1051
step 1046
step 1050
step 1050
step 1050
step 1050
step 1050
step 1050
step 1050
step 1052
step 1051
step 1051
step 1051
step 1051
step 1051
step 1051
step 1051
step 1051
step 1051
step 1051
step 1048
advance
step 1044
step 1051
step 1052
step 1044
step 1052
step 1050
step 1052
step 1044
step 1048
step 1048
step 1048
step 1048
step 1048
step 1048
advance
begin 1 tidy 61616161616161610303
step 1051
step 1051
step 1051
step 1051
step 1051
step 1051
step 1051
step 1051
begin 2 remove 616161616161616162626262626262620101
step 1046
begin 3 remove 616161616161616102
step 1054
feed 103 3
finish 1052
begin 2 remove 62626262626262620202
step 1053
step 1053
step 1053
step 1053
step 1053
step 1053
step 1053
step 1044
step 1044
step 1044
step 1044
step 1044
step 1044
step 1044
step 1044
step 1044
step 1055
step 1050
step 1050
step 1050
step 1050
step 1050
step 1050
step 1050
step 1050
step 1050
step 1050
feed 202 1
step 1044
step 1056
step 1050
step 1055
step 1055
step 1055
step 1055
step 1055
step 1055
step 1055
collect
step 1055
step 1050
step 1050
step 1050
step 1050
step 1050
step 1050
step 1050
step 1050
step 1053
step 1044
begin 2 remove 6161616161616161626262626262626202
step 1054
step 1054
step 1054
step 1054
step 1054
step 1054
step 1054
step 1057
step 1053
step 1053
step 1053
step 1053
step 1053
step 1053
step 1053
step 1053
begin 1 remove 61616161616161610303
step 1057
step 1057
step 1057
step 1057
step 1057
step 1057
step 1057
step 1050
step 1054
finish 1050
begin 2 remove 61616161616161610303
step 1058
finish 1059
step 1057
step 1056
step 1056
step 1056
step 1056
step 1056
step 1056
step 1056
step 1058
step 1058
step 1058
step 1058
step 1058
step 1058
step 1058
begin 3 remove 626262626262626203
finish 1060
collect
begin 1 remove 616161616161616162626262626262620303
step 1055
step 1058
step 1057
step 1061
step 1055
step 1055
step 1055
step 1055
step 1055
step 1055
step 1055
step 1055
step 1058
step 1061
step 1061
step 1061
step 1061
step 1061
step 1061
step 1061
step 1056
step 1055
step 1061
step 1058
step 1055
finish 1055
step 1057
step 1057
step 1057
step 1057
step 1057
step 1057
step 1057
step 1057
begin 1 tidy 616161616161616162626262626262620101
step 1058
step 1054
step 1056
step 1061
advance
step 1056
step 1056
step 1056
step 1056
step 1056
step 1056
step 1056
step 1056
begin 1 tidy 616161616161616102
step 1063
feed 261 3
step 1062
step 1056
finish 1056
begin 3 tidy 62626262626262620202
step 1062
step 1062
step 1062
step 1062
step 1062
step 1062
step 1057
step 1064
step 1064
step 1064
step 1064
step 1064
step 1064
step 1064
step 1064
step 1063
step 1063
step 1063
step 1063
step 1063
step 1063
step 1063
step 1058
step 1058
step 1058
step 1058
step 1058
step 1058
step 1054
step 1054
step 1054
step 1054
step 1054
step 1054
step 1054
step 1054
step 1054
step 1054
step 1061
step 1061
step 1061
step 1061
step 1061
step 1061
step 1061
step 1061
step 1061
begin 2 tidy 6161616161616161626262626262626202
step 1065
step 1054
step 1054
step 1054
step 1054
step 1054
step 1054
step 1054
step 1062
step 1063
step 1063
step 1063
step 1063
step 1063
step 1063
step 1063
step 1057
step 1062
step 1062
step 1062
step 1062
step 1062
step 1062
step 1062
step 1062
step 1057
begin 1 tidy 61616161616161610303
step 1065
step 1065
step 1065
step 1065
step 1065
step 1065
step 1062
step 1064
step 1064
step 1064
step 1064
step 1064
step 1064
step 1064
begin 2 tidy 626262626262626203
step 1057
step 1067
step 1062
step 1062
step 1062
step 1062
step 1062
step 1062
step 1054
step 1065
begin 3 tidy 616161616161616162626262626262620303
step 1065
step 1065
step 1065
step 1065
step 1065
step 1065
step 1065
step 1065
step 1066
step 1068
step 1068
step 1068
step 1068
step 1068
step 1068
step 1068
step 1054
finish 1054
step 1061
step 1061
step 1061
step 1061
step 1061
step 1061
begin 2 put 616161616161616102 0=a953ab
step 1067
step 1067
step 1067
step 1067
step 1067
step 1067
step 1067
finish 1057
step 1065
begin 2 remove 61616161616161610303
finish 1069
begin 1 tidy 61616161616161610303
step 1067
finish 1068
begin 3 remove 616161616161616162626262626262620303
step 1070
step 1067
step 1067
step 1067
step 1067
step 1067
step 1067
step 1071
feed 48 10
finish 1071
begin 3 tidy 616161616161616162626262626262620303
step 1066
step 1066
step 1066
step 1066
step 1066
step 1066
step 1072
begin 2 range 61616161616161610101 1000 all
step 1073
finish 1072
step 1073
step 1073
step 1073
step 1073
step 1073
step 1073
step 1066
step 1070
step 1070
step 1070
step 1070
step 1070
step 1070
step 1070
begin 2 remove 626262626262626203
advance
finish 1074
step 1066
step 1066
step 1066
step 1066
step 1066
step 1066
step 1066
step 1066
finish 1065
step 1075
feed 102 10
begin 2 tidy 626262626262626203
step 1070
begin 1 put 6161616161616161626262626262626202 0=28f9
begin 1 put 61616161616161610303 0=48a8df32
step 1077
finish 1073
begin 2 put 626262626262626203 0=c731dd
step 1070
advance
step 1076
step 1077
step 1077
step 1077
step 1077
step 1077
step 1077
step 1077
step 1075
step 1075
step 1075
step 1075
step 1075
step 1075
step 1075
step 1079
finish 1070
begin 2 put 616161616161616162626262626262620303 0=b7
step 1079
step 1079
step 1079
step 1079
step 1079
step 1079
step 1079
finish 1076
finish 1077
begin 1 remove 616161616161616102
finish 1079
step 1075
begin 1 remove 626262626262626201
begin 3 remove 62626262626262620202
step 1075
step 1075
step 1075
step 1075
step 1075
step 1075
step 1075
step 1075
step 1082
step 1078
step 1083
step 1082
step 1082
step 1082
step 1082
step 1082
step 1082
step 1082
step 1078
step 1078
step 1078
step 1078
step 1078
step 1078
step 1078
step 1081
step 1081
step 1081
step 1081
step 1081
step 1081
step 1081
step 1081
step 1081
step 1082
step 1082
feed 178 3
step 1083
step 1083
step 1083
step 1083
step 1083
step 1083
step 1083
advance
step 1080
finish 1075
begin 2 remove 6161616161616161626262626262626202
finish 1080
step 1084
begin 1 remove 61616161616161610101
step 1078
finish 1084
begin 2 remove 62626262626262620000
step 1082
step 1085
step 1083
step 1085
step 1085
step 1085
step 1085
step 1085
step 1085
step 1085
step 1086
step 1085
step 1086
step 1086
step 1086
step 1086
step 1086
step 1086
step 1086
step 1086
step 1083
step 1081
step 1086
step 1081
step 1081
step 1081
step 1081
step 1081
step 1081
step 1081
step 1081
step 1078
step 1081
step 1081
finish 1081
step 1078
step 1078
step 1078
step 1078
step 1078
step 1078
step 1078
step 1078
step 1078
begin 2 remove 616161616161616162626262626262620101
step 1078
step 1086
step 1087
step 1087
step 1087
step 1087
step 1087
step 1087
step 1087
step 1087
step 1083
step 1082
step 1082
step 1082
step 1082
step 1082
step 1082
step 1085
step 1078
step 1086
finish 1082
begin 2 remove 626262626262626203
begin 2 remove 616161616161616100
step 1087
step 1085
step 1083
step 1088
step 1089
step 1088
step 1088
step 1088
step 1088
step 1088
step 1088
step 1088
step 1083
step 1083
step 1083
step 1083
step 1086
begin 1 remove 62626262626262620202
step 1090
step 1090
step 1090
step 1090
step 1090
step 1090
step 1090
step 1090
feed 215 3
step 1087
step 1089
step 1089
step 1089
step 1089
step 1089
step 1089
step 1089
step 1089
step 1089
step 1086
step 1086
step 1086
step 1086
step 1086
step 1085
step 1085
step 1085
step 1085
step 1085
step 1085
step 1085
step 1085
step 1086
step 1088
step 1089
step 1090
step 1086
finish 1086
begin 3 remove 6161616161616161626262626262626200
step 1090
step 1091
step 1090
step 1090
step 1090
step 1091
step 1091
step 1091
step 1091
step 1091
step 1091
step 1091
step 1089
begin 1 remove 616161616161616162626262626262620303
step 1088
step 1091
step 1089
step 1088
step 1088
step 1088
begin 2 remove 61616161616161610303
step 1085
step 1091
step 1093
step 1089
step 1089
advance
step 1093
step 1093
step 1093
step 1093
step 1093
step 1093
step 1093
step 1089
step 1093
step 1089
begin 1 tidy 616161616161616102
step 1094
step 1094
step 1094
step 1094
step 1094
step 1094
step 1094
finish 1085
step 1087
step 1087
step 1087
step 1087
step 1087
step 1087
step 1087
step 1087
step 1087
step 1087
step 1087
step 1087
step 1087
step 1087
step 1087
step 1091
step 1091
step 1091
step 1091
step 1091
step 1091
step 1091
step 1091
feed 45 10
begin 3 tidy 626262626262626201
finish 1095
finish 1089
step 1091
step 1094
step 1092
finish 1093
begin 1 tidy 62626262626262620202
begin 2 tidy 6161616161616161626262626262626202
begin 1 get 616161616161616162626262626262620303 all
finish 1096
begin 1 tidy 61616161616161610101
step 1094
step 1094
step 1094
step 1094
step 1094
begin 1 tidy 62626262626262620000
finish 1100
begin 1 tidy 616161616161616162626262626262620101
feed 274 1
finish 1092
step 1091
begin 2 tidy 626262626262626203
step 1101
step 1102
step 1102
step 1102
step 1102
step 1102
step 1102
begin 1 tidy 616161616161616100
step 1098
step 1098
step 1098
step 1098
step 1101
step 1101
step 1101
step 1101
step 1101
step 1101
step 1097
step 1099
step 1091
step 1091
step 1091
step 1091
step 1091
collect
step 1103
step 1099
step 1099
step 1099
step 1099
step 1099
step 1099
step 1098
step 1098
step 1098
step 1098
step 1099
step 1101
step 1091
step 1098
step 1098
step 1098
step 1098
step 1101
step 1101
step 1101
step 1101
step 1101
step 1101
step 1103
step 1103
step 1103
step 1103
step 1103
step 1103
step 1101
step 1101
step 1101
step 1101
step 1101
feed 103 3
step 1103
begin 2 tidy 6161616161616161626262626262626200
step 1099
step 1099
step 1099
step 1099
step 1099
begin 3 tidy 616161616161616162626262626262620303
step 1105
step 1105
step 1105
step 1105
step 1105
step 1105
step 1105
finish 1091
begin 2 tidy 61616161616161610303
finish 1097
begin 1 tidy 616161616161616102
finish 1098
finish 1098
begin 2 tidy 626262626262626201
finish 1106
begin 3 tidy 62626262626262620202
step 1107
feed 63 10
step 1109
step 1105
step 1105
step 1108
step 1107
step 1107
step 1107
step 1107
begin 1 tidy 6161616161616161626262626262626202
step 1110
finish 1103
step 1109
step 1109
step 1109
step 1109
step 1103
step 1105
step 1105
step 1105
step 1105
step 1110
step 1110
step 1110
step 1110
finish 1108
begin 2 tidy 61616161616161610101
step 1104
finish 1111
step 1104
step 1104
step 1104
step 1104
begin 1 tidy 62626262626262620000
begin 3 tidy 616161616161616162626262626262620101
begin 2 tidy 626262626262626203
step 1112
step 1114
begin 1 get 616161616161616102 all
finish 1115
finish 1114
begin 1 tidy 616161616161616100
finish 1113
begin 1 tidy 6161616161616161626262626262626200
step 1112
step 1112
step 1112
step 1112
begin 3 tidy 616161616161616162626262626262620303
step 1103
step 1103
step 1103
step 1103
begin 1 tidy 61616161616161610303
begin 2 remove 62626262626262620202
finish 1116
step 1117
begin 2 remove 616161616161616162626262626262620101
begin 1 remove 616161616161616100
step 1121
finish 1119
step 1121
begin 2 remove 6161616161616161626262626262626202
step 1120
step 1120
step 1123
step 1117
step 1117
step 1117
step 1117
step 1122
begin 3 remove 626262626262626203
step 1122
step 1120
step 1118
step 1124
step 1124
step 1124
step 1118
step 1118
step 1118
step 1118
begin 2 remove 61616161616161610303
step 1122
step 1124
step 1123
step 1123
step 1123
step 1121
step 1121
step 1121
step 1123
step 1125
step 1122
step 1125
begin 1 remove 616161616161616162626262626262620303
step 1124
step 1124
finish 1123
finish 1126
begin 3 remove 616161616161616102
advance
feed 196 1
begin 1 remove 626262626262626201
step 1128
finish 1122
step 1120
begin 2 tidy 62626262626262620202
step 1127
step 1128
step 1124
step 1124
step 1128
finish 1120
finish 1129
begin 2 get 616161616161616102 all
begin 1 tidy 616161616161616162626262626262620101
step 1125
feed 93 1
step 1128
step 1130
step 1130
step 1130
step 1130
feed 191 10
step 1124
step 1127
feed 223 1
step 1125
step 1125
step 1125
begin 3 tidy 6161616161616161626262626262626202
step 1128
step 1124
step 1131
step 1127
step 1124
step 1127
step 1124
step 1130
begin 3 tidy 616161616161616102
step 1132
step 1128
step 1128
step 1128
begin 2 tidy 626262626262626203
step 1134
step 1131
step 1131
step 1131
step 1131
collect
begin 2 tidy 61616161616161610303
finish 1132
step 1124
step 1124
step 1124
step 1124
advance
begin 3 tidy 616161616161616162626262626262620303
step 1127
step 1127
step 1127
step 1127
begin 2 tidy 616161616161616102
begin 1 range 6161616161616161626262626262626200 1 all
step 1135
step 1135
step 1135
step 1135
step 1135
finish 1136
step 1133
finish 1133
begin 3 tidy 626262626262626201
step 1137
begin 2 tidy 62626262626262620202
step 1139
begin 1 tidy 616161616161616162626262626262620101
step 1141
feed 167 1
step 1137
step 1137
step 1137
step 1137
begin 3 tidy 6161616161616161626262626262626202
step 1140
step 1139
step 1139
step 1139
step 1139
step 1138
begin 3 tidy 626262626262626203
finish 1141
begin 1 tidy 61616161616161610303
step 1142
finish 1144
begin 2 get 616161616161616100 all
step 1143
step 1138
step 1138
step 1138
step 1138
begin 1 tidy 616161616161616162626262626262620303
finish 1146
begin 1 tidy 616161616161616102
step 1142
step 1142
step 1142
step 1142
begin 1 tidy 626262626262626201
step 1140
step 1140
step 1140
step 1140
begin 3 put 626262626262626201 0=aa
step 1145
step 1145
step 1145
step 1145
step 1143
step 1143
step 1143
step 1143
step 1147
finish 1148
step 1134
step 1134
step 1134
step 1134
step 1149
finish 1145
step 1147
step 1147
step 1147
step 1147
step 1149
begin 2 put 616161616161616100 0=cfa324
step 1149
step 1149
step 1149
step 1150
begin 3 put 62626262626262620000 0=b2fdc7
step 1151
step 1151
begin 2 put 6161616161616161626262626262626200 0=2a0e
finish 1149
begin 3 put 61616161616161610101 0=1c95c24c
begin 1 remove 616161616161616100
begin 2 remove 61616161616161610101
step 1155
step 1151
step 1154
finish 1151
begin 1 remove 616161616161616102
step 1153
step 1152
step 1154
step 1150
step 1153
step 1155
step 1153
advance
finish 1154
begin 3 remove 62626262626262620202
step 1153
step 1153
step 1153
step 1153
step 1153
step 1153
step 1153
step 1156
step 1153
advance
step 1156
step 1150
step 1152
step 1155
step 1156
feed 283 10
finish 1153
begin 3 remove 616161616161616162626262626262620303
finish 1157
begin 2 remove 6161616161616161626262626262626200
step 1159
step 1150
step 1152
step 1152
step 1156
finish 1150
step 1152
step 1152
step 1152
step 1152
step 1152
step 1152
step 1152
step 1158
begin 3 remove 61616161616161610303
step 1159
step 1159
step 1159
step 1159
step 1159
step 1159
step 1159
step 1160
step 1159
step 1159
step 1160
step 1160
step 1160
step 1160
step 1160
step 1160
step 1160
step 1152
step 1156
step 1156
step 1156
step 1156
step 1156
step 1156
step 1156
step 1160
feed 113 3
step 1156
step 1159
step 1159
step 1159
step 1159
step 1159
finish 1155
begin 1 tidy 6161616161616161626262626262626200
begin 2 remove 6161616161616161626262626262626202
step 1156
step 1161
step 1156
step 1156
step 1156
step 1156
begin 3 remove 626262626262626203
step 1160
step 1152
step 1152
step 1162
step 1152
step 1163
step 1152
step 1161
step 1161
step 1161
step 1161
step 1161
step 1161
step 1161
step 1152
step 1163
step 1163
step 1163
step 1163
step 1163
step 1163
step 1163
step 1160
step 1160
step 1160
step 1160
begin 3 remove 62626262626262620000
finish 1158
begin 2 remove 626262626262626201
step 1165
step 1165
step 1165
step 1165
step 1165
step 1165
step 1165
step 1165
step 1164
collect
step 1152
step 1162
step 1162
step 1162
step 1162
step 1162
step 1162
step 1162
step 1165
step 1161
step 1161
step 1161
step 1161
step 1161
begin 1 remove 616161616161616162626262626262620101
step 1164
step 1164
step 1164
step 1164
step 1164
step 1164
step 1164
step 1166
step 1163
step 1163
step 1164
step 1162
step 1164
step 1164
step 1152
step 1152
step 1152
step 1152
step 1152
step 1152
step 1163
step 1163
step 1163
step 1163
step 1163
step 1165
step 1162
begin 3 tidy 616161616161616100
feed 149 3
step 1162
step 1166
step 1166
step 1166
step 1166
step 1166
step 1166
step 1166
step 1166
step 1165
step 1165
step 1165
step 1165
step 1165
step 1165
feed 221 10
feed 274 3
step 1167
step 1167
step 1167
step 1167
step 1167
step 1167
step 1167
step 1167
step 1165
step 1162
step 1162
step 1167
begin 2 tidy 61616161616161610101
step 1162
step 1162
step 1162
step 1164
step 1164
step 1168
step 1152
step 1152
step 1167
step 1167
step 1167
step 1167
step 1167
feed 95 3
begin 3 tidy 616161616161616102
step 1162
step 1168
step 1168
step 1168
step 1168
step 1168
step 1168
step 1168
step 1165
finish 1165
step 1169
begin 2 tidy 62626262626262620202
step 1169
step 1169
step 1169
step 1169
step 1169
step 1169
step 1162
step 1162
step 1162
step 1162
step 1162
step 1162
step 1170
begin 1 tidy 616161616161616162626262626262620303
step 1169
step 1168
step 1168
step 1168
step 1168
step 1168
step 1168
begin 2 tidy 6161616161616161626262626262626200
step 1171
step 1164
step 1172
step 1164
step 1164
step 1164
step 1164
step 1164
step 1170
step 1170
step 1170
step 1170
step 1170
step 1170
step 1170
step 1171
step 1171
step 1171
step 1171
step 1171
step 1171
step 1166
step 1172
step 1172
step 1172
step 1172
step 1172
step 1172
step 1169
step 1169
step 1169
step 1169
step 1169
step 1169
step 1166
step 1166
step 1166
step 1166
step 1166
step 1166
begin 1 tidy 61616161616161610303
step 1171
begin 2 tidy 6161616161616161626262626262626202
step 1164
step 1172
step 1172
step 1172
step 1172
step 1172
step 1172
step 1172
begin 2 tidy 626262626262626203
step 1170
step 1173
step 1164
finish 1164
step 1170
step 1170
step 1170
step 1170
step 1170
step 1170
step 1170
step 1170
step 1170
step 1170
step 1170
step 1170
step 1171
step 1171
step 1171
step 1171
step 1171
step 1171
begin 2 tidy 62626262626262620000
begin 3 get 616161616161616162626262626262620101 all
step 1174
advance
step 1176
step 1170
step 1176
step 1176
step 1176
step 1176
step 1176
step 1176
step 1176
step 1173
step 1173
step 1173
step 1173
step 1173
step 1173
finish 1170
finish 1174
begin 3 tidy 626262626262626201
begin 2 tidy 616161616161616162626262626262620101
step 1175
finish 1173
begin 1 tidy 616161616161616100
finish 1179
begin 3 tidy 61616161616161610101
finish 1178
feed 262 3
feed 190 1
step 1175
step 1175
step 1175
step 1175
step 1175
begin 3 tidy 616161616161616102
finish 1180
finish 1176
step 1177
step 1177
step 1177
step 1177
begin 1 tidy 62626262626262620202
begin 3 tidy 616161616161616162626262626262620303
step 1184
step 1177
finish 1181
step 1177
step 1177
begin 1 remove 6161616161616161626262626262626202
finish 1185
step 1176
step 1184
step 1184
step 1184
step 1184
step 1184
step 1184
begin 3 tidy 6161616161616161626262626262626200
step 1177
step 1177
step 1177
step 1177
step 1177
step 1177
step 1177
begin 1 tidy 61616161616161610303
step 1184
step 1184
step 1184
step 1184
step 1184
step 1184
step 1184
step 1182
finish 1187
begin 1 tidy 61616161616161610101
begin 2 tidy 6161616161616161626262626262626202
step 1176
step 1176
step 1176
step 1176
step 1176
step 1186
step 1183
finish 1186
finish 1188
finish 1189
begin 2 tidy 626262626262626203
begin 2 tidy 62626262626262620000
begin 2 tidy 626262626262626201
step 1190
begin 2 tidy 616161616161616162626262626262620101
step 1182
step 1182
step 1182
step 1182
step 1182
step 1182
finish 1191
step 1193
begin 1 remove 616161616161616162626262626262620101
step 1190
step 1190
step 1190
step 1190
step 1190
step 1192
begin 3 remove 616161616161616162626262626262620101
finish 1192
begin 1 remove 61616161616161610101
finish 1183
begin 3 remove 616161616161616102
step 1194
step 1194
step 1194
step 1194
step 1194
step 1194
step 1194
finish 1196
begin 2 tidy 616161616161616162626262626262620101
finish 1193
step 1194
begin 1 remove 616161616161616100
step 1194
step 1197
step 1197
step 1197
step 1197
step 1197
step 1197
step 1197
step 1194
step 1194
step 1194
step 1194
step 1194
step 1194
step 1198
begin 2 remove 62626262626262620000
step 1197
finish 1199
begin 3 remove 616161616161616162626262626262620303
step 1198
step 1198
step 1198
step 1198
step 1198
step 1198
step 1201
finish 1201
begin 3 remove 61616161616161610303
step 1182
step 1182
step 1182
step 1182
step 1182
step 1182
begin 2 remove 6161616161616161626262626262626202
step 1198
step 1197
step 1200
step 1197
step 1197
step 1197
step 1197
begin 3 remove 6161616161616161626262626262626200
step 1204
collect
step 1204
step 1204
step 1204
step 1204
step 1204
step 1204
finish 1202
step 1203
step 1200
step 1195
step 1195
step 1198
step 1198
step 1198
step 1198
step 1198
step 1200
step 1200
step 1200
step 1200
step 1195
step 1195
step 1195
step 1195
step 1195
step 1195
step 1195
step 1195
step 1195
step 1195
step 1195
step 1195
step 1195
step 1203
step 1203
step 1203
step 1203
step 1203
step 1203
step 1203
step 1203
step 1203
step 1203
step 1203
step 1203
step 1203
step 1204
step 1204
step 1204
step 1204
step 1204
step 1204
step 1204
step 1204
step 1204
finish 1204
