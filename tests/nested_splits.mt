begin 1 put 0000 -
finish 1
begin 1 put 0010 -
finish 2
begin 1 put 0020 -
finish 3
begin 1 put 0030 -
finish 4
begin 1 put 0040 -
finish 5
begin 1 put 0050 -
finish 6
begin 1 put 0060 -
finish 7
begin 1 put 0070 -
finish 8
begin 1 put 0080 -
finish 9
begin 1 put 0090 -
finish 10
begin 1 put 00a0 -
finish 11
begin 1 put 00b0 -
finish 12
begin 1 put 00c0 -
finish 13
begin 1 put 00d0 -
finish 14
begin 1 put 00e0 -
finish 15
begin 1 put 00f0 -
finish 16
begin 1 put 0100 -
finish 17
begin 1 put 0110 -
finish 18
begin 1 put 0120 -
finish 19
begin 1 put 0130 -
finish 20
begin 1 put 0140 -
finish 21
begin 1 put 0150 -
finish 22
begin 1 put 0160 -
finish 23
begin 1 put 0170 -
finish 24
begin 1 put 0180 -
finish 25
begin 1 put 0190 -
finish 26
begin 1 put 01a0 -
finish 27
begin 1 put 01b0 -
finish 28
begin 1 put 01c0 -
finish 29
begin 1 put 01d0 -
finish 30
begin 1 put 01e0 -
finish 31
begin 1 put 01f0 -
finish 32
begin 1 put 0200 -
finish 33
begin 1 put 0210 -
finish 34
begin 1 put 0220 -
finish 35
begin 1 put 0230 -
finish 36
begin 1 put 0240 -
finish 37
begin 1 put 0250 -
finish 38
begin 1 put 0260 -
finish 39
begin 1 put 0270 -
finish 40
begin 1 put 0280 -
finish 41
begin 1 put 0290 -
finish 42
begin 1 put 02a0 -
finish 43
begin 1 put 02b0 -
finish 44
begin 1 put 02c0 -
finish 45
begin 1 put 02d0 -
finish 46
begin 1 put 02e0 -
finish 47
begin 1 put 02f0 -
finish 48
begin 1 put 0300 -
finish 49
begin 1 put 0310 -
finish 50
begin 1 put 0320 -
finish 51
begin 1 put 0330 -
finish 52
begin 1 put 0340 -
finish 53
begin 1 put 0350 -
finish 54
begin 1 put 0360 -
finish 55
begin 1 put 0370 -
finish 56
begin 1 put 0380 -
finish 57
begin 1 put 0390 -
finish 58
begin 1 put 03a0 -
finish 59
begin 1 put 03b0 -
finish 60
begin 1 put 03c0 -
finish 61
begin 1 put 03d0 -
finish 62
begin 1 put 03e0 -
finish 63
begin 1 put 03f0 -
finish 64
begin 1 put 0400 -
finish 65
begin 1 put 0410 -
finish 66
begin 1 put 0420 -
finish 67
begin 1 put 0430 -
finish 68
begin 1 put 0440 -
finish 69
begin 1 put 0450 -
finish 70
begin 1 put 0460 -
finish 71
begin 1 put 0470 -
finish 72
begin 1 put 0480 -
finish 73
begin 1 put 0490 -
finish 74
begin 1 put 04a0 -
finish 75
begin 1 put 04b0 -
finish 76
begin 1 put 04c0 -
finish 77
begin 1 put 04d0 -
finish 78
begin 1 put 04e0 -
finish 79
begin 1 put 04f0 -
finish 80
begin 1 put 0500 -
finish 81
begin 1 put 0510 -
finish 82
begin 1 put 0520 -
finish 83
begin 1 put 0530 -
finish 84
begin 1 put 0540 -
finish 85
begin 1 put 0550 -
finish 86
begin 1 put 0560 -
finish 87
begin 1 put 0570 -
finish 88
begin 1 put 0580 -
finish 89
begin 1 put 0590 -
finish 90
begin 1 put 05a0 -
finish 91
begin 1 put 05b0 -
finish 92
begin 1 put 05c0 -
finish 93
begin 1 put 05d0 -
finish 94
begin 1 put 05e0 -
finish 95
begin 1 put 05f0 -
finish 96
begin 1 put 0600 -
finish 97
begin 1 put 0610 -
finish 98
begin 1 put 0620 -
finish 99
begin 1 put 0630 -
finish 100
begin 1 put 0640 -
finish 101
begin 1 put 0650 -
finish 102
begin 1 put 0660 -
finish 103
begin 1 put 0670 -
finish 104
begin 1 put 0680 -
finish 105
begin 1 put 0690 -
finish 106
begin 1 put 06a0 -
finish 107
begin 1 put 06b0 -
finish 108
begin 1 put 06c0 -
finish 109
begin 1 put 06d0 -
finish 110
begin 1 put 06e0 -
finish 111
begin 1 put 06f0 -
finish 112
begin 1 put 0700 -
finish 113
begin 1 put 0710 -
finish 114
begin 1 put 0720 -
finish 115
begin 1 put 0730 -
finish 116
begin 1 put 0740 -
finish 117
begin 1 put 0750 -
finish 118
begin 1 put 0760 -
finish 119
begin 1 put 0770 -
finish 120
begin 1 put 0780 -
finish 121
begin 1 put 0790 -
finish 122
begin 1 put 07a0 -
finish 123
begin 1 put 07b0 -
finish 124
begin 1 put 07c0 -
finish 125
begin 1 put 07d0 -
finish 126
begin 1 put 07e0 -
finish 127
begin 1 put 07f0 -
finish 128
begin 1 put 0800 -
finish 129
begin 1 put 0810 -
finish 130
begin 1 put 0820 -
finish 131
begin 1 put 0830 -
finish 132
begin 1 put 0840 -
finish 133
begin 1 put 0850 -
finish 134
begin 1 put 0860 -
finish 135
begin 1 put 0870 -
finish 136
begin 1 put 0880 -
finish 137
begin 1 put 0890 -
finish 138
begin 1 put 08a0 -
finish 139
begin 1 put 08b0 -
finish 140
begin 1 put 08c0 -
finish 141
begin 1 put 08d0 -
finish 142
begin 1 put 08e0 -
finish 143
begin 1 put 08f0 -
finish 144
begin 1 put 0900 -
finish 145
begin 1 put 0910 -
finish 146
begin 1 put 0920 -
finish 147
begin 1 put 0930 -
finish 148
begin 1 put 0940 -
finish 149
begin 1 put 0950 -
finish 150
begin 1 put 0960 -
finish 151
begin 1 put 0970 -
finish 152
begin 1 put 0980 -
finish 153
begin 1 put 0990 -
finish 154
begin 1 put 09a0 -
finish 155
begin 1 put 09b0 -
finish 156
begin 1 put 09c0 -
finish 157
begin 1 put 09d0 -
finish 158
begin 1 put 09e0 -
finish 159
begin 1 put 09f0 -
finish 160
begin 1 put 0a00 -
finish 161
begin 1 put 0a10 -
finish 162
begin 1 put 0a20 -
finish 163
begin 1 put 0a30 -
finish 164
begin 1 put 0a40 -
finish 165
begin 1 put 0a50 -
finish 166
begin 1 put 0a60 -
finish 167
begin 1 put 0a70 -
finish 168
begin 1 put 0a80 -
finish 169
begin 1 put 0a90 -
finish 170
begin 1 put 0aa0 -
finish 171
begin 1 put 0ab0 -
finish 172
begin 1 put 0ac0 -
finish 173
begin 1 put 0ad0 -
finish 174
begin 1 put 0ae0 -
finish 175
begin 1 put 0af0 -
finish 176
begin 1 put 0b00 -
finish 177
begin 1 put 0b10 -
finish 178
begin 1 put 0b20 -
finish 179
begin 1 put 0b30 -
finish 180
begin 1 put 0b40 -
finish 181
begin 1 put 0b50 -
finish 182
begin 1 put 0b60 -
finish 183
begin 1 put 0b70 -
finish 184
begin 1 put 0b80 -
finish 185
begin 1 put 0b90 -
finish 186
begin 1 put 0ba0 -
finish 187
begin 1 put 0bb0 -
finish 188
begin 1 put 0bc0 -
finish 189
begin 1 put 0bd0 -
finish 190
begin 1 put 0be0 -
finish 191
begin 1 put 0bf0 -
finish 192
begin 1 put 0c00 -
finish 193
begin 1 put 0c10 -
finish 194
begin 1 put 0c20 -
finish 195
begin 1 put 0c30 -
finish 196
begin 1 put 0c40 -
finish 197
begin 1 put 0c50 -
finish 198
begin 1 put 0c60 -
finish 199
begin 1 put 0c70 -
finish 200
begin 1 put 0c80 -
finish 201
begin 1 put 0c90 -
finish 202
begin 1 put 0ca0 -
finish 203
begin 1 put 0cb0 -
finish 204
begin 1 put 0cc0 -
finish 205
begin 1 put 0cd0 -
finish 206
begin 1 put 0ce0 -
finish 207
begin 1 put 0cf0 -
finish 208
begin 1 put 0d00 -
finish 209
begin 1 put 0d10 -
finish 210
begin 1 put 0d20 -
finish 211
begin 1 put 0d30 -
finish 212
begin 1 put 0d40 -
finish 213
begin 1 put 0d50 -
finish 214
begin 1 put 0d60 -
finish 215
begin 1 put 0d70 -
finish 216
begin 1 put 0d80 -
finish 217
begin 1 put 0d90 -
finish 218
begin 1 put 0da0 -
finish 219
begin 1 put 0db0 -
finish 220
begin 1 put 0dc0 -
finish 221
begin 1 put 0dd0 -
finish 222
begin 1 put 0de0 -
finish 223
begin 1 put 0df0 -
finish 224
begin 1 put 0e00 -
finish 225
begin 1 put 0e10 -
finish 226
begin 1 put 0e20 -
finish 227
begin 1 put 0e30 -
finish 228
begin 1 put 0e40 -
finish 229
begin 1 put 0e50 -
finish 230
begin 1 put 0e60 -
finish 231
begin 1 put 0e70 -
finish 232
begin 1 put 0e80 -
finish 233
begin 1 put 0e90 -
finish 234
begin 1 put 0ea0 -
finish 235
begin 1 put 0eb0 -
finish 236
begin 1 put 0ec0 -
finish 237
begin 1 put 0ed0 -
finish 238
begin 1 put 0ee0 -
finish 239
begin 1 put 0ef0 -
finish 240
begin 1 put 0f00 -
finish 241
begin 1 put 0f10 -
finish 242
begin 1 put 0f20 -
finish 243
begin 1 put 0f30 -
finish 244
begin 1 put 0f40 -
finish 245
begin 1 put 0f50 -
finish 246
begin 1 put 0f60 -
finish 247
begin 1 put 0f70 -
finish 248
begin 1 put 0f80 -
finish 249
begin 1 put 0f90 -
finish 250
begin 1 put 0fa0 -
finish 251
begin 1 put 0fb0 -
finish 252
begin 1 put 0fc0 -
finish 253
begin 1 put 0fd0 -
finish 254
begin 1 put 0fe0 -
finish 255
begin 1 put 0ff0 -
finish 256
begin 1 put 1000 -
finish 257
begin 1 put 1010 -
finish 258
begin 1 put 1020 -
finish 259
begin 1 put 1030 -
finish 260
begin 1 put 1040 -
finish 261
begin 1 put 1050 -
finish 262
begin 1 put 1060 -
finish 263
begin 1 put 1070 -
finish 264
begin 1 put 1080 -
finish 265
begin 1 put 1090 -
finish 266
begin 1 put 10a0 -
finish 267
begin 1 put 10b0 -
finish 268
begin 1 put 10c0 -
finish 269
begin 1 put 10d0 -
finish 270
begin 1 put 10e0 -
finish 271
begin 1 put 10f0 -
finish 272
begin 1 put 1100 -
finish 273
begin 1 put 1110 -
finish 274
begin 1 put 1120 -
finish 275
begin 1 put 1130 -
finish 276
begin 1 put 1140 -
finish 277
begin 1 put 1150 -
finish 278
begin 1 put 1160 -
finish 279
begin 1 put 1170 -
finish 280
begin 1 put 1180 -
finish 281
begin 1 put 1190 -
finish 282
begin 1 put 11a0 -
finish 283
begin 1 put 11b0 -
finish 284
begin 1 put 11c0 -
finish 285
begin 1 put 11d0 -
finish 286
begin 1 put 11e0 -
finish 287
begin 1 put 11f0 -
finish 288
begin 1 put 1200 -
finish 289
begin 1 put 1210 -
finish 290
begin 1 put 1220 -
finish 291
begin 1 put 1230 -
finish 292
begin 1 put 1240 -
finish 293
begin 1 put 1250 -
finish 294
begin 1 put 1260 -
finish 295
begin 1 put 1270 -
finish 296
begin 1 put 1280 -
finish 297
begin 1 put 1290 -
finish 298
begin 1 put 12a0 -
finish 299
begin 1 put 12b0 -
finish 300
begin 1 put 12c0 -
finish 301
begin 1 put 12d0 -
finish 302
begin 1 put 12e0 -
finish 303
begin 1 put 12f0 -
finish 304
begin 1 put 1300 -
finish 305
begin 1 put 1310 -
finish 306
begin 1 put 1320 -
finish 307
begin 1 put 1330 -
finish 308
begin 1 put 1340 -
finish 309
begin 1 put 1350 -
finish 310
begin 1 put 1360 -
finish 311
begin 1 put 1370 -
finish 312
begin 1 put 1380 -
finish 313
begin 1 put 1390 -
finish 314
begin 1 put 13a0 -
finish 315
begin 1 put 13b0 -
finish 316
begin 1 put 13c0 -
finish 317
begin 1 put 13d0 -
finish 318
begin 1 put 13e0 -
finish 319
begin 1 put 13f0 -
finish 320
begin 1 put 1400 -
finish 321
begin 1 put 1410 -
finish 322
begin 1 put 1420 -
finish 323
begin 1 put 1430 -
finish 324
begin 1 put 1440 -
finish 325
begin 1 put 1450 -
finish 326
begin 1 put 1460 -
finish 327
begin 1 put 1470 -
finish 328
begin 1 put 1480 -
finish 329
begin 1 put 1490 -
finish 330
begin 1 put 14a0 -
finish 331
begin 1 put 14b0 -
finish 332
begin 1 put 14c0 -
finish 333
begin 1 put 14d0 -
finish 334
begin 1 put 14e0 -
finish 335
begin 1 put 14f0 -
finish 336
begin 1 put 1500 -
finish 337
begin 1 put 1510 -
finish 338
begin 1 put 1520 -
finish 339
begin 1 put 1530 -
finish 340
begin 1 put 1540 -
finish 341
begin 1 put 1550 -
finish 342
begin 1 put 1560 -
finish 343
begin 1 put 1570 -
finish 344
begin 1 put 1580 -
finish 345
begin 1 put 1590 -
finish 346
begin 1 put 15a0 -
finish 347
begin 1 put 15b0 -
finish 348
begin 1 put 15c0 -
finish 349
begin 1 put 15d0 -
finish 350
begin 1 put 15e0 -
finish 351
begin 1 put 15f0 -
finish 352
begin 1 put 1600 -
finish 353
begin 1 put 1610 -
finish 354
begin 1 put 1620 -
finish 355
begin 1 put 1630 -
finish 356
begin 1 put 1640 -
finish 357
begin 1 put 1650 -
finish 358
begin 1 put 1660 -
finish 359
begin 1 put 1670 -
finish 360
begin 1 put 1680 -
finish 361
begin 1 put 1690 -
finish 362
begin 1 put 16a0 -
finish 363
begin 1 put 16b0 -
finish 364
begin 1 put 16c0 -
finish 365
begin 1 put 16d0 -
finish 366
begin 1 put 16e0 -
finish 367
begin 1 put 16f0 -
finish 368
begin 1 put 1700 -
finish 369
begin 1 put 1710 -
finish 370
begin 1 put 1720 -
finish 371
begin 1 put 1730 -
finish 372
begin 1 put 1740 -
finish 373
begin 1 put 1750 -
finish 374
begin 1 put 1760 -
finish 375
begin 1 put 1770 -
finish 376
begin 1 put 1780 -
finish 377
begin 1 put 1790 -
finish 378
begin 1 put 17a0 -
finish 379
begin 1 put 17b0 -
finish 380
begin 1 put 17c0 -
finish 381
begin 1 put 17d0 -
finish 382
begin 1 put 17e0 -
finish 383
begin 1 put 17f0 -
finish 384
begin 1 put 1800 -
finish 385
begin 1 put 1810 -
finish 386
begin 1 put 1820 -
finish 387
begin 1 put 1830 -
finish 388
begin 1 put 1840 -
finish 389
begin 1 put 1850 -
finish 390
begin 1 put 1860 -
finish 391
begin 1 put 1870 -
finish 392
begin 1 put 1880 -
finish 393
begin 1 put 1890 -
finish 394
begin 1 put 18a0 -
finish 395
begin 1 put 18b0 -
finish 396
begin 1 put 18c0 -
finish 397
begin 1 put 18d0 -
finish 398
begin 1 put 18e0 -
finish 399
begin 1 put 18f0 -
finish 400
begin 1 put 1900 -
finish 401
begin 1 put 1910 -
finish 402
begin 1 put 1920 -
finish 403
begin 1 put 1930 -
finish 404
begin 1 put 1940 -
finish 405
begin 1 put 1950 -
finish 406
begin 1 put 1960 -
finish 407
begin 1 put 1970 -
finish 408
begin 1 put 1980 -
finish 409
begin 1 put 1990 -
finish 410
begin 1 put 19a0 -
finish 411
begin 1 put 19b0 -
finish 412
begin 1 put 19c0 -
finish 413
begin 1 put 19d0 -
finish 414
begin 1 put 19e0 -
finish 415
begin 1 put 19f0 -
finish 416
begin 1 put 1a00 -
finish 417
begin 1 put 1a10 -
finish 418
begin 1 put 1a20 -
finish 419
begin 1 put 1a30 -
finish 420
begin 1 put 1a40 -
finish 421
begin 1 put 1a50 -
finish 422
begin 1 put 1a60 -
finish 423
begin 1 put 1a70 -
finish 424
begin 1 put 1a80 -
finish 425
begin 1 put 1a90 -
finish 426
begin 1 put 1aa0 -
finish 427
begin 1 put 1ab0 -
finish 428
begin 1 put 1ac0 -
finish 429
begin 1 put 1ad0 -
finish 430
begin 1 put 1ae0 -
finish 431
begin 1 put 1af0 -
finish 432
begin 1 put 1b00 -
finish 433
begin 1 put 1b10 -
finish 434
begin 1 put 1b20 -
finish 435
begin 1 put 1b30 -
finish 436
begin 1 put 1b40 -
finish 437
begin 1 put 1b50 -
finish 438
begin 1 put 1b60 -
finish 439
begin 1 put 1b70 -
finish 440
begin 1 put 1b80 -
finish 441
begin 1 put 1b90 -
finish 442
begin 1 put 1ba0 -
finish 443
begin 1 put 1bb0 -
finish 444
begin 1 put 1bc0 -
finish 445
begin 1 put 1bd0 -
finish 446
begin 1 put 1be0 -
finish 447
begin 1 put 1bf0 -
finish 448
begin 1 put 1c00 -
finish 449
begin 1 put 1c10 -
finish 450
begin 1 put 1c20 -
finish 451
begin 1 put 1c30 -
finish 452
begin 1 put 1c40 -
finish 453
begin 1 put 1c50 -
finish 454
begin 1 put 1c60 -
finish 455
begin 1 put 1c70 -
finish 456
begin 1 put 1c80 -
finish 457
begin 1 put 1c90 -
finish 458
begin 1 put 1ca0 -
finish 459
begin 1 put 1cb0 -
finish 460
begin 1 put 1cc0 -
finish 461
begin 1 put 1cd0 -
finish 462
begin 1 put 1ce0 -
finish 463
begin 1 put 1cf0 -
finish 464
begin 1 put 1d00 -
finish 465
begin 1 put 1d10 -
finish 466
begin 1 put 1d20 -
finish 467
begin 1 put 1d30 -
finish 468
begin 1 put 1d40 -
finish 469
begin 1 put 1d50 -
finish 470
begin 1 put 1d60 -
finish 471
begin 1 put 1d70 -
finish 472
begin 1 put 1d80 -
finish 473
begin 1 put 1d90 -
finish 474
begin 1 put 1da0 -
finish 475
begin 1 put 1db0 -
finish 476
begin 1 put 1dc0 -
finish 477
begin 1 put 1dd0 -
finish 478
begin 1 put 1de0 -
finish 479
begin 1 put 1df0 -
finish 480
begin 1 put 1e00 -
finish 481
begin 1 put 1e10 -
finish 482
begin 1 put 1e20 -
finish 483
begin 1 put 1e30 -
finish 484
begin 1 put 1e40 -
finish 485
begin 1 put 1e50 -
finish 486
begin 1 put 1e60 -
finish 487
begin 1 put 1e70 -
finish 488
begin 1 put 1e80 -
finish 489
begin 1 put 1e90 -
finish 490
begin 1 put 1ea0 -
finish 491
begin 1 put 1eb0 -
finish 492
begin 1 put 1ec0 -
finish 493
begin 1 put 1ed0 -
finish 494
begin 1 put 1ee0 -
finish 495
begin 1 put 1ef0 -
finish 496
begin 1 put 1f00 -
finish 497
begin 1 put 1f10 -
finish 498
begin 1 put 1f20 -
finish 499
begin 1 put 1f30 -
finish 500
begin 1 put 1f40 -
finish 501
begin 1 put 1f50 -
finish 502
begin 1 put 1f60 -
finish 503
begin 1 put 1f70 -
finish 504
begin 1 put 1f80 -
finish 505
begin 1 put 1f90 -
finish 506
begin 1 put 1fa0 -
finish 507
begin 1 put 1fb0 -
finish 508
begin 1 put 1fc0 -
finish 509
begin 1 put 1fd0 -
finish 510
begin 1 put 1fe0 -
finish 511
begin 1 put 1ff0 -
finish 512
begin 1 put 2000 -
finish 513
begin 1 put 2010 -
finish 514
begin 1 put 2020 -
finish 515
begin 1 put 2030 -
finish 516
begin 1 put 2040 -
finish 517
begin 1 put 2050 -
finish 518
begin 1 put 2060 -
finish 519
begin 1 put 2070 -
finish 520
begin 1 put 2080 -
finish 521
begin 1 put 2090 -
finish 522
begin 1 put 20a0 -
finish 523
begin 1 put 20b0 -
finish 524
begin 1 put 20c0 -
finish 525
begin 1 put 20d0 -
finish 526
begin 1 put 20e0 -
finish 527
begin 1 put 20f0 -
finish 528
begin 1 put 2100 -
finish 529
begin 1 put 2110 -
finish 530
begin 1 put 2120 -
finish 531
begin 1 put 2130 -
finish 532
begin 1 put 2140 -
finish 533
begin 1 put 2150 -
finish 534
begin 1 put 2160 -
finish 535
begin 1 put 2170 -
finish 536
begin 1 put 2180 -
finish 537
begin 1 put 2190 -
finish 538
begin 1 put 21a0 -
finish 539
begin 1 put 21b0 -
finish 540
begin 1 put 21c0 -
finish 541
begin 1 put 21d0 -
finish 542
begin 1 put 21e0 -
finish 543
begin 1 put 21f0 -
finish 544
begin 1 put 2200 -
finish 545
begin 1 put 2210 -
finish 546
begin 1 put 2220 -
finish 547
begin 1 put 2230 -
finish 548
begin 1 put 2240 -
finish 549
begin 1 put 2250 -
finish 550
begin 1 put 2260 -
finish 551
begin 1 put 2270 -
finish 552
begin 1 put 2280 -
finish 553
begin 1 put 2290 -
finish 554
begin 1 put 22a0 -
finish 555
begin 1 put 22b0 -
finish 556
begin 1 put 22c0 -
finish 557
begin 1 put 22d0 -
finish 558
begin 1 put 22e0 -
finish 559
begin 1 put 22f0 -
finish 560
begin 1 put 2300 -
finish 561
begin 1 put 2310 -
finish 562
begin 1 put 2320 -
finish 563
begin 1 put 2330 -
finish 564
begin 1 put 2340 -
finish 565
begin 1 put 2350 -
finish 566
begin 1 put 2360 -
finish 567
begin 1 put 2370 -
finish 568
begin 1 put 2380 -
finish 569
begin 1 put 2390 -
finish 570
begin 1 put 23a0 -
finish 571
begin 1 put 23b0 -
finish 572
begin 1 put 23c0 -
finish 573
begin 1 put 23d0 -
finish 574
begin 1 put 23e0 -
finish 575
begin 1 put 23f0 -
finish 576
begin 1 put 2400 -
finish 577
begin 1 put 2410 -
finish 578
begin 1 put 2420 -
finish 579
begin 1 put 2430 -
finish 580
begin 1 put 2440 -
finish 581
begin 1 put 2450 -
finish 582
begin 1 put 2460 -
finish 583
begin 1 put 2470 -
finish 584
begin 1 put 2480 -
finish 585
begin 1 put 2490 -
finish 586
begin 1 put 24a0 -
finish 587
begin 1 put 24b0 -
finish 588
begin 1 put 24c0 -
finish 589
begin 1 put 24d0 -
finish 590
begin 1 put 24e0 -
finish 591
begin 1 put 24f0 -
finish 592
begin 1 put 2500 -
finish 593
begin 1 put 2510 -
finish 594
begin 1 put 2520 -
finish 595
begin 1 put 2530 -
finish 596
begin 1 put 2540 -
finish 597
begin 1 put 2550 -
finish 598
begin 1 put 2560 -
finish 599
begin 1 put 2570 -
finish 600
begin 1 put 2580 -
finish 601
begin 1 put 2590 -
finish 602
begin 1 put 25a0 -
finish 603
begin 1 put 25b0 -
finish 604
begin 1 put 25c0 -
finish 605
begin 1 put 25d0 -
finish 606
begin 1 put 25e0 -
finish 607
begin 1 put 25f0 -
finish 608
begin 1 put 2600 -
finish 609
begin 1 put 2610 -
finish 610
begin 1 put 2620 -
finish 611
begin 1 put 2630 -
finish 612
begin 1 put 2640 -
finish 613
begin 1 put 2650 -
finish 614
begin 1 put 2660 -
finish 615
begin 1 put 2670 -
finish 616
begin 1 put 2680 -
finish 617
begin 1 put 2690 -
finish 618
begin 1 put 26a0 -
finish 619
begin 1 put 26b0 -
finish 620
begin 1 put 26c0 -
finish 621
begin 1 put 26d0 -
finish 622
begin 1 put 26e0 -
finish 623
begin 1 put 26f0 -
finish 624
begin 1 put 2700 -
finish 625
begin 1 put 2710 -
finish 626
begin 1 put 2720 -
finish 627
begin 1 put 2730 -
finish 628
begin 1 put 2740 -
finish 629
begin 1 put 2750 -
finish 630
begin 1 put 2760 -
finish 631
begin 1 put 2770 -
finish 632
begin 1 put 2780 -
finish 633
begin 1 put 2790 -
finish 634
begin 1 put 27a0 -
finish 635
begin 1 put 27b0 -
finish 636
begin 1 put 27c0 -
finish 637
begin 1 put 27d0 -
finish 638
begin 1 put 27e0 -
finish 639
begin 1 put 27f0 -
finish 640
begin 1 put 2800 -
finish 641
begin 1 put 2810 -
finish 642
begin 1 put 2820 -
finish 643
begin 1 put 2830 -
finish 644
begin 1 put 2840 -
finish 645
begin 1 put 2850 -
finish 646
begin 1 put 2860 -
finish 647
begin 1 put 2870 -
finish 648
begin 1 put 2880 -
finish 649
begin 1 put 2890 -
finish 650
begin 1 put 28a0 -
finish 651
begin 1 put 28b0 -
finish 652
begin 1 put 28c0 -
finish 653
begin 1 put 28d0 -
finish 654
begin 1 put 28e0 -
finish 655
begin 1 put 28f0 -
finish 656
begin 1 put 2900 -
finish 657
begin 1 put 2910 -
finish 658
begin 1 put 2920 -
finish 659
begin 1 put 2930 -
finish 660
begin 1 put 2940 -
finish 661
begin 1 put 2950 -
finish 662
begin 1 put 2960 -
finish 663
begin 1 put 2970 -
finish 664
begin 1 put 2980 -
finish 665
begin 1 put 2990 -
finish 666
begin 1 put 29a0 -
finish 667
begin 1 put 29b0 -
finish 668
begin 1 put 29c0 -
finish 669
begin 1 put 29d0 -
finish 670
begin 1 put 29e0 -
finish 671
begin 1 put 29f0 -
finish 672
begin 1 put 2a00 -
finish 673
begin 1 put 2a10 -
finish 674
begin 1 put 2a20 -
finish 675
begin 1 put 2a30 -
finish 676
begin 1 put 2a40 -
finish 677
begin 1 put 2a50 -
finish 678
begin 1 put 2a60 -
finish 679
begin 1 put 2a70 -
finish 680
begin 1 put 2a80 -
finish 681
begin 1 put 2a90 -
finish 682
begin 1 put 2aa0 -
finish 683
begin 1 put 2ab0 -
finish 684
begin 1 put 2ac0 -
finish 685
begin 1 put 2ad0 -
finish 686
begin 1 put 2ae0 -
finish 687
begin 1 put 2af0 -
finish 688
begin 1 put 2b00 -
finish 689
begin 1 put 2b10 -
finish 690
begin 1 put 2b20 -
finish 691
begin 1 put 2b30 -
finish 692
begin 1 put 2b40 -
finish 693
begin 1 put 2b50 -
finish 694
begin 1 put 2b60 -
finish 695
begin 1 put 2b70 -
finish 696
begin 1 put 2b80 -
finish 697
begin 1 put 2b90 -
finish 698
begin 1 put 2ba0 -
finish 699
begin 1 put 2bb0 -
finish 700
begin 1 put 2bc0 -
finish 701
begin 1 put 2bd0 -
finish 702
begin 1 put 2be0 -
finish 703
begin 1 put 2bf0 -
finish 704
begin 1 put 2c00 -
finish 705
begin 1 put 2c10 -
finish 706
begin 1 put 2c20 -
finish 707
begin 1 put 2c30 -
finish 708
begin 1 put 2c40 -
finish 709
begin 1 put 2c50 -
finish 710
begin 1 put 2c60 -
finish 711
begin 1 put 2c70 -
finish 712
begin 1 put 2c80 -
finish 713
begin 1 put 2c90 -
finish 714
begin 1 put 2ca0 -
finish 715
begin 1 put 2cb0 -
finish 716
begin 1 put 2cc0 -
finish 717
begin 1 put 2cd0 -
finish 718
begin 1 put 2ce0 -
finish 719
begin 1 put 2cf0 -
finish 720
begin 1 put 2d00 -
finish 721
begin 1 put 2d10 -
finish 722
begin 1 put 2d20 -
finish 723
begin 1 put 2d30 -
finish 724
begin 1 put 2d40 -
finish 725
begin 1 put 2d50 -
finish 726
begin 1 put 2d60 -
finish 727
begin 1 put 2d70 -
finish 728
begin 1 put 2d80 -
finish 729
begin 1 put 2d90 -
finish 730
begin 1 put 2da0 -
finish 731
begin 1 put 2db0 -
finish 732
begin 1 put 2dc0 -
finish 733
begin 1 put 2dd0 -
finish 734
begin 1 put 2de0 -
finish 735
begin 1 put 2df0 -
finish 736
begin 1 put 2e00 -
finish 737
begin 1 put 2e10 -
finish 738
begin 1 put 2e20 -
finish 739
begin 1 put 2e30 -
finish 740
begin 1 put 2e40 -
finish 741
begin 1 put 2e50 -
finish 742
begin 1 put 2e60 -
finish 743
begin 1 put 2e70 -
finish 744
begin 1 put 2e80 -
finish 745
begin 1 put 2e90 -
finish 746
begin 1 put 2ea0 -
finish 747
begin 1 put 2eb0 -
finish 748
begin 1 put 2ec0 -
finish 749
begin 1 put 2ed0 -
finish 750
begin 1 put 2ee0 -
finish 751
begin 1 put 2ef0 -
finish 752
begin 1 put 2f00 -
finish 753
begin 1 put 2f10 -
finish 754
begin 1 put 2f20 -
finish 755
begin 1 put 2f30 -
finish 756
begin 1 put 2f40 -
finish 757
begin 1 put 2f50 -
finish 758
begin 1 put 2f60 -
finish 759
begin 1 put 2f70 -
finish 760
begin 1 put 2f80 -
finish 761
begin 1 put 2f90 -
finish 762
begin 1 put 2fa0 -
finish 763
begin 1 put 2fb0 -
finish 764
begin 1 put 2fc0 -
finish 765
begin 1 put 2fd0 -
finish 766
begin 1 put 2fe0 -
finish 767
begin 1 put 2ff0 -
finish 768
begin 1 put 3000 -
finish 769
begin 1 put 3010 -
finish 770
begin 1 put 3020 -
finish 771
begin 1 put 3030 -
finish 772
begin 1 put 3040 -
finish 773
begin 1 put 3050 -
finish 774
begin 1 put 3060 -
finish 775
begin 1 put 3070 -
finish 776
begin 1 put 3080 -
finish 777
begin 1 put 3090 -
finish 778
begin 1 put 30a0 -
finish 779
begin 1 put 30b0 -
finish 780
begin 1 put 30c0 -
finish 781
begin 1 put 30d0 -
finish 782
begin 1 put 30e0 -
finish 783
begin 1 put 30f0 -
finish 784
begin 1 put 3100 -
finish 785
begin 1 put 3110 -
finish 786
begin 1 put 3120 -
finish 787
begin 1 put 3130 -
finish 788
begin 1 put 3140 -
finish 789
begin 1 put 3150 -
finish 790
begin 1 put 3160 -
finish 791
begin 1 put 3170 -
finish 792
begin 1 put 3180 -
finish 793
begin 1 put 3190 -
finish 794
begin 1 put 31a0 -
finish 795
begin 1 put 31b0 -
finish 796
begin 1 put 31c0 -
finish 797
begin 1 put 31d0 -
finish 798
begin 1 put 31e0 -
finish 799
begin 1 put 31f0 -
finish 800
begin 1 put 3200 -
finish 801
begin 1 put 3210 -
finish 802
begin 1 put 3220 -
finish 803
begin 1 put 3230 -
finish 804
begin 1 put 3240 -
finish 805
begin 1 put 3250 -
finish 806
begin 1 put 3260 -
finish 807
begin 1 put 3270 -
finish 808
begin 1 put 3280 -
finish 809
begin 1 put 3290 -
finish 810
begin 1 put 32a0 -
finish 811
begin 1 put 32b0 -
finish 812
begin 1 put 32c0 -
finish 813
begin 1 put 32d0 -
finish 814
begin 1 put 32e0 -
finish 815
begin 1 put 32f0 -
finish 816
begin 1 put 3300 -
finish 817
begin 1 put 3310 -
finish 818
begin 1 put 3320 -
finish 819
begin 1 put 3330 -
finish 820
begin 1 put 3340 -
finish 821
begin 1 put 3350 -
finish 822
begin 1 put 3360 -
finish 823
begin 1 put 3370 -
finish 824
begin 1 put 3380 -
finish 825
begin 1 put 3390 -
finish 826
begin 1 put 33a0 -
finish 827
begin 1 put 33b0 -
finish 828
begin 1 put 33c0 -
finish 829
begin 1 put 33d0 -
finish 830
begin 1 put 33e0 -
finish 831
begin 1 put 33f0 -
finish 832
begin 1 put 3400 -
finish 833
begin 1 put 3410 -
finish 834
begin 1 put 3420 -
finish 835
begin 1 put 3430 -
finish 836
begin 1 put 3440 -
finish 837
begin 1 put 3450 -
finish 838
begin 1 put 3460 -
finish 839
begin 1 put 3470 -
finish 840
begin 1 put 3480 -
finish 841
begin 1 put 3490 -
finish 842
begin 1 put 34a0 -
finish 843
begin 1 put 34b0 -
finish 844
begin 1 put 34c0 -
finish 845
begin 1 put 34d0 -
finish 846
begin 1 put 34e0 -
finish 847
begin 1 put 34f0 -
finish 848
begin 1 put 3500 -
finish 849
begin 1 put 3510 -
finish 850
begin 1 put 3520 -
finish 851
begin 1 put 3530 -
finish 852
begin 1 put 3540 -
finish 853
begin 1 put 3550 -
finish 854
begin 1 put 3560 -
finish 855
begin 1 put 3570 -
finish 856
begin 1 put 3580 -
finish 857
begin 1 put 3590 -
finish 858
begin 1 put 35a0 -
finish 859
begin 1 put 35b0 -
finish 860
begin 1 put 35c0 -
finish 861
begin 1 put 35d0 -
finish 862
begin 1 put 35e0 -
finish 863
begin 1 put 35f0 -
finish 864
begin 1 put 3600 -
finish 865
begin 1 put 3610 -
finish 866
begin 1 put 3620 -
finish 867
begin 1 put 3630 -
finish 868
begin 1 put 3640 -
finish 869
begin 1 put 3650 -
finish 870
begin 1 put 3660 -
finish 871
begin 1 put 3670 -
finish 872
begin 1 put 3680 -
finish 873
begin 1 put 3690 -
finish 874
begin 1 put 36a0 -
finish 875
begin 1 put 36b0 -
finish 876
begin 1 put 36c0 -
finish 877
begin 1 put 36d0 -
finish 878
begin 1 put 36e0 -
finish 879
begin 1 put 36f0 -
finish 880
begin 1 put 3700 -
finish 881
begin 1 put 3710 -
finish 882
begin 1 put 3720 -
finish 883
begin 1 put 3730 -
finish 884
begin 1 put 3740 -
finish 885
begin 1 put 3750 -
finish 886
begin 1 put 3760 -
finish 887
begin 1 put 3770 -
finish 888
begin 1 put 3780 -
finish 889
begin 1 put 3790 -
finish 890
begin 1 put 37a0 -
finish 891
begin 1 put 37b0 -
finish 892
begin 1 put 37c0 -
finish 893
begin 1 put 37d0 -
finish 894
begin 1 put 37e0 -
finish 895
begin 1 put 37f0 -
finish 896
begin 1 put 3800 -
finish 897
begin 1 put 3810 -
finish 898
begin 1 put 3820 -
finish 899
begin 1 put 3830 -
finish 900
begin 1 put 3840 -
finish 901
begin 1 put 3850 -
finish 902
begin 1 put 3860 -
finish 903
begin 1 put 3870 -
finish 904
begin 1 put 3880 -
finish 905
begin 1 put 3890 -
finish 906
begin 1 put 38a0 -
finish 907
begin 1 put 38b0 -
finish 908
begin 1 put 38c0 -
finish 909
begin 1 put 38d0 -
finish 910
begin 1 put 38e0 -
finish 911
begin 1 put 38f0 -
finish 912
begin 1 put 3900 -
finish 913
begin 1 put 3910 -
finish 914
begin 1 put 3920 -
finish 915
begin 1 put 3930 -
finish 916
begin 1 put 3940 -
finish 917
begin 1 put 3950 -
finish 918
begin 1 put 3960 -
finish 919
begin 1 put 3970 -
finish 920
begin 1 put 3980 -
finish 921
begin 1 put 3990 -
finish 922
begin 1 put 39a0 -
finish 923
begin 1 put 39b0 -
finish 924
begin 1 put 39c0 -
finish 925
begin 1 put 39d0 -
finish 926
begin 1 put 39e0 -
finish 927
begin 1 put 39f0 -
finish 928
begin 1 put 3a00 -
finish 929
begin 1 put 3a10 -
finish 930
begin 1 put 3a20 -
finish 931
begin 1 put 3a30 -
finish 932
begin 1 put 3a40 -
finish 933
begin 1 put 3a50 -
finish 934
begin 1 put 3a60 -
finish 935
begin 1 put 3a70 -
finish 936
begin 1 put 3a80 -
finish 937
begin 1 put 3a90 -
finish 938
begin 1 put 3aa0 -
finish 939
begin 1 put 3ab0 -
finish 940
begin 1 put 3ac0 -
finish 941
begin 1 put 3ad0 -
finish 942
begin 1 put 3ae0 -
finish 943
begin 1 put 3af0 -
finish 944
begin 1 put 3b00 -
finish 945
begin 1 put 3b10 -
finish 946
begin 1 put 3b20 -
finish 947
begin 1 put 3b30 -
finish 948
begin 1 put 3b40 -
finish 949
begin 1 put 3b50 -
finish 950
begin 1 put 3b60 -
finish 951
begin 1 put 3b70 -
finish 952
begin 1 put 3b80 -
finish 953
begin 1 put 3b90 -
finish 954
begin 1 put 3ba0 -
finish 955
begin 1 put 3bb0 -
finish 956
begin 1 put 3bc0 -
finish 957
begin 1 put 3bd0 -
finish 958
begin 1 put 3be0 -
finish 959
begin 1 put 3bf0 -
finish 960
begin 1 put 3c00 -
finish 961
begin 1 put 3c10 -
finish 962
begin 1 put 3c20 -
finish 963
begin 1 put 3c30 -
finish 964
begin 1 put 3c40 -
finish 965
begin 1 put 3c50 -
finish 966
begin 1 put 3c60 -
finish 967
begin 1 put 3c70 -
finish 968
begin 1 put 3c80 -
finish 969
begin 1 put 3c90 -
finish 970
begin 1 put 3ca0 -
finish 971
begin 1 put 3cb0 -
finish 972
begin 1 put 3cc0 -
finish 973
begin 1 put 3cd0 -
finish 974
begin 1 put 3ce0 -
finish 975
begin 1 put 3cf0 -
finish 976
begin 1 put 3d00 -
finish 977
begin 1 put 3d10 -
finish 978
begin 1 put 3d20 -
finish 979
begin 1 put 3d30 -
finish 980
begin 1 put 3d40 -
finish 981
begin 1 put 3d50 -
finish 982
begin 1 put 3d60 -
finish 983
begin 1 put 3d70 -
finish 984
begin 1 put 3d80 -
finish 985
begin 1 put 3d90 -
finish 986
begin 1 put 3da0 -
finish 987
begin 1 put 3db0 -
finish 988
begin 1 put 3dc0 -
finish 989
begin 1 put 3dd0 -
finish 990
begin 1 put 3de0 -
finish 991
begin 1 put 3df0 -
finish 992
begin 1 put 3e00 -
finish 993
begin 1 put 3e10 -
finish 994
begin 1 put 3e20 -
finish 995
begin 1 put 3e30 -
finish 996
begin 1 put 3e40 -
finish 997
begin 1 put 3e50 -
finish 998
begin 1 put 3e60 -
finish 999
begin 1 put 3e70 -
finish 1000
begin 1 put 3e80 -
finish 1001
begin 1 put 3e90 -
finish 1002
begin 1 put 3ea0 -
finish 1003
begin 1 put 3eb0 -
finish 1004
begin 1 put 3ec0 -
finish 1005
begin 1 put 3ed0 -
finish 1006
begin 1 put 3ee0 -
finish 1007
begin 1 put 3ef0 -
finish 1008
begin 1 put 3f00 -
finish 1009
begin 1 put 3f10 -
finish 1010
begin 1 put 3f20 -
finish 1011
begin 1 put 3f30 -
finish 1012
begin 1 put 3f40 -
finish 1013
begin 1 put 3f50 -
finish 1014
begin 1 put 3f60 -
finish 1015
begin 1 put 3f70 -
finish 1016
begin 1 put 3f80 -
finish 1017
begin 1 put 3f90 -
finish 1018
begin 1 put 3fa0 -
finish 1019
begin 1 put 3fb0 -
finish 1020
begin 1 put 3fc0 -
finish 1021
begin 1 put 3fd0 -
finish 1022
begin 1 put 3fe0 -
finish 1023
begin 1 put 3ff0 -
finish 1024
begin 1 put 4000 -
finish 1025
begin 1 put 4010 -
finish 1026
begin 1 put 4020 -
finish 1027
begin 1 put 4030 -
finish 1028
begin 1 put 4040 -
finish 1029
begin 1 put 4050 -
finish 1030
begin 1 put 4060 -
finish 1031
begin 1 put 4070 -
finish 1032
begin 1 put 4080 -
finish 1033
begin 1 put 4090 -
finish 1034
begin 1 put 40a0 -
finish 1035
begin 1 put 40b0 -
finish 1036
begin 1 put 40c0 -
finish 1037
begin 1 put 40d0 -
finish 1038
begin 1 put 40e0 -
finish 1039
begin 1 put 40f0 -
finish 1040
begin 1 put 4100 -
finish 1041
begin 1 put 4110 -
finish 1042
begin 1 put 4120 -
finish 1043
begin 1 put 4130 -
finish 1044
begin 1 put 4140 -
finish 1045
begin 1 put 4150 -
finish 1046
begin 1 put 4160 -
finish 1047
begin 1 put 4170 -
finish 1048
begin 1 put 4180 -
finish 1049
begin 1 put 4190 -
finish 1050
begin 1 put 41a0 -
finish 1051
begin 1 put 41b0 -
finish 1052
begin 1 put 41c0 -
finish 1053
begin 1 put 41d0 -
finish 1054
begin 1 put 41e0 -
finish 1055
begin 1 put 41f0 -
finish 1056
begin 1 put 4200 -
finish 1057
begin 1 put 4210 -
finish 1058
begin 1 put 4220 -
finish 1059
begin 1 put 4230 -
finish 1060
begin 1 put 4240 -
finish 1061
begin 1 put 4250 -
finish 1062
begin 1 put 4260 -
finish 1063
begin 1 put 4270 -
finish 1064
begin 1 put 4280 -
finish 1065
begin 1 put 4290 -
finish 1066
begin 1 put 42a0 -
finish 1067
begin 1 put 42b0 -
finish 1068
begin 1 put 42c0 -
finish 1069
begin 1 put 42d0 -
finish 1070
begin 1 put 42e0 -
finish 1071
begin 1 put 42f0 -
finish 1072
begin 1 put 4300 -
finish 1073
begin 1 put 4310 -
finish 1074
begin 1 put 4320 -
finish 1075
begin 1 put 4330 -
finish 1076
begin 1 put 4340 -
finish 1077
begin 1 put 4350 -
finish 1078
begin 1 put 4360 -
finish 1079
begin 1 put 4370 -
finish 1080
begin 1 put 4380 -
finish 1081
begin 1 put 4390 -
finish 1082
begin 1 put 43a0 -
finish 1083
begin 1 put 43b0 -
finish 1084
begin 1 put 43c0 -
finish 1085
begin 1 put 43d0 -
finish 1086
begin 1 put 43e0 -
finish 1087
begin 1 put 43f0 -
finish 1088
begin 1 put 4400 -
finish 1089
begin 1 put 4410 -
finish 1090
begin 1 put 4420 -
finish 1091
begin 1 put 4430 -
finish 1092
begin 1 put 4440 -
finish 1093
begin 1 put 4450 -
finish 1094
begin 1 put 4460 -
finish 1095
begin 1 put 0185 -
finish 1096
begin 1 put 0195 -
finish 1097
begin 1 put 01a5 -
finish 1098
begin 1 put 01b5 -
finish 1099
begin 1 put 01c5 -
finish 1100
begin 1 put 01d5 -
finish 1101
begin 1 put 01e5 -
finish 1102
begin 1 put 0a05 -
finish 1103
begin 1 put 0a15 -
finish 1104
begin 1 put 0a25 -
finish 1105
begin 1 put 0a35 -
finish 1106
begin 1 put 0a45 -
finish 1107
begin 1 put 0a55 -
finish 1108
begin 1 put 0a65 -
finish 1109
begin 1 put 4305 -
finish 1110
begin 1 put 4315 -
finish 1111
begin 1 put 4325 -
finish 1112
begin 1 put 4335 -
finish 1113
begin 1 put 4345 -
finish 1114
begin 1 put 4355 -
finish 1115
begin 1 put 4365 -
finish 1116
begin 1 put 4285 -
finish 1117
begin 1 put 4295 -
finish 1118
begin 1 put 42a5 -
finish 1119
begin 1 put 42b5 -
finish 1120
begin 1 put 42c5 -
finish 1121
begin 1 put 42d5 -
finish 1122
begin 1 put 42e5 -
finish 1123
begin 1 put 4205 -
finish 1124
begin 1 put 4215 -
finish 1125
begin 1 put 4225 -
finish 1126
begin 1 put 4235 -
finish 1127
begin 1 put 4245 -
finish 1128
begin 1 put 4255 -
finish 1129
begin 1 put 4265 -
finish 1130
begin 1 put 4185 -
finish 1131
begin 1 put 4195 -
finish 1132
begin 1 put 41a5 -
finish 1133
begin 1 put 41b5 -
finish 1134
begin 1 put 41c5 -
finish 1135
begin 1 put 41d5 -
finish 1136
begin 1 put 41e5 -
finish 1137
begin 1 put 3f05 -
finish 1138
begin 1 put 3f15 -
finish 1139
begin 1 put 3f25 -
finish 1140
begin 1 put 3f35 -
finish 1141
begin 1 put 3f45 -
finish 1142
begin 1 put 3f55 -
finish 1143
begin 1 put 3f65 -
finish 1144
begin 1 put 3e85 -
finish 1145
begin 1 put 3e95 -
finish 1146
begin 1 put 3ea5 -
finish 1147
begin 1 put 3eb5 -
finish 1148
begin 1 put 3ec5 -
finish 1149
begin 1 put 3ed5 -
finish 1150
begin 1 put 3ee5 -
finish 1151
begin 1 put 4470 0=aa
step 1152
step 1152
step 1152
step 1152
step 1152
step 1152
step 1152
step 1152
step 1152
step 1152
step 1152
step 1152
step 1152
step 1152
step 1152
step 1152
step 1152
step 1152
step 1152
step 1152
step 1152
step 1152
step 1152
step 1152
step 1152
step 1152
step 1152
step 1152
step 1152
step 1152
step 1152
step 1152
step 1152
step 1152
step 1152
step 1152
step 1152
step 1152
step 1152
step 1152
step 1152
begin 2 put 4319 0=bb
step 1153
step 1153
step 1153
step 1153
step 1153
step 1153
step 1153
step 1153
step 1153
step 1153
step 1153
step 1153
step 1153
step 1153
step 1153
step 1153
step 1153
step 1153
step 1153
step 1153
step 1153
step 1153
step 1153
step 1153
step 1153
step 1153
step 1153
step 1153
step 1153
step 1153
step 1153
step 1153
step 1153
step 1153
step 1153
step 1153
step 1153
begin 3 put 0199 0=cc
step 1154
step 1154
step 1154
step 1154
step 1154
step 1154
step 1154
step 1154
step 1154
step 1154
step 1154
step 1154
step 1154
step 1154
step 1154
step 1154
step 1154
step 1154
step 1154
step 1154
step 1154
step 1154
step 1154
step 1154
step 1154
step 1154
step 1154
step 1154
step 1154
step 1154
step 1154
step 1154
step 1154
step 1154
step 1154
step 1154
step 1154
step 1152
step 1153
step 1154
begin 4 get 0050 all
finish 1155
begin 5 range 4330 3 all
finish 1156
step 1152
step 1153
step 1154
begin 4 get 4470 all
finish 1157
begin 5 range 4330 3 all
finish 1158
step 1152
step 1153
step 1154
begin 4 get 0a30 all
finish 1159
begin 5 range 4330 3 all
finish 1160
step 1152
step 1153
step 1154
begin 4 get 4310 all
finish 1161
begin 5 range 4330 3 all
finish 1162
step 1152
step 1153
begin 4 get 4310 all
finish 1163
begin 5 range 4330 3 all
finish 1164
step 1152
step 1153
begin 4 get 4440 all
finish 1165
begin 5 range 4330 3 all
finish 1166
step 1152
step 1153
begin 4 get 4310 all
finish 1167
begin 5 range 4330 3 all
finish 1168
step 1152
step 1153
begin 4 get 0050 all
finish 1169
begin 5 range 4330 3 all
finish 1170
step 1152
step 1153
begin 4 get 4440 all
finish 1171
begin 5 range 4330 3 all
finish 1172
step 1152
step 1153
begin 4 get 4310 all
finish 1173
begin 5 range 4330 3 all
finish 1174
step 1152
step 1153
begin 4 get 4440 all
finish 1175
begin 5 range 4330 3 all
finish 1176
step 1152
step 1153
begin 4 get 4470 all
finish 1177
begin 5 range 4330 3 all
finish 1178
step 1152
step 1153
begin 4 get 4310 all
finish 1179
begin 5 range 4330 3 all
finish 1180
step 1152
step 1152
step 1152
step 1152
step 1152
step 1152
step 1152
step 1152
begin 1 put 44a0 0=77
step 1153
begin 5 put 428b 0=d6
begin 5 put 4500 0=40
step 1153
step 1183
begin 4 put 0f01 0=f6
begin 4 put 0fc9 0=6a
step 1181
step 1153
step 1182
step 1184
step 1153
step 1153
begin 3 put 4520 0=33
step 1185
step 1181
step 1181
step 1182
step 1185
step 1184
step 1182
step 1186
step 1183
step 1183
step 1185
step 1183
step 1184
step 1181
step 1181
step 1184
step 1184
step 1184
step 1184
step 1184
step 1184
step 1184
step 1184
step 1184
step 1184
step 1184
step 1184
step 1184
step 1184
step 1184
step 1184
step 1183
step 1181
step 1181
step 1181
step 1181
step 1181
step 1181
step 1181
step 1181
step 1181
step 1181
step 1181
step 1181
step 1181
step 1182
step 1181
step 1186
step 1183
step 1186
step 1183
step 1184
step 1182
step 1182
step 1182
step 1182
step 1182
step 1182
step 1182
step 1182
step 1182
step 1182
step 1182
step 1182
step 1182
step 1182
step 1182
step 1182
step 1182
step 1182
step 1182
step 1182
step 1182
step 1182
step 1182
step 1186
begin 5 put 4540 0=0d
step 1183
step 1187
step 1181
step 1185
step 1183
begin 2 put 3ec1 0=a8
step 1187
step 1183
step 1183
step 1183
step 1183
step 1183
step 1183
step 1183
step 1183
step 1183
step 1183
step 1183
step 1183
step 1183
step 1183
step 1183
step 1186
step 1188
step 1183
begin 1 put 3ec1 0=0e
step 1186
step 1187
step 1186
step 1186
step 1186
step 1186
step 1186
step 1186
step 1186
step 1186
step 1186
step 1186
step 1186
step 1186
step 1186
step 1186
step 1186
step 1185
step 1189
step 1188
step 1186
step 1187
step 1189
step 1186
step 1187
begin 2 put 44c0 0=f0
step 1187
step 1187
step 1187
step 1187
step 1187
step 1187
step 1187
step 1187
step 1187
step 1187
step 1187
step 1187
step 1187
step 1187
step 1187
step 1187
step 1185
step 1185
step 1185
step 1185
step 1185
step 1185
step 1185
step 1185
step 1185
step 1185
step 1185
step 1185
step 1185
step 1188
step 1189
step 1189
step 1182
step 1182
step 1182
step 1182
step 1188
step 1190
step 1187
step 1190
step 1182
step 1182
step 1190
step 1182
step 1182
step 1182
step 1188
step 1190
step 1185
step 1188
step 1188
step 1188
step 1188
step 1188
step 1188
step 1188
step 1188
step 1188
step 1188
step 1188
step 1188
step 1188
step 1188
step 1188
step 1188
step 1188
step 1188
step 1188
step 1188
step 1188
step 1188
step 1185
step 1188
step 1188
step 1188
step 1188
begin 4 remove 32a0
step 1189
step 1191
step 1182
step 1191
step 1187
begin 5 put 3ec2 0=4d
step 1190
step 1192
step 1188
step 1188
step 1191
step 1191
step 1190
step 1190
step 1190
step 1190
step 1190
step 1190
step 1190
step 1190
step 1190
step 1190
step 1190
step 1190
step 1190
step 1190
step 1190
step 1190
step 1190
step 1192
step 1189
step 1188
step 1188
step 1188
step 1191
step 1191
step 1191
step 1191
step 1191
step 1191
step 1191
step 1191
step 1191
step 1191
step 1191
step 1191
step 1191
step 1188
step 1182
step 1182
step 1192
step 1192
step 1182
step 1191
step 1192
step 1188
step 1189
step 1189
step 1189
step 1192
step 1192
step 1192
step 1190
step 1188
step 1188
step 1182
step 1189
step 1188
step 1189
step 1191
finish 1191
begin 5 put 0f99 0=84
step 1190
step 1182
step 1189
step 1193
step 1193
step 1193
begin 4 put 432b 0=09
step 1188
step 1193
step 1182
step 1189
begin 5 put 0f93 0=3d
step 1188
begin 1 put 4352 0=f7
step 1195
step 1189
step 1192
step 1192
step 1193
step 1189
step 1189
step 1189
step 1189
step 1189
step 1189
step 1189
step 1189
step 1189
step 1189
step 1189
step 1189
step 1189
step 1195
step 1194
step 1195
step 1189
step 1192
step 1196
step 1196
step 1194
step 1196
step 1196
step 1196
step 1194
step 1193
step 1193
step 1193
step 1193
step 1193
step 1193
step 1193
step 1193
step 1193
step 1193
step 1193
step 1193
step 1193
step 1193
step 1193
step 1195
step 1192
step 1192
step 1192
step 1192
step 1192
step 1192
step 1192
step 1192
step 1192
step 1192
step 1192
step 1192
step 1192
step 1195
begin 2 put 4590 0=3e
step 1197
step 1197
step 1197
step 1194
step 1193
begin 2 put 4282 0=ef
step 1198
step 1192
step 1196
step 1196
step 1196
step 1196
step 1196
step 1196
step 1196
step 1196
step 1196
step 1196
step 1196
step 1196
step 1196
step 1194
step 1198
step 1194
step 1194
step 1194
step 1194
step 1194
step 1194
step 1194
step 1194
step 1194
step 1194
step 1194
step 1194
step 1194
step 1194
step 1194
step 1198
step 1196
step 1197
begin 1 put 3f0b 0=a3
step 1199
step 1195
step 1192
begin 4 put 430b 0=09
step 1197
step 1199
step 1199
step 1197
step 1197
step 1197
step 1197
step 1197
step 1197
step 1197
step 1197
step 1197
step 1197
step 1197
step 1197
step 1197
step 1197
step 1197
step 1197
step 1197
step 1197
step 1199
step 1194
begin 3 get 1d40 all
step 1198
step 1195
step 1195
step 1195
step 1195
step 1195
step 1195
step 1195
step 1195
step 1195
step 1195
step 1195
step 1195
step 1195
step 1195
step 1195
step 1197
step 1198
step 1197
step 1199
step 1201
step 1201
step 1201
step 1201
step 1199
step 1199
step 1199
step 1199
step 1199
step 1199
step 1199
step 1199
step 1199
step 1199
step 1199
step 1199
step 1199
step 1199
step 1199
step 1199
step 1199
step 1199
step 1199
step 1199
step 1199
step 1199
begin 4 put 44b0 0=5d
step 1195
step 1199
step 1199
step 1199
step 1199
step 1195
step 1200
begin 4 get 0880 all
step 1198
step 1198
step 1198
step 1198
step 1198
step 1198
step 1198
step 1198
step 1198
step 1198
step 1198
step 1198
step 1198
step 1198
step 1200
step 1202
step 1201
step 1201
step 1201
step 1201
step 1200
step 1202
step 1199
step 1199
step 1198
step 1202
step 1203
step 1199
step 1199
step 1199
step 1198
step 1201
begin 3 put 0a49 0=9f
step 1203
step 1200
step 1201
step 1201
step 1201
step 1201
step 1201
step 1200
begin 1 put 3f21 0=80
step 1199
step 1199
step 1205
step 1204
step 1204
step 1200
step 1200
step 1200
step 1200
step 1200
step 1200
step 1200
step 1200
step 1200
step 1200
step 1200
step 1200
step 1200
step 1200
step 1200
step 1204
step 1203
step 1203
step 1203
step 1200
step 1203
step 1199
step 1205
step 1205
step 1203
step 1203
step 1203
step 1203
step 1205
step 1204
step 1202
step 1200
begin 4 put 4560 0=47
step 1199
step 1199
begin 4 put 4362 0=82
step 1202
step 1199
step 1199
step 1206
step 1205
step 1205
step 1205
step 1205
step 1205
step 1205
step 1205
step 1205
step 1205
step 1205
step 1205
step 1205
step 1205
step 1205
step 1205
begin 4 put 3f42 0=89
step 1202
step 1202
step 1202
step 1202
step 1202
step 1202
step 1202
step 1202
step 1202
step 1202
step 1202
step 1202
step 1202
step 1202
step 1202
step 1202
step 1202
step 1202
step 1202
step 1205
step 1205
step 1208
begin 2 put 43b3 0=9e
step 1206
step 1204
step 1202
step 1206
step 1207
step 1202
step 1209
step 1206
step 1204
step 1204
step 1204
step 1204
step 1204
step 1204
step 1204
step 1204
step 1204
step 1204
step 1204
step 1204
step 1204
step 1204
step 1204
step 1204
step 1204
step 1204
step 1204
step 1204
step 1204
step 1204
begin 4 put 4580 0=49
step 1209
step 1204
step 1204
step 1204
step 1204
step 1208
step 1204
step 1204
step 1207
step 1207
step 1210
step 1206
step 1204
step 1204
step 1204
step 1209
step 1209
step 1206
step 1206
step 1206
step 1206
step 1206
step 1206
step 1206
step 1206
step 1206
step 1206
step 1206
step 1206
step 1206
step 1206
step 1206
step 1206
step 1206
step 1206
step 1206
step 1206
step 1206
step 1206
step 1210
step 1210
step 1209
step 1208
step 1207
step 1210
step 1208
step 1206
step 1206
step 1206
step 1206
step 1207
step 1210
step 1209
step 1209
step 1209
step 1209
step 1209
step 1209
step 1209
step 1209
step 1209
step 1209
step 1209
step 1209
step 1209
step 1210
step 1206
step 1206
step 1204
step 1210
step 1209
step 1208
step 1209
begin 5 put 0a31 0=08
step 1211
step 1211
step 1211
step 1211
step 1206
step 1206
step 1206
step 1204
step 1204
step 1204
step 1206
step 1211
step 1207
step 1207
step 1207
step 1207
step 1207
step 1207
step 1207
step 1207
step 1207
step 1207
step 1207
step 1207
step 1207
step 1204
step 1208
step 1208
step 1208
step 1208
step 1208
step 1208
step 1208
step 1208
step 1208
step 1208
step 1208
step 1208
step 1208
step 1204
step 1211
step 1211
step 1211
step 1211
step 1211
step 1211
step 1211
step 1211
step 1211
step 1211
step 1211
step 1211
step 1211
step 1204
step 1207
step 1206
step 1210
step 1210
step 1210
step 1210
step 1210
step 1210
step 1210
step 1206
step 1211
step 1206
step 1206
step 1210
begin 2 put 4480 0=87
step 1212
step 1207
begin 4 put 418b 0=eb
step 1211
begin 1 get 24c0 all
step 1213
step 1208
begin 5 put 4262 0=9b
step 1214
step 1214
step 1210
step 1206
step 1213
step 1206
step 1210
step 1214
begin 4 put 45a0 0=ed
step 1214
step 1210
step 1210
step 1210
step 1210
step 1210
step 1210
step 1210
step 1210
step 1210
step 1210
step 1210
step 1210
step 1210
step 1215
step 1212
step 1213
step 1210
step 1214
step 1214
step 1214
step 1214
step 1210
begin 3 put 44d0 0=e6
step 1215
step 1213
step 1213
step 1212
step 1216
step 1212
step 1213
step 1213
step 1213
step 1213
step 1213
step 1213
step 1213
step 1213
step 1213
step 1213
step 1213
step 1213
step 1213
step 1213
step 1213
step 1213
step 1213
step 1213
step 1213
step 1213
step 1213
step 1213
step 1217
step 1216
step 1214
step 1214
step 1214
step 1214
step 1214
step 1214
step 1213
step 1213
step 1213
step 1213
step 1217
begin 2 put 44f0 0=ba
step 1216
step 1216
step 1216
step 1212
step 1213
step 1213
step 1212
step 1212
step 1212
step 1212
step 1212
step 1212
step 1212
step 1212
step 1212
step 1212
step 1212
step 1212
step 1212
step 1216
step 1216
step 1216
step 1216
step 1216
step 1216
step 1216
step 1216
step 1216
step 1216
step 1216
step 1216
step 1216
step 1216
step 1218
step 1216
step 1216
begin 4 put 41ab 0=b0
step 1215
step 1212
step 1215
step 1212
begin 1 put 44e0 0=cb
step 1215
step 1220
step 1213
step 1213
step 1213
step 1220
step 1217
step 1217
step 1217
step 1213
step 1218
step 1218
step 1219
step 1213
step 1217
step 1217
step 1217
step 1217
step 1217
step 1217
step 1217
step 1217
step 1217
step 1217
step 1217
step 1217
step 1217
step 1217
step 1217
step 1218
step 1217
step 1213
step 1217
begin 2 put 42db 0=92
step 1215
step 1215
step 1215
step 1215
step 1215
step 1215
step 1215
step 1215
step 1215
step 1215
step 1215
step 1215
step 1215
step 1215
step 1215
step 1215
step 1215
step 1215
step 1215
step 1215
step 1215
step 1215
step 1218
step 1219
step 1220
step 1218
step 1218
step 1218
step 1218
step 1218
step 1218
step 1218
step 1218
step 1218
step 1218
step 1218
step 1218
step 1218
step 1218
step 1218
step 1218
step 1215
step 1215
step 1215
step 1215
step 1218
step 1219
step 1213
step 1221
step 1219
step 1220
step 1220
step 1215
step 1215
step 1221
step 1213
step 1213
step 1221
step 1219
step 1219
step 1219
step 1219
step 1219
step 1219
step 1219
step 1219
step 1219
step 1219
step 1219
step 1219
step 1219
step 1219
step 1219
step 1220
step 1215
step 1215
step 1215
step 1221
step 1218
step 1221
begin 3 put 4202 0=af
step 1219
step 1219
step 1220
step 1215
begin 1 put 0fb1 0=c9
step 1215
step 1223
step 1215
step 1213
begin 4 get 3fa0 all
step 1221
step 1221
step 1221
step 1221
step 1221
step 1221
step 1221
step 1221
step 1221
step 1221
step 1221
step 1221
step 1222
step 1222
step 1220
step 1220
step 1220
step 1220
step 1220
step 1220
step 1220
step 1220
step 1220
step 1220
step 1220
step 1220
step 1220
step 1220
step 1220
step 1220
step 1220
step 1223
step 1220
step 1220
begin 3 put 428b 0=2e
step 1221
step 1222
step 1222
step 1224
step 1224
step 1224
step 1224
step 1221
step 1224
begin 4 put 41a9 0=6b
step 1223
step 1223
step 1215
step 1224
step 1224
step 1223
step 1225
step 1223
step 1223
step 1223
step 1223
step 1223
step 1223
step 1223
step 1223
step 1223
step 1223
step 1223
step 1223
step 1223
step 1223
step 1223
step 1223
step 1222
step 1226
step 1225
step 1225
step 1226
step 1222
step 1222
step 1222
step 1222
step 1222
step 1222
step 1222
step 1222
step 1222
step 1222
step 1222
step 1222
step 1222
step 1215
step 1223
step 1222
step 1224
step 1224
step 1224
step 1224
step 1224
step 1225
step 1215
begin 5 put 0f2b 0=f2
step 1225
step 1215
begin 4 remove 4390
step 1226
step 1223
step 1225
step 1225
step 1225
step 1225
step 1225
step 1225
step 1225
step 1225
step 1225
step 1225
step 1225
step 1225
step 1225
step 1225
begin 4 put 0f59 0=37
step 1222
step 1225
begin 3 put 0a11 0=13
step 1226
step 1230
step 1227
step 1229
step 1230
step 1228
step 1230
step 1225
begin 4 put 3f62 0=62
step 1228
step 1227
step 1230
step 1226
step 1226
step 1226
step 1226
step 1226
step 1226
step 1226
step 1226
step 1226
step 1226
step 1226
step 1226
step 1226
step 1226
step 1226
step 1226
step 1230
step 1228
step 1229
step 1228
step 1228
step 1231
step 1227
step 1229
step 1230
step 1230
step 1230
step 1230
step 1230
step 1230
step 1230
step 1230
step 1230
step 1230
step 1230
step 1230
step 1230
step 1230
step 1227
step 1230
step 1227
step 1226
step 1229
step 1231
step 1231
step 1228
step 1228
step 1228
step 1228
step 1228
step 1228
step 1228
step 1228
step 1228
step 1228
step 1228
step 1228
step 1228
step 1226
begin 1 put 43b3 0=d7
step 1229
step 1228
step 1232
step 1230
step 1228
finish 1228
step 1231
step 1231
step 1229
begin 2 put 0f33 0=22
step 1229
begin 4 put 4249 0=76
step 1229
step 1231
step 1231
step 1231
step 1231
step 1231
step 1231
step 1231
step 1231
step 1231
step 1231
step 1231
step 1231
step 1231
step 1231
step 1227
step 1227
step 1227
step 1227
step 1227
step 1227
step 1227
step 1227
step 1227
step 1227
step 1227
step 1227
step 1227
step 1227
step 1233
step 1232
step 1233
step 1229
step 1229
step 1232
step 1232
step 1234
step 1227
step 1233
step 1229
step 1232
step 1227
begin 1 range 1220 5 all
step 1235
step 1235
step 1235
step 1235
step 1229
step 1231
begin 2 get 2830 all
step 1233
step 1232
step 1232
step 1232
step 1232
step 1232
step 1232
step 1232
step 1232
step 1232
step 1232
step 1232
step 1232
step 1232
step 1236
step 1235
step 1236
step 1236
step 1234
step 1229
step 1229
step 1229
step 1229
step 1229
step 1229
step 1229
step 1229
step 1229
step 1229
step 1229
step 1229
step 1229
step 1229
step 1229
step 1233
step 1236
step 1236
step 1236
step 1236
step 1236
step 1234
step 1233
step 1233
step 1234
step 1232
begin 3 put 4530 0=29
step 1235
step 1229
step 1236
step 1236
step 1236
step 1236
step 1236
step 1233
begin 4 put 4510 0=9e
step 1229
begin 5 put 4490 0=be
step 1237
step 1234
step 1235
step 1235
step 1235
step 1235
step 1235
step 1235
step 1235
step 1235
step 1235
step 1235
step 1235
step 1235
step 1235
step 1235
step 1235
step 1235
step 1235
step 1235
step 1238
begin 1 put 420b 0=cf
step 1238
step 1233
step 1238
step 1233
step 1233
step 1233
step 1233
step 1233
step 1233
step 1233
step 1233
step 1233
step 1233
step 1233
step 1233
step 1233
step 1233
step 1233
step 1233
step 1233
step 1237
step 1234
step 1234
step 1234
step 1234
step 1234
step 1234
step 1234
step 1234
step 1234
step 1234
step 1234
step 1234
step 1234
step 1240
step 1233
step 1238
begin 3 put 43a2 0=16
step 1241
step 1241
step 1241
step 1238
step 1238
step 1238
step 1238
step 1238
step 1238
step 1238
step 1238
step 1238
step 1238
step 1238
step 1238
step 1238
step 1238
step 1238
step 1238
step 1238
step 1238
step 1238
step 1238
step 1234
step 1241
step 1240
step 1241
step 1234
begin 4 put 43bb 0=f3
step 1240
step 1239
step 1240
step 1240
step 1238
step 1239
begin 2 remove 26d0
step 1242
step 1239
step 1240
step 1240
step 1240
step 1240
step 1240
step 1240
step 1240
step 1240
step 1240
step 1240
step 1240
step 1240
step 1240
step 1240
step 1240
step 1241
step 1241
step 1241
step 1241
step 1241
step 1241
step 1241
step 1241
step 1241
step 1241
step 1241
step 1241
step 1241
step 1240
step 1243
begin 2 put 4550 0=51
step 1242
step 1237
step 1244
step 1237
step 1242
step 1243
step 1243
step 1241
step 1239
step 1242
step 1237
step 1237
step 1237
step 1237
step 1237
step 1237
step 1237
step 1237
step 1237
step 1237
step 1237
step 1237
step 1237
step 1237
step 1237
step 1237
step 1237
step 1237
step 1237
step 1237
step 1241
step 1239
begin 2 put 4570 0=e4
step 1239
step 1239
step 1239
step 1239
step 1239
step 1239
step 1239
step 1239
step 1239
step 1239
step 1239
step 1239
step 1239
step 1239
step 1239
step 1243
step 1243
step 1244
step 1245
step 1239
step 1237
step 1243
step 1243
step 1243
step 1243
step 1243
step 1243
step 1243
step 1243
step 1243
step 1243
step 1243
step 1243
begin 3 put 0a09 0=be
step 1246
step 1243
step 1242
step 1244
step 1242
step 1242
step 1242
step 1242
step 1242
step 1242
step 1242
step 1242
step 1242
step 1242
step 1242
step 1242
step 1242
step 1242
step 1242
step 1242
begin 3 put 419b 0=60
step 1237
begin 2 range 40f0 20 all
step 1248
step 1243
finish 1243
step 1244
begin 4 put 3ebb 0=76
step 1246
step 1244
step 1246
step 1245
step 1244
step 1244
step 1244
step 1244
step 1244
step 1244
step 1244
step 1244
step 1244
step 1244
step 1244
step 1244
step 1244
step 1244
step 1244
step 1244
step 1244
step 1244
step 1244
step 1244
step 1244
step 1244
step 1244
step 1244
step 1244
step 1244
step 1245
step 1248
step 1248
step 1248
step 1245
step 1244
step 1244
step 1246
step 1248
step 1248
step 1248
step 1248
step 1245
step 1247
step 1248
step 1246
step 1249
step 1244
step 1244
step 1244
step 1244
step 1249
step 1248
step 1249
step 1248
step 1248
step 1248
step 1248
step 1248
step 1248
step 1248
step 1248
step 1248
step 1248
step 1248
step 1248
step 1248
step 1248
step 1248
step 1248
step 1248
step 1248
step 1248
step 1248
finish 1248
begin 2 get 2b80 all
step 1246
step 1246
step 1246
step 1246
step 1246
step 1246
step 1246
step 1246
step 1246
step 1246
step 1246
step 1246
step 1246
step 1246
step 1246
step 1244
step 1245
step 1245
step 1245
step 1249
step 1250
step 1250
step 1250
step 1245
step 1244
step 1246
step 1247
step 1250
step 1246
begin 5 get 4480 all
step 1249
step 1244
step 1249
step 1249
step 1249
step 1249
step 1249
step 1249
step 1249
step 1249
step 1249
step 1249
step 1249
step 1249
step 1249
step 1244
step 1249
step 1251
step 1251
step 1250
step 1250
step 1250
step 1245
step 1251
step 1250
step 1250
step 1250
begin 3 get 4540 all
step 1249
step 1247
step 1247
step 1244
step 1247
step 1251
step 1245
step 1251
step 1251
step 1251
step 1251
step 1251
step 1251
step 1251
step 1251
step 1251
step 1251
step 1251
step 1251
step 1251
step 1251
begin 2 get 2ea0 all
begin 5 get 4490 all
step 1245
step 1245
step 1247
step 1247
step 1247
step 1247
step 1247
step 1247
step 1247
step 1247
step 1247
step 1247
step 1247
step 1247
step 1247
step 1247
step 1247
step 1247
step 1247
step 1245
step 1253
step 1253
step 1245
step 1244
begin 1 get 1940 all
step 1253
step 1253
step 1253
step 1253
step 1253
step 1253
step 1252
step 1252
step 1252
step 1252
step 1245
step 1254
step 1254
step 1254
step 1255
step 1255
step 1255
step 1255
step 1255
step 1255
step 1253
step 1253
step 1253
step 1245
step 1245
step 1245
step 1245
step 1245
step 1245
step 1245
step 1245
step 1245
step 1245
step 1245
step 1245
step 1245
step 1255
step 1255
step 1255
step 1254
step 1254
step 1255
step 1255
step 1247
step 1252
step 1255
step 1255
step 1254
begin 4 get 3320 all
step 1245
step 1252
step 1252
step 1252
step 1252
step 1252
step 1252
step 1256
step 1256
step 1256
step 1256
step 1256
step 1256
step 1252
begin 4 get 04e0 all
step 1256
step 1256
step 1255
step 1254
step 1254
step 1254
step 1254
step 1254
step 1254
step 1254
step 1254
step 1254
step 1254
step 1254
step 1254
step 1254
step 1257
begin 1 get 4070 all
begin 4 range 3b80 1 all
step 1258
step 1258
step 1258
step 1258
step 1257
step 1253
step 1258
step 1258
step 1258
begin 4 get 3710 all
step 1259
step 1259
step 1259
step 1259
step 1259
step 1259
step 1259
step 1260
step 1260
step 1260
step 1260
step 1245
begin 1 get 2820 all
step 1260
step 1259
step 1261
step 1261
step 1261
step 1257
step 1257
step 1257
step 1256
step 1256
step 1256
step 1260
step 1260
step 1260
step 1260
step 1260
step 1261
step 1261
step 1256
begin 2 range 3ef0 5 all
step 1262
step 1262
step 1262
step 1262
step 1262
step 1262
step 1262
step 1262
step 1258
step 1257
step 1259
step 1259
step 1261
step 1261
step 1261
step 1261
step 1261
step 1261
step 1259
step 1259
step 1259
step 1259
step 1259
step 1259
step 1259
step 1259
step 1259
step 1259
step 1259
step 1259
step 1259
step 1259
begin 3 get 2330 all
step 1262
step 1262
step 1261
begin 3 get 44e0 all
step 1257
step 1257
step 1257
step 1257
step 1257
step 1257
step 1257
step 1257
step 1257
step 1257
begin 2 get 4510 all
step 1262
step 1262
step 1262
step 1262
step 1258
step 1258
step 1258
step 1264
step 1258
step 1258
step 1258
step 1258
step 1258
step 1258
step 1263
step 1263
step 1263
step 1263
step 1263
step 1263
step 1264
step 1264
step 1264
step 1265
begin 4 get 4520 all
step 1263
step 1263
step 1263
step 1263
step 1263
step 1263
step 1265
step 1262
step 1262
step 1260
step 1263
step 1262
step 1262
step 1262
step 1262
step 1262
step 1262
step 1262
step 1262
step 1262
step 1262
step 1262
step 1262
step 1262
step 1262
step 1262
step 1262
step 1262
step 1262
step 1262
step 1262
finish 1262
begin 1 get 4590 all
step 1265
step 1265
begin 1 get 4540 all
begin 1 get 05d0 all
step 1268
step 1268
step 1268
step 1268
step 1266
step 1266
step 1266
step 1266
step 1266
step 1266
step 1266
step 1266
step 1266
step 1264
step 1268
step 1268
step 1268
step 1268
step 1268
step 1265
step 1265
step 1267
step 1268
step 1268
step 1268
begin 1 get 3cc0 all
step 1265
step 1265
step 1265
step 1265
step 1265
step 1265
step 1265
step 1265
step 1265
step 1265
step 1265
step 1269
step 1269
step 1269
step 1269
begin 1 get 4530 all
step 1264
step 1264
step 1264
step 1271
step 1271
step 1271
step 1271
step 1270
step 1270
step 1267
step 1270
step 1271
step 1270
step 1269
step 1269
step 1270
step 1270
step 1270
step 1270
step 1270
step 1270
step 1270
step 1270
step 1270
step 1270
step 1266
begin 4 get 07e0 all
begin 2 get 0d60 all
step 1271
step 1267
step 1267
step 1267
step 1267
step 1267
step 1267
step 1272
step 1272
step 1272
step 1273
step 1273
step 1272
step 1273
step 1273
step 1273
step 1273
step 1273
step 1271
step 1271
step 1271
step 1272
step 1272
step 1272
step 1267
step 1272
step 1272
step 1272
step 1272
step 1272
step 1272
step 1272
step 1272
step 1272
begin 4 get 0630 all
step 1271
step 1271
step 1273
begin 3 get 1670 all
step 1267
step 1267
step 1267
step 1267
step 1267
step 1267
step 1267
step 1267
step 1264
step 1264
step 1264
step 1264
step 1264
step 1264
begin 5 get 4480 all
step 1276
step 1276
step 1276
step 1276
step 1276
step 1276
step 1274
step 1274
step 1274
step 1274
step 1273
step 1273
step 1273
step 1273
step 1273
step 1273
step 1273
step 1273
begin 2 get 15b0 all
step 1275
step 1275
step 1275
step 1275
begin 4 get 4530 all
step 1277
step 1277
step 1277
step 1277
step 1278
step 1278
step 1278
step 1278
step 1269
step 1269
step 1269
step 1269
step 1269
step 1269
step 1269
step 1276
step 1276
step 1276
step 1276
step 1278
step 1274
step 1274
step 1277
step 1275
step 1275
step 1274
step 1274
step 1274
step 1274
step 1274
step 1274
step 1276
step 1277
step 1277
step 1277
step 1277
step 1269
step 1269
step 1275
begin 3 get 0da0 all
step 1275
step 1279
step 1274
begin 1 get 0570 all
step 1279
step 1277
step 1277
step 1277
step 1277
begin 1 remove 4450
step 1281
step 1279
step 1279
step 1279
step 1275
step 1275
step 1275
step 1275
step 1275
step 1275
step 1275
step 1275
step 1275
begin 3 get 0450 all
step 1280
step 1276
step 1278
step 1278
step 1276
step 1276
step 1276
step 1276
step 1276
step 1276
step 1279
step 1279
step 1279
step 1279
begin 3 get 4470 all
step 1280
step 1278
step 1278
step 1283
step 1283
step 1283
step 1280
step 1280
step 1280
step 1280
step 1280
step 1280
step 1280
step 1280
step 1280
step 1282
step 1282
step 1281
step 1280
step 1280
step 1280
step 1280
step 1280
step 1280
step 1283
step 1283
step 1283
step 1283
step 1283
step 1283
step 1278
step 1278
step 1283
step 1283
step 1283
step 1283
step 1283
step 1283
step 1279
step 1279
step 1279
step 1282
step 1282
step 1282
step 1282
step 1282
step 1282
step 1283
step 1281
step 1282
step 1282
step 1282
step 1282
step 1282
step 1282
step 1282
step 1281
step 1281
step 1281
step 1281
step 1281
step 1281
step 1281
step 1281
step 1281
step 1281
step 1281
step 1281
step 1281
step 1281
step 1281
step 1281
step 1283
step 1281
step 1281
finish 1281
begin 1 put 45b0 -
finish 1284
begin 1 put 45c0 -
finish 1285
begin 1 put 45d0 -
finish 1286
begin 1 put 45e0 -
finish 1287
begin 1 put 45f0 -
finish 1288
begin 1 put 4600 -
finish 1289
begin 1 put 4610 -
finish 1290
begin 1 put 4620 -
finish 1291
begin 1 put 4630 -
finish 1292
begin 1 put 4640 -
finish 1293
begin 1 put 4650 -
finish 1294
begin 1 put 4660 -
finish 1295
begin 1 put 4670 -
finish 1296
begin 1 put 4680 -
finish 1297
begin 1 put 4690 -
finish 1298
begin 1 put 46a0 -
finish 1299
begin 1 put 46b0 -
finish 1300
begin 1 put 46c0 -
finish 1301
begin 1 put 46d0 -
finish 1302
begin 1 put 46e0 -
finish 1303
begin 1 put 46f0 -
finish 1304
begin 1 put 4700 -
finish 1305
begin 1 put 4710 -
finish 1306
begin 1 put 4720 -
finish 1307
begin 1 put 4730 -
finish 1308
begin 1 put 4740 -
finish 1309
begin 1 put 4750 -
finish 1310
begin 1 put 4760 -
finish 1311
begin 1 put 4770 -
finish 1312
begin 1 put 4780 -
finish 1313
begin 1 put 4790 -
finish 1314
begin 1 put 47a0 -
finish 1315
begin 1 put 47b0 -
finish 1316
begin 1 put 47c0 -
finish 1317
begin 1 put 47d0 -
finish 1318
begin 1 put 47e0 -
finish 1319
begin 1 put 47f0 -
finish 1320
begin 1 put 4800 -
finish 1321
begin 1 put 4810 -
finish 1322
begin 1 put 4820 -
finish 1323
begin 1 put 4830 -
finish 1324
begin 1 put 4840 -
finish 1325
begin 1 put 4850 -
finish 1326
begin 1 put 4860 -
finish 1327
begin 1 put 4870 -
finish 1328
begin 1 put 4880 -
finish 1329
begin 1 put 4890 -
finish 1330
begin 1 put 48a0 -
finish 1331
begin 1 put 48b0 -
finish 1332
begin 1 put 48c0 -
finish 1333
begin 1 put 48d0 -
finish 1334
begin 1 put 48e0 -
finish 1335
begin 1 put 48f0 -
finish 1336
begin 1 put 4900 -
finish 1337
begin 1 put 4910 -
finish 1338
begin 1 put 4920 -
finish 1339
begin 1 put 4930 -
finish 1340
begin 1 put 4940 -
finish 1341
begin 1 put 4950 -
finish 1342
begin 1 put 4960 -
finish 1343
begin 1 put 4970 -
finish 1344
begin 1 put 4980 -
finish 1345
begin 1 put 4990 -
finish 1346
begin 1 put 49a0 -
finish 1347
begin 1 put 49b0 -
finish 1348
begin 1 put 49c0 -
finish 1349
begin 1 put 49d0 -
finish 1350
begin 1 put 49e0 -
finish 1351
begin 1 put 49f0 -
finish 1352
begin 1 put 4a00 -
finish 1353
begin 1 put 4a10 -
finish 1354
begin 1 put 4a20 -
finish 1355
begin 1 put 4a30 -
finish 1356
begin 1 put 4a40 -
finish 1357
begin 1 put 4a50 -
finish 1358
begin 1 put 4a60 -
finish 1359
begin 1 put 4a70 -
finish 1360
begin 1 put 4a80 -
finish 1361
begin 1 put 4a90 -
finish 1362
begin 1 put 4aa0 -
finish 1363
begin 1 put 4ab0 -
finish 1364
begin 1 put 4ac0 -
finish 1365
begin 1 put 4ad0 -
finish 1366
begin 1 put 4ae0 -
finish 1367
begin 1 put 4af0 -
finish 1368
begin 1 put 4b00 -
finish 1369
begin 1 put 4b10 -
finish 1370
begin 1 put 4b20 -
finish 1371
begin 1 put 4b30 -
finish 1372
begin 1 put 4b40 -
finish 1373
begin 1 put 4b50 -
finish 1374
begin 1 put 4b60 -
finish 1375
begin 1 put 4b70 -
finish 1376
begin 1 put 4b80 -
finish 1377
begin 1 put 4b90 -
finish 1378
begin 1 put 4ba0 -
finish 1379
begin 1 put 4bb0 -
finish 1380
begin 1 put 4bc0 -
finish 1381
begin 1 put 4bd0 -
finish 1382
begin 1 put 4be0 -
finish 1383
begin 1 put 4bf0 -
finish 1384
begin 1 put 4c00 -
finish 1385
begin 1 put 4c10 -
finish 1386
begin 1 put 4c20 -
finish 1387
begin 1 put 4c30 -
finish 1388
begin 1 put 4c40 -
finish 1389
begin 1 put 4c50 -
finish 1390
begin 1 put 4c60 -
finish 1391
begin 1 put 4c70 -
finish 1392
begin 1 put 4c80 -
finish 1393
begin 1 put 4c90 -
finish 1394
begin 1 put 4ca0 -
finish 1395
begin 1 put 4cb0 -
finish 1396
begin 1 put 4cc0 -
finish 1397
begin 1 put 4cd0 -
finish 1398
begin 1 put 4ce0 -
finish 1399
begin 1 put 4cf0 -
finish 1400
begin 1 put 4d00 -
finish 1401
begin 1 put 4d10 -
finish 1402
begin 1 put 4d20 -
finish 1403
begin 1 put 4d30 -
finish 1404
begin 1 put 4d40 -
finish 1405
begin 1 put 4d50 -
finish 1406
begin 1 put 4d60 -
finish 1407
begin 1 put 4d70 -
finish 1408
begin 1 put 4d80 -
finish 1409
begin 1 put 4d90 -
finish 1410
begin 1 put 4da0 -
finish 1411
begin 1 put 4db0 -
finish 1412
begin 1 put 4dc0 -
finish 1413
begin 1 put 4dd0 -
finish 1414
begin 1 put 4de0 -
finish 1415
begin 1 put 4df0 -
finish 1416
begin 1 put 4e00 -
finish 1417
begin 1 put 4e10 -
finish 1418
begin 1 put 4e20 -
finish 1419
begin 1 put 4e30 -
finish 1420
begin 1 put 4e40 -
finish 1421
begin 1 put 4e50 -
finish 1422
begin 1 put 4e60 -
finish 1423
begin 1 put 4e70 -
finish 1424
begin 1 put 4e80 -
finish 1425
begin 1 put 4e90 -
finish 1426
begin 1 put 4ea0 -
finish 1427
begin 1 put 4eb0 -
finish 1428
begin 1 put 4ec0 -
finish 1429
begin 1 put 4ed0 -
finish 1430
begin 1 put 4ee0 -
finish 1431
begin 1 put 4ef0 -
finish 1432
begin 1 put 4f00 -
finish 1433
begin 1 put 4f10 -
finish 1434
begin 1 put 4f20 -
finish 1435
begin 1 put 4f30 -
finish 1436
begin 1 put 4f40 -
finish 1437
begin 1 put 4f50 -
finish 1438
begin 1 put 4f60 -
finish 1439
begin 1 put 4f70 -
finish 1440
begin 1 put 4f80 -
finish 1441
begin 1 put 4f90 -
finish 1442
begin 1 put 4fa0 -
finish 1443
begin 1 put 4fb0 -
finish 1444
begin 1 put 4fc0 -
finish 1445
begin 1 put 4fd0 -
finish 1446
begin 1 put 4fe0 -
finish 1447
begin 1 put 4ff0 -
finish 1448
begin 1 put 5000 -
finish 1449
begin 1 put 5010 -
finish 1450
begin 1 put 5020 -
finish 1451
begin 1 put 5030 -
finish 1452
begin 1 put 5040 -
finish 1453
begin 1 put 5050 -
finish 1454
begin 1 put 5060 -
finish 1455
begin 1 put 5070 -
finish 1456
begin 1 put 5080 -
finish 1457
begin 1 put 5090 -
finish 1458
begin 1 put 50a0 -
finish 1459
begin 1 put 50b0 -
finish 1460
begin 1 put 50c0 -
finish 1461
begin 1 put 50d0 -
finish 1462
begin 1 put 50e0 -
finish 1463
begin 1 put 50f0 -
finish 1464
begin 1 put 5100 -
finish 1465
begin 1 put 5110 -
finish 1466
begin 1 put 5120 -
finish 1467
begin 1 put 5130 -
finish 1468
begin 1 put 5140 -
finish 1469
begin 1 put 5150 -
finish 1470
begin 1 put 5160 -
finish 1471
begin 1 put 5170 -
finish 1472
begin 1 put 5180 -
finish 1473
begin 1 put 5190 -
finish 1474
begin 1 put 51a0 -
finish 1475
begin 1 put 51b0 -
finish 1476
begin 1 put 51c0 -
finish 1477
begin 1 put 51d0 -
finish 1478
begin 1 put 51e0 -
finish 1479
begin 1 put 51f0 -
finish 1480
begin 1 put 5200 -
finish 1481
begin 1 put 5210 -
finish 1482
begin 1 put 5220 -
finish 1483
begin 1 put 5230 -
finish 1484
begin 1 put 5240 -
finish 1485
begin 1 put 5250 -
finish 1486
begin 1 put 5260 -
finish 1487
begin 1 put 5270 -
finish 1488
begin 1 put 5280 -
finish 1489
begin 1 put 5290 -
finish 1490
begin 1 put 52a0 -
finish 1491
begin 1 put 52b0 -
finish 1492
begin 1 put 52c0 -
finish 1493
begin 1 put 52d0 -
finish 1494
begin 1 put 52e0 -
finish 1495
begin 1 put 52f0 -
finish 1496
begin 1 put 5300 -
finish 1497
begin 1 put 5310 -
finish 1498
begin 1 put 5320 -
finish 1499
begin 1 put 5330 -
finish 1500
begin 1 put 5340 -
finish 1501
begin 1 put 5350 -
finish 1502
begin 1 put 5360 -
finish 1503
begin 1 put 5370 -
finish 1504
begin 1 put 5380 -
finish 1505
begin 1 put 5390 -
finish 1506
begin 1 put 53a0 -
finish 1507
begin 1 put 53b0 -
finish 1508
begin 1 put 53c0 -
finish 1509
begin 1 put 53d0 -
finish 1510
begin 1 put 53e0 -
finish 1511
begin 1 put 53f0 -
finish 1512
begin 1 put 5400 -
finish 1513
begin 1 put 5410 -
finish 1514
begin 1 put 5420 -
finish 1515
begin 1 put 5430 -
finish 1516
begin 1 put 5440 -
finish 1517
begin 1 put 5450 -
finish 1518
begin 1 put 5460 -
finish 1519
begin 1 put 5470 -
finish 1520
begin 1 put 5480 -
finish 1521
begin 1 put 5490 -
finish 1522
begin 1 put 54a0 -
finish 1523
begin 1 put 54b0 -
finish 1524
begin 1 put 54c0 -
finish 1525
begin 1 put 54d0 -
finish 1526
begin 1 put 54e0 -
finish 1527
begin 1 put 54f0 -
finish 1528
begin 1 put 5500 -
finish 1529
begin 1 put 5510 -
finish 1530
begin 1 put 5520 -
finish 1531
begin 1 put 5530 -
finish 1532
begin 1 put 5540 -
finish 1533
begin 1 put 5550 -
finish 1534
begin 1 put 5560 -
finish 1535
begin 1 put 5570 -
finish 1536
begin 1 put 5580 -
finish 1537
begin 1 put 5590 -
finish 1538
begin 1 put 55a0 -
finish 1539
begin 1 put 55b0 -
finish 1540
begin 1 put 55c0 -
finish 1541
begin 1 put 55d0 -
finish 1542
begin 1 put 55e0 -
finish 1543
begin 1 put 55f0 -
finish 1544
begin 1 put 5600 -
finish 1545
begin 1 put 5610 -
finish 1546
begin 1 put 5620 -
finish 1547
begin 1 put 5630 -
finish 1548
begin 1 put 5640 -
finish 1549
begin 1 put 5650 -
finish 1550
begin 1 put 5660 -
finish 1551
begin 1 put 5670 -
finish 1552
begin 1 put 5680 -
finish 1553
begin 1 put 5690 -
finish 1554
begin 1 put 56a0 -
finish 1555
begin 1 put 56b0 -
finish 1556
begin 1 put 56c0 -
finish 1557
begin 1 put 56d0 -
finish 1558
begin 1 put 56e0 -
finish 1559
begin 1 put 56f0 -
finish 1560
begin 1 put 5700 -
finish 1561
begin 1 put 5710 -
finish 1562
begin 1 put 5720 -
finish 1563
begin 1 put 5730 -
finish 1564
begin 1 put 5740 -
finish 1565
begin 1 put 5750 -
finish 1566
begin 1 put 5760 -
finish 1567
begin 1 put 5770 -
finish 1568
begin 1 put 5780 -
finish 1569
begin 1 put 5790 -
finish 1570
begin 1 put 57a0 -
finish 1571
begin 1 put 57b0 -
finish 1572
begin 1 put 57c0 -
finish 1573
begin 1 put 57d0 -
finish 1574
begin 1 put 57e0 -
finish 1575
begin 1 put 57f0 -
finish 1576
begin 1 put 5800 -
finish 1577
begin 1 put 5810 -
finish 1578
begin 1 put 5820 -
finish 1579
begin 1 put 5830 -
finish 1580
begin 1 put 5840 -
finish 1581
begin 1 put 5850 -
finish 1582
begin 1 put 5860 -
finish 1583
begin 1 put 5870 -
finish 1584
begin 1 put 5880 -
finish 1585
begin 1 put 5890 -
finish 1586
begin 1 put 58a0 -
finish 1587
begin 1 put 58b0 -
finish 1588
begin 1 put 58c0 -
finish 1589
begin 1 put 58d0 -
finish 1590
begin 1 put 58e0 -
finish 1591
begin 1 put 58f0 -
finish 1592
begin 1 put 5900 -
finish 1593
begin 1 put 5910 -
finish 1594
begin 1 put 5920 -
finish 1595
begin 1 put 5930 -
finish 1596
begin 1 put 5940 -
finish 1597
begin 1 put 5950 -
finish 1598
begin 1 put 5960 -
finish 1599
begin 1 put 5970 -
finish 1600
begin 1 put 5980 -
finish 1601
begin 1 put 5990 -
finish 1602
begin 1 put 59a0 -
finish 1603
begin 1 put 59b0 -
finish 1604
begin 1 put 59c0 -
finish 1605
begin 1 put 59d0 -
finish 1606
begin 1 put 59e0 -
finish 1607
begin 1 put 59f0 -
finish 1608
begin 1 put 5a00 -
finish 1609
begin 1 put 5a10 -
finish 1610
begin 1 put 5a20 -
finish 1611
begin 1 put 5a30 -
finish 1612
begin 1 put 5a40 -
finish 1613
begin 1 put 5a50 -
finish 1614
begin 1 put 5a60 -
finish 1615
begin 1 put 5a70 -
finish 1616
begin 1 put 5a80 -
finish 1617
begin 1 put 5a90 -
finish 1618
begin 1 put 5aa0 -
finish 1619
begin 1 put 5ab0 -
finish 1620
begin 1 put 5ac0 -
finish 1621
begin 1 put 5ad0 -
finish 1622
begin 1 put 5ae0 -
finish 1623
begin 1 put 5af0 -
finish 1624
begin 1 put 5b00 -
finish 1625
begin 1 put 5b10 -
finish 1626
begin 1 put 5b20 -
finish 1627
begin 1 put 5b30 -
finish 1628
begin 1 put 5b40 -
finish 1629
begin 1 put 5b50 -
finish 1630
begin 1 put 5b60 -
finish 1631
begin 1 put 5b70 -
finish 1632
begin 1 put 5b80 -
finish 1633
begin 1 put 5b90 -
finish 1634
begin 1 put 5ba0 -
finish 1635
begin 1 put 5bb0 -
finish 1636
begin 1 put 5bc0 -
finish 1637
begin 1 put 5bd0 -
finish 1638
begin 1 put 5be0 -
finish 1639
begin 1 put 5bf0 -
finish 1640
begin 1 put 5c00 -
finish 1641
begin 1 put 5c10 -
finish 1642
begin 1 put 5c20 -
finish 1643
begin 1 put 5c30 -
finish 1644
begin 1 put 5c40 -
finish 1645
begin 1 put 5c50 -
finish 1646
begin 1 put 5c60 -
finish 1647
begin 1 put 5c70 -
finish 1648
begin 1 put 5c80 -
finish 1649
begin 1 put 5c90 -
finish 1650
begin 1 put 5ca0 -
finish 1651
begin 1 put 5cb0 -
finish 1652
begin 1 put 5cc0 -
finish 1653
begin 1 put 5cd0 -
finish 1654
begin 1 put 5ce0 -
finish 1655
begin 1 put 5cf0 -
finish 1656
begin 1 put 5d00 -
finish 1657
begin 1 put 5d10 -
finish 1658
begin 1 put 5d20 -
finish 1659
begin 1 put 5d30 -
finish 1660
begin 1 put 5d40 -
finish 1661
begin 1 put 5d50 -
finish 1662
begin 1 put 5d60 -
finish 1663
begin 1 put 5d70 -
finish 1664
begin 1 put 5d80 -
finish 1665
begin 1 put 5d90 -
finish 1666
begin 1 put 5da0 -
finish 1667
begin 1 put 5db0 -
finish 1668
begin 1 put 5dc0 -
finish 1669
begin 1 put 5dd0 -
finish 1670
begin 1 put 5de0 -
finish 1671
begin 1 put 5df0 -
finish 1672
begin 1 put 5e00 -
finish 1673
begin 1 put 5e10 -
finish 1674
begin 1 put 5e20 -
finish 1675
begin 1 put 5e30 -
finish 1676
begin 1 put 5e40 -
finish 1677
begin 1 put 5e50 -
finish 1678
begin 1 put 5e60 -
finish 1679
begin 1 put 5e70 -
finish 1680
begin 1 put 5e80 -
finish 1681
begin 1 put 5e90 -
finish 1682
begin 1 put 5ea0 -
finish 1683
begin 1 put 5eb0 -
finish 1684
begin 1 put 5ec0 -
finish 1685
begin 1 put 5ed0 -
finish 1686
begin 1 put 5ee0 -
finish 1687
begin 1 put 5ef0 -
finish 1688
begin 1 put 5f00 -
finish 1689
begin 1 put 5f10 -
finish 1690
begin 1 put 5f20 -
finish 1691
begin 1 put 5f30 -
finish 1692
begin 1 put 5f40 -
finish 1693
begin 1 put 5f50 -
finish 1694
begin 1 put 5f60 -
finish 1695
begin 1 put 5f70 -
finish 1696
begin 1 put 5f80 -
finish 1697
begin 1 put 5f90 -
finish 1698
begin 1 put 5fa0 -
finish 1699
begin 1 put 5fb0 -
finish 1700
begin 1 put 5fc0 -
finish 1701
begin 1 put 5fd0 -
finish 1702
begin 1 put 5fe0 -
finish 1703
begin 1 put 5ff0 -
finish 1704
begin 1 put 6000 -
finish 1705
begin 1 put 6010 -
finish 1706
begin 1 put 6020 -
finish 1707
begin 1 put 6030 -
finish 1708
begin 1 put 6040 -
finish 1709
begin 1 put 6050 -
finish 1710
begin 1 put 6060 -
finish 1711
begin 1 put 6070 -
finish 1712
begin 1 put 6080 -
finish 1713
begin 1 put 6090 -
finish 1714
begin 1 put 60a0 -
finish 1715
begin 1 put 60b0 -
finish 1716
begin 1 put 60c0 -
finish 1717
begin 1 put 60d0 -
finish 1718
begin 1 put 60e0 -
finish 1719
begin 1 put 60f0 -
finish 1720
begin 1 put 6100 -
finish 1721
begin 1 put 6110 -
finish 1722
begin 1 put 6120 -
finish 1723
begin 1 put 6130 -
finish 1724
begin 1 put 6140 -
finish 1725
begin 1 put 6150 -
finish 1726
begin 1 put 6160 -
finish 1727
begin 1 put 6170 -
finish 1728
begin 1 put 6180 -
finish 1729
begin 1 put 6190 -
finish 1730
begin 1 put 61a0 -
finish 1731
begin 1 put 61b0 -
finish 1732
begin 1 put 61c0 -
finish 1733
begin 1 put 61d0 -
finish 1734
begin 1 put 61e0 -
finish 1735
begin 1 put 61f0 -
finish 1736
begin 1 put 6200 -
finish 1737
begin 1 put 6210 -
finish 1738
begin 1 put 6220 -
finish 1739
begin 1 put 6230 -
finish 1740
begin 1 put 6240 -
finish 1741
begin 1 put 6250 -
finish 1742
begin 1 put 6260 -
finish 1743
begin 1 put 6270 -
finish 1744
begin 1 put 6280 -
finish 1745
begin 1 put 60a1 -
finish 1746
begin 1 put 60a2 -
finish 1747
begin 1 put 60a3 -
finish 1748
begin 1 put 60a4 -
finish 1749
begin 1 put 60a5 -
finish 1750
begin 1 put 60a6 -
finish 1751
begin 1 put 60a7 -
finish 1752
begin 1 put 1401 -
finish 1753
begin 1 put 1402 -
finish 1754
begin 1 put 1403 -
finish 1755
begin 1 put 1404 -
finish 1756
begin 1 put 1405 -
finish 1757
begin 1 put 1406 -
finish 1758
begin 1 put 1407 -
finish 1759
begin 1 put 6290 0=dd
step 1760
step 1760
step 1760
step 1760
step 1760
step 1760
step 1760
step 1760
step 1760
step 1760
step 1760
step 1760
step 1760
step 1760
step 1760
step 1760
step 1760
step 1760
step 1760
step 1760
step 1760
step 1760
step 1760
step 1760
step 1760
step 1760
step 1760
step 1760
step 1760
step 1760
step 1760
step 1760
step 1760
step 1760
step 1760
step 1760
step 1760
step 1760
step 1760
step 1760
step 1760
step 1760
step 1760
begin 2 put 6119 0=ee
step 1761
step 1761
step 1761
step 1761
step 1761
step 1761
step 1761
step 1761
step 1761
step 1761
step 1761
step 1761
step 1761
step 1761
step 1761
step 1761
step 1761
step 1761
step 1761
step 1761
step 1761
step 1761
step 1761
step 1761
step 1761
step 1761
step 1761
step 1761
step 1761
step 1761
step 1761
step 1761
step 1761
step 1761
step 1761
step 1761
step 1761
step 1761
begin 3 put 1419 0=ff
step 1762
step 1762
step 1762
step 1762
step 1762
step 1762
step 1762
step 1762
step 1762
step 1762
step 1762
step 1762
step 1762
step 1762
step 1762
step 1762
step 1762
step 1762
step 1762
step 1762
step 1762
step 1762
step 1762
step 1762
step 1762
step 1762
step 1762
step 1762
step 1762
step 1762
step 1762
step 1762
step 1762
step 1762
step 1762
step 1762
step 1762
step 1762
step 1760
step 1761
step 1762
begin 4 get 6110 all
finish 1763
begin 5 range 6150 3 all
finish 1764
step 1760
step 1761
step 1762
begin 4 get 0070 all
finish 1765
begin 5 range 6150 3 all
finish 1766
step 1760
step 1761
step 1762
begin 4 get 6110 all
finish 1767
begin 5 range 6150 3 all
finish 1768
step 1760
step 1761
step 1762
begin 4 get 6290 all
finish 1769
begin 5 range 6150 3 all
finish 1770
step 1760
step 1761
step 1762
begin 4 get 6110 all
finish 1771
begin 5 range 6150 3 all
finish 1772
step 1760
step 1761
begin 4 get 6110 all
finish 1773
begin 5 range 6150 3 all
finish 1774
step 1760
step 1761
begin 4 get 6290 all
finish 1775
begin 5 range 6150 3 all
finish 1776
step 1760
step 1761
begin 4 get 6290 all
finish 1777
begin 5 range 6150 3 all
finish 1778
step 1760
step 1761
begin 4 get 6110 all
finish 1779
begin 5 range 6150 3 all
finish 1780
step 1760
step 1761
begin 4 get 6290 all
finish 1781
begin 5 range 6150 3 all
finish 1782
step 1760
step 1761
begin 4 get 0070 all
finish 1783
begin 5 range 6150 3 all
finish 1784
step 1760
step 1761
begin 4 get 6110 all
finish 1785
begin 5 range 6150 3 all
finish 1786
step 1760
step 1760
step 1760
step 1760
step 1760
step 1760
step 1760
step 1760
step 1761
step 1761
step 1761
step 1761
begin 1 get 4470 all
step 1787
step 1787
step 1787
step 1787
step 1787
step 1787
step 1787
step 1787
step 1787
step 1787
step 1787
step 1787
step 1787
step 1787
step 1787
step 1787
begin 1 get 4319 all
step 1788
step 1788
step 1788
step 1788
step 1788
step 1788
step 1788
step 1788
step 1788
step 1788
step 1788
step 1788
step 1788
step 1788
step 1788
begin 1 get 0199 all
step 1789
step 1789
step 1789
step 1789
step 1789
step 1789
step 1789
step 1789
step 1789
step 1789
step 1789
step 1789
step 1789
step 1789
begin 1 get 6290 all
step 1790
step 1790
step 1790
step 1790
step 1790
step 1790
step 1790
step 1790
step 1790
step 1790
step 1790
step 1790
step 1790
step 1790
step 1790
step 1790
step 1790
begin 1 range 5c50 1000 all
finish 1791
