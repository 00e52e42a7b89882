alone put 0002 -
alone put 0004 -
alone put 0006 -
alone put 0008 0=b08b
alone put 000a -
alone put 000c -
alone put 000e -
alone put 0010 -
alone put 0012 -
alone put 0014 -
alone put 0016 -
alone put 0018 -
alone put 001a -
alone put 001c -
alone put 001e -
alone put 0020 -
alone put 0022 -
alone put 0024 -
alone put 0026 -
alone put 0028 -
alone put 002a -
alone put 002c -
alone put 002e 1=-
alone put 0030 -
alone put 0032 -
alone put 0034 -
alone put 0036 -
alone put 0038 1=23,0=37e4e640359de0f93cf2fb0f
alone put 003a -
alone put 003c -
alone put 003e -
alone put 0040 0=34d5,1=c71772c1800f3fabe9f58be6
alone put 0042 -
alone put 0044 -
alone put 0046 -
alone put 0048 -
alone put 004a -
alone put 004c -
alone put 004e -
alone put 0050 -
alone put 0052 -
alone put 0054 -
alone put 0056 1=e3f1
alone put 0058 0=f2,1=bc94f2c2634e1bc861bb7d74
alone put 005a 0=11b0a9cf40b09dfc07136e62
alone put 005c -
alone put 005e -
alone put 0060 -
alone put 0062 -
alone put 0064 -
alone put 0066 -
alone put 0068 -
alone put 006a 0=aa
alone put 006c -
alone put 006e 0=320a2ef4c82b0c4a74e860cd
alone put 0070 -
alone put 0072 -
alone put 0074 -
alone put 0076 0=-,1=4caa9e555503dd18a0717508
alone put 0078 -
alone put 007a -
alone put 007c -
alone put 007e 1=c6b3
alone put 0080 -
alone put 0082 -
alone put 0084 -
alone put 0086 -
alone put 0088 -
alone put 008a -
alone put 008c -
alone put 008e 1=4e206786dc9330f16b1d5a9a
alone put 0090 -
alone put 0092 0=b6
alone put 0094 0=-
alone put 0096 -
alone put 0098 -
alone put 009a -
alone put 009c 1=99c0cb43e336b84a56d387bd
alone put 009e 1=36
alone put 00a0 0=c5,1=924dc16bada840393603c5a9
alone put 00a2 -
alone put 00a4 -
alone put 00a6 -
alone put 00a8 1=-
alone put 00aa -
alone put 00ac -
alone put 00ae -
alone put 00b0 -
alone put 00b2 -
alone put 00b4 -
alone put 00b6 -
alone put 00b8 -
alone put 00ba -
alone put 00bc -
alone put 00be -
alone put 00c0 -
alone put 00c2 -
alone put 00c4 -
alone put 00c6 -
alone put 00c8 -
alone put 00ca -
alone put 00cc -
alone put 00ce 0=-
alone put 00d0 -
alone put 00d2 -
alone put 00d4 -
alone put 00d6 -
alone put 00d8 -
alone put 00da -
alone put 00dc 1=-
alone put 00de 1=-,0=afad5c276b10ed0053b7e878
alone put 00e0 0=43a1b88f4d5abb0a68e6a32d,1=28
alone put 00e2 -
alone put 00e4 -
alone put 00e6 -
alone put 00e8 -
alone put 00ea -
alone put 00ec 0=6cea43a276d372950e4c3c6c
alone put 00ee -
alone put 00f0 -
alone put 00f2 -
alone put 00f4 -
alone put 00f6 0=6312
alone put 00f8 -
alone put 00fa -
alone put 00fc -
alone put 00fe 0=9ba13ad7055f123c06314729,1=-
alone put 0100 -
alone put 0102 -
alone put 0104 -
alone put 0106 1=4ad8a8b08e8510cd86e90f11
alone put 0108 -
alone put 010a -
alone put 010c -
alone put 010e -
alone put 0110 -
alone put 0112 -
alone put 0114 0=7d9b4abc070c12dd205fdb65,1=8e18
alone put 0116 -
alone put 0118 -
alone put 011a -
alone put 011c -
alone put 011e 0=dc
alone put 0120 1=-,0=31
alone put 0122 1=096554ef752856815bce7ae9
alone put 0124 -
alone put 0126 0=da959bcf238706f3d84313b7
alone put 0128 1=2c5e55366d448e1653552f6e
alone put 012a 0=-,1=61
alone put 012c 1=17c2
alone put 012e -
alone put 0130 -
alone put 0132 -
alone put 0134 -
alone put 0136 -
alone put 0138 -
alone put 013a 0=e319819dc0df2e40814072c9
alone put 013c -
alone put 013e -
alone put 0140 -
alone put 0142 -
alone put 0144 -
alone put 0146 -
alone put 0148 -
alone put 014a 1=10723d9d657c39f10d10870f
alone put 014c -
alone put 014e -
alone put 0150 -
alone put 0152 -
alone put 0154 1=-,0=cef0c5f819f262c52ce4dbc9
alone put 0156 1=f2
alone put 0158 -
alone put 015a -
alone put 015c -
alone put 015e -
alone put 0160 -
alone put 0162 -
alone put 0164 -
alone put 0166 -
alone put 0168 -
alone put 016a -
alone put 016c -
alone put 016e -
alone put 0170 -
alone put 0172 -
alone put 0174 -
alone put 0176 -
alone put 0178 1=79b821fa6610b23680756aa8
alone put 017a -
alone put 017c 1=8af0a5986bc35b16e986b54d,0=498c
alone put 017e -
alone put 0180 -
alone put 0182 0=facf
alone put 0184 -
alone put 0186 -
alone put 0188 -
alone put 018a -
alone put 018c 1=-,0=ad15fdb023769aae99361059
alone put 018e -
alone put 0190 -
alone put 0192 -
alone put 0194 -
alone put 0196 -
alone put 0198 0=-,1=2a
alone put 019a -
alone put 019c 0=c1434fc15a6a29c8564920f4,1=66f0
alone put 019e -
alone put 01a0 -
alone put 01a2 -
alone put 01a4 -
alone put 01a6 0=5af6bcabbc39f79206c9e734
alone put 01a8 0=-
alone put 01aa -
alone put 01ac 1=-,0=-
alone put 01ae -
alone put 01b0 -
alone put 01b2 1=56a315a88a523f00396f60c4,0=d271
alone put 01b4 -
alone put 01b6 -
alone put 01b8 -
alone put 01ba 0=-
alone put 01bc -
alone put 01be 1=d0bc,0=0c1e
alone put 01c0 0=d4a3dc527719521215b5c991
alone put 01c2 -
alone put 01c4 1=e3,0=93
alone put 01c6 0=5d20
alone put 01c8 -
alone put 01ca -
alone put 01cc -
alone put 01ce -
alone put 01d0 -
alone put 01d2 -
alone put 01d4 -
alone put 01d6 0=-
alone put 01d8 0=96,1=4815
alone put 01da -
alone put 01dc 1=a7,0=0b7a30c93b7a6a343a2dbd16
alone put 01de 1=4786,0=7ed9ae38c420e6cec804bf17
alone put 01e0 -
alone put 01e2 0=49ba,1=e323990d6b7e206fb077219b
alone put 01e4 -
alone put 01e6 0=-,1=a1
alone put 01e8 -
alone put 01ea -
alone put 01ec 1=61f1
alone put 01ee -
alone put 01f0 -
alone put 01f2 -
alone put 01f4 -
alone put 01f6 -
alone put 01f8 -
alone put 01fa -
alone put 01fc -
alone put 01fe -
alone put 0200 -
alone put 0202 -
alone put 0204 1=-
alone put 0206 -
alone put 0208 -
alone put 020a -
alone put 020c -
alone put 020e 0=8caf,1=8b
alone put 0210 0=6d
alone put 0212 -
alone put 0214 -
alone put 0216 -
alone put 0218 -
alone put 021a -
alone put 021c -
alone put 021e -
alone put 0220 -
alone put 0222 -
alone put 0224 -
alone put 0226 0=-,1=e3c4
alone put 0228 0=-,1=6b23
alone put 022a -
alone put 022c -
alone put 022e -
alone put 0230 1=-,0=29f0
alone put 0232 -
alone put 0234 -
alone put 0236 1=e0280ee4cbb0f2804a9ec12d,0=cd
alone put 0238 -
alone put 023a -
alone put 023c 0=4792
alone put 023e -
alone put 0240 -
alone put 0242 1=-,0=4f4e
alone put 0244 -
alone put 0246 1=493d6ee8f5769aa8f99226d6,0=1ad2
alone put 0248 -
alone put 024a -
alone put 024c 1=7d33
alone put 024e -
alone put 0250 -
alone put 0252 -
alone put 0254 1=857a3df83d21edd42b997687,0=3f
alone put 0256 -
alone put 0258 1=746f,0=e00c
alone put 025a 1=-,0=e5dc
alone put 025c 1=034604833c3e2a23c5f99cb2
alone put 025e -
alone put 0260 -
alone put 0262 -
alone put 0264 -
alone put 0266 1=ecb5,0=27c2bfa8f432ad3838bb6e8f
alone put 0268 -
alone put 026a -
alone put 026c -
alone put 026e 0=-
alone put 0270 -
alone put 0272 -
alone put 0274 -
alone put 0276 -
alone put 0278 -
alone put 027a 0=bc1b4046253b057f124fd795
alone put 027c -
alone put 027e 1=-,0=66
alone put 0280 -
alone put 0282 -
alone put 0284 -
alone put 0286 -
alone put 0288 -
alone put 028a 0=cf6f,1=7996ff02d4b27d6c7b2db718
alone put 028c -
alone put 028e -
alone put 0290 -
alone put 0292 0=182f
alone put 0294 -
alone put 0296 -
alone put 0298 -
alone put 029a 0=3c
alone put 029c -
alone put 029e 0=535d30cf786f27f479458f3f,1=d3
alone put 02a0 -
alone put 02a2 -
alone put 02a4 0=6b4325e70db1fd7dd6bc77cf
alone put 02a6 -
alone put 02a8 1=12a34c93840d9eecb1b4ee5c
alone put 02aa -
alone put 02ac -
alone put 02ae -
alone put 02b0 1=fca7,0=-
alone put 02b2 -
alone put 02b4 -
alone put 02b6 -
alone put 02b8 -
alone put 02ba -
alone put 02bc -
alone put 02be -
alone put 02c0 -
alone put 02c2 0=e93e
alone put 02c4 -
alone put 02c6 -
alone put 02c8 -
alone put 02ca -
alone put 02cc -
alone put 02ce -
alone put 02d0 1=77
alone put 02d2 -
alone put 02d4 -
alone put 02d6 -
alone put 02d8 -
alone put 02da -
alone put 02dc -
alone put 02de 1=-,0=8833
alone put 02e0 -
alone put 02e2 0=7e8658fe99286ea2256b77ba,1=00e6
alone put 02e4 -
alone put 02e6 0=761a,1=7eb2
alone put 02e8 -
alone put 02ea -
alone put 02ec -
alone put 02ee -
alone put 02f0 -
alone put 02f2 0=7d40
alone put 02f4 -
alone put 02f6 1=a2af,0=-
alone put 02f8 0=2682842292e980bdfecf1e88
alone put 02fa -
alone put 02fc -
alone put 02fe -
alone put 0300 -
alone put 0302 -
alone put 0304 -
alone put 0306 0=41,1=b08350ce9ba0d176cd5d0c7f
alone put 0308 -
alone put 030a -
alone put 030c -
alone put 030e -
alone put 0310 -
alone put 0312 -
alone put 0314 -
alone put 0316 0=1f,1=761b
alone put 0318 -
alone put 031a -
alone put 031c -
alone put 031e -
alone put 0320 -
alone put 0322 1=-
alone put 0324 0=-
alone put 0326 -
alone put 0328 -
alone put 032a -
alone put 032c 1=e771f88316a71816bf171a24
alone put 032e -
alone put 0330 1=7722,0=-
alone put 0332 -
alone put 0334 -
alone put 0336 1=3c
alone put 0338 -
alone put 033a 0=a0ca
alone put 033c -
alone put 033e -
alone put 0340 -
alone put 0342 0=47
alone put 0344 -
alone put 0346 1=73353253d2bc442ae24239a0,0=56a409288daf9c75bbd1ecbb
alone put 0348 -
alone put 034a -
alone put 034c -
alone put 034e 1=00ac
alone put 0350 -
alone put 0352 -
alone put 0354 -
alone put 0356 -
alone put 0358 -
alone put 035a -
alone put 035c -
alone put 035e -
alone put 0360 -
alone put 0362 -
alone put 0364 -
alone put 0366 -
alone put 0368 0=-,1=-
alone put 036a 0=fe,1=dcecb27c86cb9e9f87e3d0a4
alone put 036c -
alone put 036e 1=a0c557824339ee14425e62de
alone put 0370 -
alone put 0372 -
alone put 0374 -
alone put 0376 -
alone put 0378 -
alone put 037a -
alone put 037c 0=f70230d63be17a5aadd242cf,1=3fdf
alone put 037e -
alone put 0380 0=-
alone put 0382 -
alone put 0384 -
alone put 0386 -
alone put 0388 -
alone put 038a -
alone put 038c 0=1c9066ec116e308e2faa59b2
alone put 038e -
alone put 0390 -
alone put 0392 -
alone put 0394 0=-,1=de6d13022cdb193b1654df75
alone put 0396 -
alone put 0398 -
alone put 039a 0=c014
alone put 039c -
alone put 039e -
alone put 03a0 0=0307
alone put 03a2 -
alone put 03a4 -
alone put 03a6 -
alone put 03a8 1=b6694f64ef8c30123f4dcd1a
alone put 03aa -
alone put 03ac -
alone put 03ae -
alone put 03b0 -
alone put 03b2 -
alone put 03b4 1=-,0=7cd84740f651ac383eb26b11
alone put 03b6 -
alone put 03b8 -
alone put 03ba -
alone put 03bc -
alone put 03be -
alone put 03c0 -
alone put 03c2 -
alone put 03c4 -
alone put 03c6 -
alone put 03c8 -
alone put 03ca -
alone put 03cc 0=f424
alone put 03ce -
alone put 03d0 -
alone put 03d2 -
alone put 03d4 -
alone put 03d6 -
alone put 03d8 -
alone put 03da -
alone put 03dc -
alone put 03de -
alone put 03e0 -
alone put 03e2 -
alone put 03e4 0=1152,1=06979ec3be024931092417ce
alone put 03e6 -
alone put 03e8 0=ba27486e372333b31f27644d,1=-
alone put 03ea -
alone put 03ec -
alone put 03ee -
alone put 03f0 -
alone put 03f2 0=06afd56e2bda031327bcd5a4
alone put 03f4 -
alone put 03f6 -
alone put 03f8 -
alone put 03fa -
alone put 03fc -
alone put 03fe -
alone put 0400 -
alone put 0402 -
alone put 0404 -
alone put 0406 -
alone put 0408 -
alone put 040a -
alone put 040c -
alone put 040e -
alone put 0410 -
alone put 0412 -
alone put 0414 -
alone put 0416 -
alone put 0418 -
alone put 041a -
alone put 041c -
alone put 041e -
alone put 0420 -
alone put 0422 0=efc7080a92bc5346a2ac2f95
alone put 0424 0=af35,1=3a4748f04e033fd6f3ec0d94
alone put 0426 -
alone put 0428 -
alone put 042a -
alone put 042c -
alone put 042e -
alone put 0430 -
alone put 0432 -
alone put 0434 -
alone put 0436 -
alone put 0438 1=6e,0=-
alone put 043a -
alone put 043c -
alone put 043e -
alone put 0440 -
alone put 0442 -
alone put 0444 -
alone put 0446 -
alone put 0448 -
alone put 044a 0=99fc46548070e33e8036d595
alone put 044c -
alone put 044e 1=-
alone put 0450 1=ca4d,0=a4
alone put 0452 -
alone put 0454 1=90
alone put 0456 -
alone put 0458 -
alone put 045a -
alone put 045c -
alone put 045e -
alone put 0460 -
alone put 0462 -
alone put 0464 -
alone put 0466 1=a3,0=e2c09adab875ba22692e4ede
alone put 0468 -
alone put 046a -
alone put 046c -
alone put 046e -
alone put 0470 -
alone put 0472 0=a190
alone put 0474 -
alone put 0476 1=-,0=-
alone put 0478 -
alone put 047a -
alone put 047c 1=683898137e1545a93d430b0f
alone put 047e -
alone put 0480 1=452b97147b474273227ca52e
alone put 0482 -
alone put 0484 -
alone put 0486 -
alone put 0488 -
alone put 048a 0=-,1=427b149806cd1ed40b5b1557
alone put 048c -
alone put 048e -
alone put 0490 -
alone put 0492 -
alone put 0494 -
alone put 0496 -
alone put 0498 -
alone put 049a -
alone put 049c -
alone put 049e -
alone put 04a0 -
alone put 04a2 -
alone put 04a4 -
alone put 04a6 -
alone put 04a8 -
alone put 04aa -
alone put 04ac -
alone put 04ae -
alone put 04b0 0=-
alone put 04b2 -
alone put 04b4 -
alone put 04b6 -
alone put 04b8 -
alone put 04ba -
alone put 04bc -
alone put 04be -
alone put 04c0 -
alone put 04c2 -
alone put 04c4 -
alone put 04c6 -
alone put 04c8 -
alone put 04ca -
alone put 04cc -
alone put 04ce -
alone put 04d0 -
alone put 04d2 -
alone put 04d4 -
alone put 04d6 -
alone put 04d8 -
alone put 04da -
alone put 04dc -
alone put 04de 1=fc31680f4098875fd032bf71
alone put 04e0 -
alone put 04e2 -
alone put 04e4 -
alone put 04e6 -
alone put 04e8 1=-,0=5e3e
alone put 04ea -
alone put 04ec -
alone put 04ee -
alone put 04f0 -
alone put 04f2 -
alone put 04f4 -
alone put 04f6 -
alone put 04f8 -
alone put 04fa -
alone put 04fc -
alone put 04fe 0=7d
alone put 0500 -
alone put 0502 -
alone put 0504 -
alone put 0506 -
alone put 0508 -
alone put 050a -
alone put 050c -
alone put 050e -
alone put 0510 -
alone put 0512 -
alone put 0514 1=cc
alone put 0516 -
alone put 0518 0=032dec1978438d869d3073fc,1=c919623544ac96ef3f5f8560
alone put 051a -
alone put 051c -
alone put 051e -
alone put 0520 -
alone put 0522 -
alone put 0524 -
alone put 0526 -
alone put 0528 -
alone put 052a -
alone put 052c 0=c0,1=e1
alone put 052e -
alone put 0530 -
alone put 0532 -
alone put 0534 0=758f8567f46787f16644634c,1=57f6
alone put 0536 -
alone put 0538 -
alone put 053a 1=f7
alone put 053c -
alone put 053e 1=c94a,0=e7
alone put 0540 -
alone put 0542 1=ac,0=4b
alone put 0544 -
alone put 0546 -
alone put 0548 0=-,1=-
alone put 054a -
alone put 054c 0=e3f8,1=-
alone put 054e 0=a13c4e62cc916740e3cfdbfe,1=bf
alone put 0550 -
alone put 0552 -
alone put 0554 -
alone put 0556 -
alone put 0558 0=45,1=73
alone put 055a -
alone put 055c -
alone put 055e -
alone put 0560 -
alone put 0562 -
alone put 0564 0=e30e5738e9c6e08c76bdce87
alone put 0566 -
alone put 0568 -
alone put 056a -
alone put 056c -
alone put 056e 1=b9,0=57
alone put 0570 1=ae,0=81
alone put 0572 -
alone put 0574 -
alone put 0576 1=5b1c
alone put 0578 -
alone put 057a -
alone put 057c -
alone put 057e -
alone put 0580 -
alone put 0582 -
alone put 0584 -
alone put 0586 -
alone put 0588 -
alone put 058a -
alone put 058c -
alone put 058e -
alone put 0590 -
alone put 0592 -
alone put 0594 1=761cb9d0b72d1bf3ec6e23b7
alone put 0596 -
alone put 0598 -
alone put 059a 0=566869112d53b77826433479,1=-
alone put 059c -
alone put 059e -
alone put 05a0 -
alone put 05a2 -
alone put 05a4 -
alone put 05a6 -
alone put 05a8 -
alone put 05aa -
alone put 05ac -
alone put 05ae 0=5841,1=a754fb941043c798d692512e
alone put 05b0 -
alone put 05b2 -
alone put 05b4 1=-
alone put 05b6 1=3898
alone put 05b8 -
alone put 05ba 0=445d,1=d94120cd211e362c2a47bc2e
alone put 05bc -
alone put 05be -
alone put 05c0 -
alone put 05c2 -
alone put 05c4 -
alone put 05c6 -
alone put 05c8 1=-
alone put 05ca -
alone put 05cc 0=c643c6790cbff372d829d9ce,1=-
alone put 05ce -
alone put 05d0 -
alone put 05d2 -
alone put 05d4 -
alone put 05d6 -
alone put 05d8 -
alone put 05da -
alone put 05dc -
alone put 05de -
alone put 05e0 -
alone put 05e2 -
alone put 05e4 -
alone put 05e6 -
alone put 05e8 -
alone put 05ea -
alone put 05ec -
alone put 05ee -
alone put 05f0 0=03,1=c5
alone put 05f2 -
alone put 05f4 -
alone put 05f6 0=47
alone put 05f8 -
alone put 05fa -
alone put 05fc -
alone put 05fe -
alone put 0600 -
alone put 0602 -
alone put 0604 -
alone put 0606 -
alone put 0608 -
alone put 060a -
alone put 060c -
alone put 060e -
alone put 0610 -
alone put 0612 1=-,0=c6
alone put 0614 -
alone put 0616 -
alone put 0618 -
alone put 061a 1=-
alone put 061c -
alone put 061e -
alone put 0620 -
alone put 0622 1=9b,0=f039
alone put 0624 -
alone put 0626 -
alone put 0628 -
alone put 062a -
alone put 062c -
alone put 062e -
alone put 0630 -
alone put 0632 -
alone put 0634 1=-,0=6d55
alone put 0636 -
alone put 0638 -
alone put 063a -
alone put 063c 0=-
alone put 063e -
alone put 0640 1=e892,0=-
alone put 0642 -
alone put 0644 1=74
alone put 0646 -
alone put 0648 1=c57b
alone put 064a -
alone put 064c -
alone put 064e -
alone put 0650 -
alone put 0652 -
alone put 0654 -
alone put 0656 -
alone put 0658 1=57c6,0=3501a607e256eea2eb67631f
alone put 065a -
alone put 065c -
alone put 065e -
alone put 0660 -
alone put 0662 0=c9f820b18a6f0167049a2b05
alone put 0664 -
alone put 0666 -
alone put 0668 0=6000a1acff27ed7257eea669
alone put 066a -
alone put 066c 0=e4,1=7c
alone put 066e 1=6cdf,0=01a5
alone put 0670 -
alone put 0672 1=-,0=ee
alone put 0674 -
alone put 0676 -
alone put 0678 -
alone put 067a -
alone put 067c -
alone put 067e -
alone put 0680 -
alone put 0682 -
alone put 0684 -
alone put 0686 -
alone put 0688 -
alone put 068a -
alone put 068c 1=-,0=2f5e
alone put 068e -
alone put 0690 -
alone put 0692 -
alone put 0694 -
alone put 0696 -
alone put 0698 -
alone put 069a -
alone put 069c -
alone put 069e 0=00c2,1=da2b
alone put 06a0 -
alone put 06a2 -
alone put 06a4 0=b8
alone put 06a6 -
alone put 06a8 -
alone put 06aa -
alone put 06ac -
alone put 06ae -
alone put 06b0 -
alone put 06b2 -
alone put 06b4 -
alone put 06b6 -
alone put 06b8 -
alone put 06ba -
alone put 06bc -
alone put 06be -
alone put 06c0 -
alone put 06c2 -
alone put 06c4 0=9e565fb701e6037c86b7ccaf,1=-
alone put 06c6 1=a97cbe8002f177d9bd4242e7,0=-
alone put 06c8 -
alone put 06ca -
alone put 06cc 1=df,0=9a15
alone put 06ce -
alone put 06d0 -
alone put 06d2 -
alone put 06d4 -
alone put 06d6 -
alone put 06d8 -
alone put 06da -
alone put 06dc 1=-,0=88e5
alone put 06de -
alone put 06e0 1=-
alone put 06e2 -
alone put 06e4 -
alone put 06e6 -
alone put 06e8 1=a386
alone put 06ea -
alone put 06ec -
alone put 06ee -
alone put 06f0 -
alone put 06f2 0=4c
alone put 06f4 -
alone put 06f6 -
alone put 06f8 -
alone put 06fa 1=553c,0=-
alone put 06fc 0=5564
alone put 06fe -
alone put 0700 -
alone put 0702 -
alone put 0704 -
alone put 0706 0=d2dda6c5ad1993b2e6235da1,1=01a8e9cf1372ec802c0fb06b
alone put 0708 -
alone put 070a -
alone put 070c 1=c7,0=de
alone put 070e -
alone put 0710 -
alone put 0712 -
alone put 0714 -
alone put 0716 -
alone put 0718 -
alone put 071a -
alone put 071c -
alone put 071e -
alone put 0720 -
alone put 0722 -
alone put 0724 -
alone put 0726 -
alone put 0728 -
alone put 072a -
alone put 072c 1=a21800c20eb639a6f0c3cc6e
alone put 072e -
alone put 0730 -
alone put 0732 -
alone put 0734 -
alone put 0736 -
alone put 0738 1=-
alone put 073a -
alone put 073c -
alone put 073e -
alone put 0740 1=5b,0=e8
alone put 0742 -
alone put 0744 -
alone put 0746 -
alone put 0748 -
alone put 074a -
alone put 074c -
alone put 074e -
alone put 0750 0=de69
alone put 0752 -
alone put 0754 -
alone put 0756 -
alone put 0758 -
alone put 075a -
alone put 075c 0=-
alone put 075e 0=f92b429845576d84c2e1959a
alone put 0760 0=-,1=eecc16eaa03b2f2f3e6cecac
alone put 0762 -
alone put 0764 -
alone put 0766 -
alone put 0768 -
alone put 076a -
alone put 076c -
alone put 076e -
alone put 0770 -
alone put 0772 -
alone put 0774 -
alone put 0776 -
alone put 0778 -
alone put 077a -
alone put 077c -
alone put 077e -
alone put 0780 -
alone put 0782 -
alone put 0784 -
alone put 0786 -
alone put 0788 -
alone put 078a -
alone put 078c 0=e9,1=67
alone put 078e -
alone put 0790 1=ef2b964ab8893c119ae0be70
alone put 0792 0=af3ff8705a24946fa34ccad8
alone put 0794 0=9588,1=57
alone put 0796 -
alone put 0798 -
alone put 079a 1=a9
alone put 079c -
alone put 079e -
alone put 07a0 -
alone put 07a2 1=6886
alone put 07a4 -
alone put 07a6 -
alone put 07a8 -
alone put 07aa -
alone put 07ac -
alone put 07ae -
alone put 07b0 -
alone put 07b2 -
alone put 07b4 -
alone put 07b6 -
alone put 07b8 -
alone put 07ba 1=6c
alone put 07bc -
alone put 07be -
alone put 07c0 -
alone put 07c2 1=-,0=ad
alone put 07c4 -
alone put 07c6 -
alone put 07c8 -
alone put 07ca -
alone put 07cc -
alone put 07ce -
alone put 07d0 0=-,1=-
alone put 07d2 -
alone put 07d4 -
alone put 07d6 -
alone put 07d8 1=b3f0,0=0295
alone put 07da -
alone put 07dc -
alone put 07de -
alone put 07e0 -
alone put 07e2 -
alone put 07e4 -
alone put 07e6 -
alone put 07e8 -
alone put 07ea -
alone put 07ec -
alone put 07ee -
alone put 07f0 -
alone put 07f2 -
alone put 07f4 -
alone put 07f6 -
alone put 07f8 -
alone put 07fa -
alone put 07fc -
alone put 07fe 1=c0,0=8378
alone put 0800 0=db730c61445458751ff1038d
alone put 0802 -
alone put 0804 -
alone put 0806 -
alone put 0808 -
alone put 080a 1=a0bb,0=04f47dec9e690c1178489797
alone put 080c -
alone put 080e 0=-
alone put 0810 -
alone put 0812 1=3a04,0=7f
alone put 0814 1=956dcb3e189d463cc84e018c,0=b209
alone put 0816 -
alone put 0818 -
alone put 081a -
alone put 081c -
alone put 081e -
alone put 0820 1=304f020779c14a733cc031e8
alone put 0822 -
alone put 0824 0=37f2cee9171b449715a7d2be,1=81
alone put 0826 -
alone put 0828 -
alone put 082a -
alone put 082c 1=3797ed23f316176e1178c62c,0=37af996bdf6f2ceb91ab4743
alone put 082e -
alone put 0830 1=-,0=1b
alone put 0832 -
alone put 0834 -
alone put 0836 1=-
alone put 0838 -
alone put 083a -
alone put 083c 1=c8
alone put 083e -
alone put 0840 1=e5a1,0=4eb7dd184aec1c7162436d22
alone put 0842 -
alone put 0844 -
alone put 0846 0=c1d9,1=-
alone put 0848 -
alone put 084a -
alone put 084c -
alone put 084e -
alone put 0850 -
alone put 0852 1=-,0=be
alone put 0854 -
alone put 0856 -
alone put 0858 -
alone put 085a 1=f281
alone put 085c -
alone put 085e -
alone put 0860 -
alone put 0862 -
alone put 0864 -
alone put 0866 -
alone put 0868 -
alone put 086a -
alone put 086c -
alone put 086e -
alone put 0870 -
alone put 0872 0=322a
alone put 0874 -
alone put 0876 1=84
alone put 0878 -
alone put 087a -
alone put 087c -
alone put 087e -
alone put 0880 0=de42d1bb9b72096b27fdc0ca
alone put 0882 -
alone put 0884 -
alone put 0886 -
alone put 0888 -
alone put 088a -
alone put 088c -
alone put 088e -
alone put 0890 -
alone put 0892 -
alone put 0894 -
alone put 0896 -
alone put 0898 -
alone tidy cb00000000000000ae68
alone put 0714 0=-
alone remove 03ea
collect
alone get 0366 all
apply 0
alone get 06a4 all
alone put 0664 1=c63bb630d7352c5de444d627
alone put 0219 0=-,1=c92f5058823485054b62a7e4
alone range 01c0 9 all
alone get 01f7 all
alone range c90000000000000042b4 1 all
alone putif 034d 0 1=89
alone put 0027 1=566b,0=-
alone put cd000000000000007b -
apply 0
alone get cc000000000000000614d8ce32949db5 all
alone tidy 004b
alone remove cd00000000000000
alone tidy 0004
alone put 05eb 0=c963a129022f5f2041c2ffdd
alone put cb0000000000000011 0=fe35
alone tidy 003a
alone put 067f -
alone put 03c2 0=eb,1=43
alone remove 015c
alone remove 05e8
apply 0
advance
alone remove cb0000000000000084c8
alone put c900000000000000d800ec73c38e1a36f2 -
alone get 01e3 all
alone put cc00000000000000 0=fd08
alone remove c800000000000000e7
alone put 00f7 0=4aa3,1=09c2d7d9bf9972977cc14d29
apply 0
alone put 01b6 -
alone remove 02f0
alone remove cd0000000000000066
alone put cb00000000000000 0=6fd4ad43398dc72eaebd44a1,1=-
alone tidy 03d8
alone put 037a 1=95
alone putif 071a 7 -
alone put c800000000000000ef8c -
alone remove cb00000000000000522464f87d742c84
alone put 01a7 1=a86ad28faf0384aed96ac5cf
alone putif cc00000000000000f925 0 0=-
alone get 03b4 all
alone put 079e -
alone range 01f7 3 all
alone put 01e3 0=5f8f,1=3cef78750dde9c7d58749de3
alone get 0626 all
alone put 0082 -
alone tidy 018c
alone remove cc00000000000000ac467db041123716
alone tidy 0450
alone putif 03c6 483 -
alone remove 07e1
alone putif 05eb 7 1=8487e96cb15397e9e7828eef
alone put cb000000000000009aaeb161fb8dfc7b7f -
alone putif 0027 1106 1=5bb2,0=757687925667aed11ab91245
begin 1 range 013b 2 all
step 1156
step 1156
step 1156
begin 2 put 05d2 0=98,1=0d
finish 1157
finish 1156
alone put cb000000000000008b94 1=-
alone remove 067f
alone get 07f6 all
alone put 0176 1=98
alone remove 07c7
alone put 02d2 1=5476
alone put ca000000000000005e 1=7571,0=-
alone range c9000000000000009f 3 all
alone get c9000000000000001e all
alone put 03fc 1=8ad6
alone tidy 02d4
alone put ca0000000000000043 1=27316406f729ce53236ba327
alone range 020c 1 all
alone get 071a all
alone put ca000000000000003c 0=-,1=27e0ddeda42c487c85c7e60a
alone put 07aa -
collect
alone putif cc000000000000002ab7 0 -
alone get ca0000000000000090bd all
apply 0
alone remove 01f8
alone remove 04b4
advance
apply 0
alone remove cb00000000000000ed
alone range cb000000000000009aaeb161fb8dfc7b7f 3 all
alone tidy cd00000000000000611f7cfc7d2ace80756ee9fba939d30f6f
alone putif 0808 1028 0=-
alone put c900000000000000359c4178ccb2bd92414b711de3247b713e -
alone put 0499 -
alone put 032c -
alone remove 064e
alone put 03e6 0=58
alone remove 05cc
alone get 01b4 all
alone remove 0626
alone range 02ca 1 all
alone get 07e1 all
alone put c800000000000000 0=78f9
alone remove 071a
apply 0
alone tidy 0370
alone remove 04b6
alone put 03f2 0=-
alone tidy 0830
alone put 03b2 -
alone put 0490 -
alone put 049e 0=-
alone tidy cd00000000000000daad1c168fecdb319b3c623ab974abae23
alone put 02fe -
alone put 03c5 -
alone put cb 0=-
alone put 0480 -
begin 1 range 0072 2 all
step 1206
step 1206
step 1206
step 1206
step 1206
step 1206
step 1206
step 1206
begin 2 put cb00000000000000 0=-
finish 1207
finish 1206
alone remove 02e0
alone remove 038c
alone put ca00000000000000a75a 0=c2
alone get 0106 all
alone putif ca000000000000008fbfbc852659d97b09 0 0=-
alone get 03bb all
alone tidy c90000000000000095148dfb2cb2ac0b
alone put 0604 -
alone put 03e0 0=02,1=-
alone put 017d 1=-,0=af
alone get 02ec all
alone put 0219 0=c5
alone put 07cc 1=3a5b
alone put 04a0 -
alone putif 0636 0 -
collect
alone range 05c0 1 all
alone put cd00000000000000655209d59f27a047f2 -
alone put 03a6 0=52a7,1=-
alone remove 07f6
alone put cd00000000000000611f7cfc7d2ace80756ee9fba939d30f6f 0=3e36,1=edca
alone put 0648 1=be992cf34428e0e786bb4c97,0=4602
alone remove ca00000000000000c38c8a25c03eab42
alone put cc000000000000002a 0=ac4e
alone putif ca000000000000003688a7eca476a88870 0 -
alone remove c800000000
alone put cd000000000000007b 0=c7d5bcab75e1f61229586b62
collect
alone put 0742 0=e49c266710c2719943caf6f6,1=-
alone put c900 -
alone put 0213 1=91,0=52dc
alone put 034d 1=7f
alone put 04f6 -
alone put 07ea -
alone remove 03de
alone put 01ec -
alone get ca000000000000009c14 all
alone tidy cc000000000000000614d8ce32949db5
alone remove 0708
apply 0
alone putif cb00000000000000bf51d5b456be3f9f 0 1=d24ed2ac8eb0e5904ee1a1b3
alone put c800000000000000fe 0=44bb3772835e89fbdf770d17,1=d48e
alone tidy 081f
alone put 0480 -
alone put 013a -
len
alone putif 022c 0 1=-
alone tidy 01a4
alone put 013a -
alone put 024a 1=-
alone put 00a2 1=-,0=1aca
alone put 02a6 1=cea959dcce38f76fe6ffc00b,0=804cd4a876274ad7e6ebaaac
alone put c80000000000000031 -
alone remove c900000000000000e1
alone get c9 all
alone tidy 01f2
alone put cb00000000000000bc8a -
alone remove cd0000000000000045d503a02a49409afd
alone put cd00000000000000b3fd184461c515f81b0e72256007dbaeff 1=1b0a,0=7c58f478000502edcea20283
alone put 079a 1=9408dcfdb90b64ce6381283c
alone putif c900000000000000da7090b0a1d96e73227af33c0431d4401a 0 -
alone put 03da -
alone range cc00000000000000f925 3 all
alone get 04d0 all
alone put 072f 0=09,1=-
alone remove 00c6
alone remove 01b6
alone get 0025 all
alone get 072a all
alone put 0120 1=25,0=089c63fb8dac81e2ec8f04f4
alone put 01e6 0=ee,1=90
alone putif 04a0 7 0=d9
alone tidy cb00000000000000ed
alone put cc00000000000000 1=-,0=4e7b25aff0e212e6a5144737
alone remove 0010
alone putif 0452 553 0=a850c8aa84fd00545013573a,1=-
alone tidy cb00000000000000d4a82d970c37a25174
alone remove 0573
alone remove 049a
alone put cd000000000000008a6c5364e5804a76 -
alone tidy ca00000000000000
alone get ca000000000000005c5a5031b931906e all
alone tidy 0008
alone put cd0000000000000003c0a2dc2174b052 -
alone put 05cc -
alone put 075a 0=-
alone put cc00 -
alone get 07fd all
alone get 07ca all
alone putif c900000000000000aedc063244fac16d94ca31bf631f3813ac 7 -
alone put 0655 -
alone put 0567 0=-,1=25
alone remove cc000000000000009a
alone remove cb000000000000001c
alone range 0335 3 all
alone remove cb0000000000000087b15fe2d0a4ec6a77
alone put cd00000000000000611f7cfc7d2ace80756ee9fba939d30f6f 0=d326ca6401e5e6f634d44031,1=0969639316d261f3f78e3963
alone tidy 0830
alone tidy 01c0
apply 0
alone put 017d -
alone remove cd00000000000000655209d59f27a047f2
alone put 023e -
alone tidy 06e6
alone putif ca0000000000000090bd 0 1=47051d11d360113cb912440d
alone putif 03c6 0 1=9639e0a3bb5c7cc5aaa363a6,0=1c
alone put 06a4 -
alone put 00b0 -
alone put ca00000000000000cc207fc5877ff0b2 0=7975
begin 1 range 0735 2 all
step 1312
step 1312
step 1312
step 1312
step 1312
step 1312
begin 2 put cd0000000000000097 -
finish 1313
finish 1312
alone put 01c0 -
alone put 0070 1=-,0=-
alone tidy 049a
alone put 0740 0=653b72b5bde78c2ee606c25e,1=8394
alone remove 07b1
alone put cb00000000000000 -
alone remove 0321
alone put 071a 0=-,1=c21cce7f48c51ec0b68670e1
alone put 06cc 0=-,1=06a8
alone range 03fc 9 all
alone putif cd00000000000000882c 0 1=db
alone remove 0011
alone range 0865 3 all
alone tidy 00f7
alone put 0231 1=-
alone put 030c 1=e4,0=7d5e9e1a2431b916e5cefca6
alone put c9000000000000001b86 1=0ee2
alone get 00a2 all
alone put cb00000000000000 1=da60efd126cef817bd36b729,0=3b0e
alone remove 017a
alone put 04b4 1=aa54f6bf894f8b73f1bb6843,0=68
alone remove c80000000000000031
alone range 00a0 1 all
alone put 01a8 -
alone put 07cc 1=312950434dd0b79f0936e756,0=9c
alone put c800 1=-,0=dfa8acd1890c7f795a2e923e
len
len
alone put 079e 1=3e,0=b13d1b45b896975f6873240a
alone range c900000000 9 all
apply 0
alone remove 0481
alone get 04fe all
alone put 0027 -
alone get 0664 all
alone remove cc00000000000000c8
alone tidy cc00000000000000f2f5696314a6879bffbdef06b891594346
alone range cc00000000000000c8 1 all
alone remove 0719
alone get 0494 all
alone put 02a6 -
alone putif 0022 7 1=-,0=af675aa2835f8f1c92ec8713
alone remove 0094
begin 1 range cb0000000000000019 2 all
step 1354
step 1354
step 1354
step 1354
step 1354
step 1354
step 1354
begin 2 put cb000000000000005b 0=-,1=0cbb
finish 1355
finish 1354
alone remove 07a0
alone put cc00000000000000f2f5696314a6879bffbdef06b891594346 1=-
apply 0
alone put 01a5 -
alone putif 0490 0 0=-
alone put 03ca 0=-
alone putif 02f0 0 0=de,1=36
alone remove 05c0
alone get 0028 all
alone put 044d 1=8bef
alone put ca000000000000003688a7eca476a88870 0=62c8
alone remove 0056
alone put c800000000000000ce1fb065692e8dde3a153e2e7937c73582 -
alone put 03d8 1=a3
alone remove 06d4
alone remove ca000000000000009c14
alone remove c9000000000000009e
alone remove 07a0
alone put 070d -
alone putif 02db 0 -
alone get 02db all
alone tidy cd000000000000007b
alone put c90000000000000025e9 0=62,1=7e63
alone get c900000000000000359c4178ccb2bd92414b711de3247b713e all
alone put 07b1 0=852bbe25f3342986c0ccec98
alone put 0119 1=87f98223af0aa80a40c2d321
alone tidy 0239
alone put 0010 0=-
alone put 034a 0=c7,1=f895
alone put 01c0 1=d16c,0=-
alone remove 04fe
alone get 01a5 all
apply 0
alone put cb00000000000000522464f87d742c84 1=02e7
alone get 051a all
alone tidy 081f
alone remove 0580
apply 0
alone remove 044d
alone remove 03bb
alone remove 017d
alone remove 07a8
alone remove c900000000000000e1
alone put 0022 0=-,1=e40a0c4a39fcda1b5a414fd0
alone remove 0024
alone tidy c900000000000000f7d486fba03621f316
len
alone put c90000000000000055 1=8d,0=38e0
alone putif c90000000000000053 0 0=7aff
alone put 04f6 -
alone put c90000000000000053 1=7e,0=464a7399e4237eb1c59d6a2e
alone put c9000000000000009e 1=2c,0=d3
apply 0
alone put 05c0 -
alone put 0648 1=-
alone put c900000000000000f7d486fba03621f316 0=a0
alone putif 0668 820 -
alone putif c800000000000000e7 0 -
begin 1 range c80000000000000026 2 all
step 1409
step 1409
step 1409
step 1409
step 1409
step 1409
begin 2 put c800000000000000e7 -
finish 1410
finish 1409
alone get ca0000000000000090bd all
alone putif 070d 0 -
alone remove 0898
alone get 084e all
alone remove 01ee
alone put 02d4 1=38ca
alone put cc00000000000000c8 1=f499db330912d5dfb8e0aa33,0=db1b
alone tidy 07c5
alone put 05fe 0=6d6a,1=87c4
alone putif cd00000000000000c2 0 0=7c,1=beea
alone remove cd000000000000003f44
alone put ca000000000000003688a7eca476a88870 1=0871163f19cdc4b9611ec4bc,0=-
alone put ca00000000000000e7 0=-
alone get 056b all
alone remove cc00000000000000f925
apply 0
alone remove ca000000000000009c14
alone remove 0646
alone put 0230 1=41fe92b1dc6858f698eae644,0=b8e4
alone putif 00f7 1116 -
alone put 056b 1=d0
alone putif 083b 7 1=-,0=713ac5fe8ae4c404cdff5150
alone tidy 052a
alone put 07b1 -
alone put 0721 1=fb
alone get cb0000000000000011 all
alone remove ca00000000000000e7
alone putif cc00000000 7 1=e36d,0=f1
alone putif c9000000000000009e 0 -
alone remove 0666
alone get 07a8 all
alone putif c9000000000000003165d9eb4c2fd905 0 1=b7
alone remove 02f2
alone tidy cc00000000000000ea05d62c60fae9de33
apply 0
alone put 00a2 -
alone tidy c8000000000000004ea046a92bc0c1184d
alone tidy cb00000000
alone remove 0713
alone range c80000000000000031 9 all
alone put 03c6 1=-,0=b4c0c12a4dde9297a4644066
alone put 043f -
alone range 043c 1 all
alone put c800000000 -
alone put 0236 0=e5,1=9359
alone remove c80000000000000026
alone put 083f 1=4e48
alone put 01ec 0=fb
alone putif 05be 7 1=0d,0=-
alone remove 07a0
alone remove 01a5
alone put c800000000000000d3 1=fc
alone put 015d 0=bd70
alone put 0218 -
alone put 024a -
alone remove 083f
alone putif cc00000000000000dea4164cf47de50e 0 1=010a
alone get 0656 all
alone put cc00000000000000a2c86ebdd2a3fdcfc7 -
alone put 055d -
alone remove 0213
alone putif 0462 0 0=a0ca,1=e771d663ab9a515c3ceff37a
begin 1 range cb000000000000005df3518969a7a631e8 2 all
step 1471
step 1471
step 1471
step 1471
step 1471
step 1471
begin 2 put 071a -
finish 1472
finish 1471
alone put cb0000000000000087b15fe2d0a4ec6a77 -
alone remove c80000000000000031
alone remove 06a4
alone get 0328 all
alone range cd000000000000007e 3 all
alone put 0379 -
alone put 0106 1=c5,0=7f
alone putif 0828 0 1=-,0=ba216178d45bfd27f8b53357
alone put 01a5 -
alone put 03d8 0=-,1=1b
alone tidy cb00000000000000
alone put 07f8 0=97d4
alone get ca00000000000000e38f5442c6378c7f5a47bb0f97607ad014 all
apply 0
alone putif cb000000000000008b94 0 -
alone put 0552 1=-
alone put c8000000000000008bf00844386bc04fe15694f4878628dd2e -
alone remove cc00000000000000f2f5696314a6879bffbdef06b891594346
alone remove 0480
alone remove ca000000000000009130231beee58fff
alone put ca000000000000005e 0=2628
alone put 01f7 -
alone remove 068a
alone tidy 06ea
alone put 0604 -
alone put 01f7 0=-,1=1941
len
alone remove 01a5
alone get 0140 all
alone put 0321 1=bc5f,0=4695
alone remove 0146
alone remove 0205
alone putif ca000000000000001646807db59b4c4d0a 7 1=-
alone put 02f0 0=ecd8
alone put 0830 -
alone put cc00000000000000a2c86ebdd2a3fdcfc7 -
alone putif 0028 7 -
alone putif c800000000000000c1b6365783178a2d4e 0 1=51f1,0=-
alone put 071a -
alone put 0370 -
alone remove 05e4
alone get 0043 all
alone tidy c9000000000000007a6986d80bfb7092
alone put 067f 1=02,0=6cf4
apply 0
apply 0
alone put c8000000000000003e39049b9a2f828ef5 -
alone tidy 00a2
alone putif 0231 0 1=-
alone range ca00000000000000b9 1 all
alone tidy 016a
alone range 03ef 3 all
alone remove 077a
alone put cd00000000000000c2 -
alone get 041a all
alone put 00cd 1=-,0=-
alone tidy ca000000000000005e
alone put cd000000000000002a0c1682a067df9b 1=db80
alone put cd000000000000001a14e54ee269c342 -
alone put 03f4 1=e1e50de534a906648ed3045c
alone get 0366 all
alone remove cd000000000000001023
alone putif 02d4 1292 -
apply 0
alone put 01ea 1=e147443013f249ec0209c69d
alone tidy c800000000000000dc
alone put cc00000000000000fd89 0=d0,1=b2
alone put 0719 -
alone put 079e -
alone put 05cc -
alone remove cb0000000000000087667ed037747d98
alone putif 0028 0 0=16a34f53c64f8e8bc09710c8
alone putif 085e 7 -
alone put 0867 1=64a0,0=5b88
alone put 058c -
alone put 013a -
alone putif cb000000000000003af0 0 0=4125646758e228a98dc59bec,1=cdd88a9772beb02ec013e878
alone remove 01d0
alone remove 055d
alone put 034d 0=-
alone put 01ec 1=-
alone remove 06b4
alone put 05b6 0=-,1=4b9b
collect
alone remove cb0000000000000011
alone putif 0881 0 1=-
alone remove 056c
alone remove 02f0
alone tidy 0604
alone put 056b 0=-
alone put 083f -
alone get 066a all
alone put cd000000000000007b -
alone tidy 079a
alone put cd000000000000008a6c5364e5804a76 0=5e00be456a16317e823d182a,1=-
alone put 035e -
alone remove 0032
len
alone put 04b4 0=d52397b479f26d698d751d7e
collect
alone range ca000000000000008fbfbc852659d97b09 1 all
alone put 0833 1=-,0=dc93
alone put 0645 0=1b5a4b7e33d1db504027c4b9
alone putif 05c0 7 1=-,0=1a8a
alone put 071a -
begin 1 range cc000000000000004f 2 all
step 1570
step 1570
step 1570
step 1570
step 1570
step 1570
step 1570
step 1570
begin 2 put ca0000000000000086 1=a7b0df00ca0343dcad14274e
finish 1571
finish 1570
apply 0
alone putif 03f8 0 1=-,0=e7
alone build range - none atleast 0 1
alone get 0310 all
alone remove 074a
alone put 0188 0=-,1=65f3
alone putif 06a4 0 0=2e86
alone put 01a7 -
alone tidy 0213
alone put 024a 0=493c0a73a31c9bda04316dff
alone remove 0202
alone put 0246 0=d3
alone put cd0000000000000097 -
alone put cc000000000000005d 0=60d19acb59457ee05ca38db2
alone put ca00000000000000e7 0=701e54001164fe6f6006f061
alone tidy 0780
alone put 07a0 1=9c
alone tidy cc0000000000000012
alone put c9000000000000007a6986d80bfb7092 0=adf5ab1295646adf6692403b,1=f1b5
alone remove 075f
alone tidy 012d
alone put 05d4 -
alone build prefix cc any
alone put 0108 0=1409
alone put cb00000000000000 0=9e0a,1=b130
alone put 0140 -
alone put cd000000000000008a6c5364e5804a76 0=-
alone put 004b 1=0d,0=797741722f861fca43044a18
alone put cb000000000000006cac3a907fec27f3 1=f7,0=-
alone put 068b -
alone put ca 0=a10b94b9eb97ae091a3a12e5,1=810392cd3bb8590e6f7205a6
alone tidy 057c
alone tidy 05c3
alone put 04fc 0=-
alone remove 03bb
alone put cb00000000000000522464f87d742c84 1=d1f3,0=d04b2b1794275de3e464951c
alone put cd00000000000000dd 0=-,1=-
alone put cd000000000000007b 1=0be6f8428deec62bdc5f5389,0=04f7
alone put 0094 -
alone put 0194 0=f8631cbd9b8a156698336950
alone remove 0366
alone putif 020b 0 -
alone putif c800000000000000652fcf1e03d0eb27 0 0=62
alone put 0234 -
alone remove 07dc
alone remove 03d8
alone put 0119 1=c24c
begin 1 range 0881 2 all
step 1618
step 1618
step 1618
begin 2 put 0833 -
finish 1619
finish 1618
alone put 038e -
alone remove 0603
alone remove cd00000000000000611f7cfc7d2ace80756ee9fba939d30f6f
apply 0
alone put cb00 -
alone tidy 04cc
alone put 01e4 0=1c0901d496dfbeeb27101455,1=72c8078ee4f6f860f6feb79f
alone put c80000000000000070d96fd754d3c92c 0=-,1=c9ecd5bb7d8fb6aececb1039
alone putif cc00000000000000588a594ef89713d524 0 1=da,0=f0c8472cf5e4af5a22f398af
alone get 079e all
alone get 06a1 all
alone put 0865 -
alone put 0164 1=d8ab,0=-
alone putif c9000000000000009ee1e594e907af2089 0 1=69bc
alone put cd000000000000007b 0=ef
alone put 020c 0=10962803a23bcec3afad6e82,1=-
len
alone get c90000000000000055 all
alone putif 062e 791 1=70
alone get 0618 all
alone put 074c 0=-
alone put c9000000000000003165d9eb4c2fd905 -
alone put cd000000000000008a6c5364e5804a76 0=-
alone remove 0201
apply 0
alone put 0150 -
alone put 05cc 0=4f4c
alone put cd 1=798c
alone put ca000000000000001646807db59b4c4d0a 1=c3,0=92
alone put c8 -
alone put 00a2 1=-,0=1f
alone remove c800000000000000652fcf1e03d0eb27
alone put cd00000000000000469d61aaeb55d1d8d5 -
alone put c800000000000000ce1fb065692e8dde3a153e2e7937c73582 1=896b8639fe01bf8fc144cb04
alone put cc00 1=-
alone range 051f 3 all
alone put cd00000000000000d3701f69810a8172d0 0=33ab73c72f31c79025af8e4d,1=-
alone remove cd00000000000000469d61aaeb55d1d8d5
alone put c900000000000000359c4178ccb2bd92414b711de3247b713e 1=5619,0=-
alone put c9000000000000001e 0=efd5b06e674999713f3d297d,1=55
advance
alone range cb0000000000000011 9 all
alone remove 0735
alone put ca0000000000000098 0=43
alone put 0321 1=-,0=d953102f4d2b4650bcf7000b
alone put 0366 1=ef
alone put 0486 1=4386d29395d38975cab9812c,0=d353
alone get 02ec all
alone get 0764 all
alone get 01d6 all
alone get 02db all
alone put cb00000000000000bd79d8ab5ac1f3ae 0=-
alone put 03e5 -
alone put 0370 -
alone range cc000000000000002ab7 9 all
alone put 04f6 1=d183474de3edcd32296094c7,0=aac6
alone put 0780 1=f8,0=f60f
begin 1 range 0338 2 all
step 1673
step 1673
step 1673
begin 2 put 02cc 0=fd
finish 1674
finish 1673
apply 0
alone put 06cc 0=e1ba,1=8722
alone remove 01e2
alone putif cb00000000000000ed 0 -
alone put c9 -
alone put cc0000000000000031 0=b4
alone range 020c 1 all
alone remove 0620
alone put c800000000000000ce550e96b4a51b1b82 -
alone put 078c -
alone put cd0000000000000066 0=-,1=f2
alone put ca0000000000000090bd -
alone put 013b 1=7d
alone tidy cd0000000000000097
alone remove c90000000000000042b4
alone remove 03d8
alone remove ca00000000000000b910
alone remove 00a2
alone put 059e -
alone putif 0028 0 -
alone put 0370 1=-,0=-
alone put 04fe -
alone putif cc00000000000000fd89 7 0=-
alone putif 01f6 0 1=3b,0=384a
apply 0
begin 1 range 0027 2 all
step 1698
step 1698
step 1698
step 1698
step 1698
step 1698
step 1698
begin 2 put 05f3 0=4f700195087216b789a5be51
finish 1699
finish 1698
alone put 083f -
alone put c800000000000000c1b6365783178a2d4e 0=4db2,1=70
alone remove 0828
alone put 05f8 0=f31385ac0c511197fb93a899
alone putif 034a 7 0=-
alone remove 015d
alone remove cc00000000000000a2c86ebdd2a3fdcfc7
alone range ca00000000000000b1931dcec7db5353d2 3 all
alone tidy 03bb
alone tidy 03f4
alone remove 0205
alone put 03c0 0=4e
alone put 0119 -
alone remove 03d0
alone tidy 00cd
alone putif 03a6 0 -
alone put c800000000000000fe 0=86
alone put 0550 1=-
alone put 0774 -
alone put 01f7 0=-,1=d7c1
alone put cc000000000000000928 0=4ff8b1a64f68b31411fd7204,1=9f
alone remove 05fa
alone tidy 0711
alone put 05c3 0=2b,1=bfdd
alone put c90000000000000087 0=d97a,1=bf843f89e0f3ae8851e84cc3
alone put 0567 1=847f,0=3147b0eaf0d368514c18e5d4
alone put 013a 0=-,1=a04a
alone get 0645 all
alone range 06cc 1 all
alone put 00b0 -
alone remove 067f
apply 0
alone put ca000000000000009130231beee58fff -
collect
alone put 0231 0=7bc4cd68477d8336e188942e
alone put c900000000000000a9bb0e5630f8cfbc 0=-
alone put 051a -
alone putif 04b4 1387 1=351d
alone putif 0645 0 1=24
alone putif 04fe 1480 0=b1,1=873f
alone putif c9000000000000009f 7 -
alone putif 048a 581 -
alone tidy cb000000000000006c21c861a490e63d0c406eff082918d55f
alone put c90000000000000025e9 -
begin 1 range cb 2 all
step 1742
step 1742
step 1742
step 1742
step 1742
step 1742
step 1742
step 1742
step 1742
begin 2 put c900000000000000e1 0=5a
finish 1743
finish 1742
alone put 075f -
alone put 016a -
alone put c90000000000000011aaa8c9bf6241cb428816ef55eddcb590 1=0765c13f109044367e81b190,0=5e
alone put 0043 1=39
alone put 07aa 0=-,1=-
alone put 05c3 0=6690c9d89d486b61f4b44394,1=3b
alone remove 03f2
alone get 0799 all
alone get 04b4 all
alone remove c8000000000000003a
alone put 0532 1=4860dafa097faf763140cdb5
alone put c80000000000000075a1d508166d6966 1=d9e0fa30e7e7f530c906b38f,0=a82b
alone put 03ef 1=6c035cf080b590d72b6d1aca,0=-
alone putif 0450 0 1=b88d
apply 0
alone put 07f6 1=5bdf,0=9680
alone tidy 0231
alone get 0119 all
alone get c8000000000000008bf00844386bc04fe15694f4878628dd2e all
alone putif 07c5 0 -
alone remove ca00000000000000a75a
collect
alone remove 041a
alone remove 07d9
alone put 0205 -
alone put cb0000000000000087 0=c6,1=903ab37e7985761367c00135
alone tidy 02fa
alone put 0366 1=53ff88e0878c140b91f315ac
alone remove cd0000000000000097
alone put 06a1 1=-
alone put 03c7 0=-
alone putif 049a 0 1=13632ecdba7a2c449721bb8f,0=-
alone put 04d0 -
alone remove cb00000000000000fd
alone remove c9000000000000009f
alone put cd00000000000000997c78543c1101bc6e 1=1f519f664267641729768491,0=e9
alone put 0252 1=f1,0=-
alone put 05a0 1=-,0=f1ca
alone put 020a 0=54
apply 0
alone remove 03c7
alone remove 0866
alone tidy 016a
alone put 071a 0=-,1=-
alone put 058c 0=6f171e5c7e458f1c08a589ad
alone remove cb0000000000000083
alone remove c9000000000000001b86
alone put c8000000000000003aeb5554cbf40399a360898d98df55d7d7 0=c8
alone get 012c all
alone put 04fe 1=46
alone tidy 0196
alone remove 07e1
alone put cb0000000000000087667ed037747d98 1=d9
begin 1 range cd 2 all
step 1794
step 1794
step 1794
step 1794
step 1794
step 1794
begin 2 put 0682 0=72,1=ed
finish 1795
finish 1794
alone tidy 0255
alone putif ca00000000000000b9 0 0=-,1=2df7
alone range cd0000000000000066 3 all
alone remove c90000000000000087
begin 1 range 0833 2 all
step 1800
step 1800
step 1800
step 1800
step 1800
step 1800
begin 2 put ca000000000000005e -
finish 1801
finish 1800
alone range 040b 1 all
alone get 075f all
alone range 051f 9 all
alone get c800 all
alone put c800000000000000652fcf1e03d0eb27 1=-
len
alone remove 0227
alone put 04dc 0=13,1=4530c990bf29d0056a6e8c38
alone remove 0252
alone put 079a -
alone put cd00 -
begin 1 range c9000000000000001e 2 all
step 1812
begin 2 put cc0000000000000066c3e49d7b006ba484 -
finish 1813
finish 1812
alone putif ca000000000000009130231beee58fff 1503 -
alone get cc000000000000004f all
alone put 02ec 0=904e,1=6d6b
alone put 054c 1=efb67318cc44a0ad7d047aae,0=b4
alone put c80000000000000012ad 0=-,1=516b0fe40c597ed232acf999
alone put cc00000000000000ae485b10275176140b -
alone remove cb000000000000005df3518969a7a631e8
alone put 06ea 1=0df9a943be3cc5ff560588a8,0=d09c82242e298ffdb5501a46
alone put 0121 -
alone put 0408 0=22bb
alone tidy 02f0
len
apply 0
alone put cb0000000000000087667ed037747d98 1=cc22de5606401f01ee7b6b4b,0=84cf
alone put c900000000000000da7090b0a1d96e73227af33c0431d4401a 1=a1,0=f478
alone putif c90000000000000053 1282 0=9e,1=b262
alone putif cd0000000000000066 7 0=9a29
alone remove 012d
alone range c9000000000000009e 1 all
alone put 022c 1=819a84f06b9608c9b7fb551d
alone remove 00dc
collect
alone get 0286 all
alone range 021c 9 all
alone put cc00000000000000dea4164cf47de50e -
alone put 07f2 0=-,1=ca4d
alone tidy cb00
alone put cc000000000000002a 0=0092b0bc4ceb7e3848d35cbd
alone put 012d -
alone put c90000000000000042b4 0=-,1=a5
alone remove 075f
apply 0
alone tidy 01ae
alone put 0682 0=8e91ba6f848b1b49b6f90acf,1=-
alone putif cd0000000000000045d503a02a49409afd 7 -
alone put cd000000000000009b -
alone put 0833 -
alone put 05b8 0=be,1=-
alone remove 03ec
alone put 01c0 1=c189eea446bbc26c5615f5a3,0=af29
alone put cc00000000000000ea05d62c60fae9de33 1=e3,0=56dc
alone putif 079a 7 -
alone remove 03e1
alone get c9000000000000009e all
alone put cd00000000000000 1=ff,0=50bc
alone get 017e all
alone get c8 all
alone putif c900000000000000f7d486fba03621f316 1286 -
alone put 07a0 0=c4
alone remove cd0000000000000083199b2e6627ff8c3f3d46e746cd23d680
advance
alone put c9 1=57,0=3f37
alone put 041c 1=e5c7,0=-
alone remove 0697
alone put 07e1 -
alone tidy ca000000000000005a
alone get c9000000000000009ee1e594e907af2089 all
alone get 0296 all
alone put cc00000000000000f2f5696314a6879bffbdef06b891594346 1=e8
alone remove c800000000000000ef8c
alone put ca00000000000000 1=41,0=74dd
len
apply 0
alone put cc000000000000000614d8ce32949db5 1=31d1
alone put c9000000000000001e -
alone remove 049a
alone put ca00 0=48f903678801ac4c5a920f16,1=0893
alone get 0666 all
apply 0
alone put 0056 1=46d65a823c8e75c95b75b4dd
alone put 0833 0=1b,1=210c220eb09de220c7afc300
apply 0
alone get 0309 all
alone remove 01e4
alone put c80000000000000070d96fd754d3c92c 1=-,0=d3be
alone put 0567 1=e9
alone remove 0205
alone put c900000000000000f7d486fba03621f316 -
len
alone get c900000000000000f7d486fba03621f316 all
alone put 07e0 -
alone tidy c900000000000000e1
alone put 0502 0=f6b19aa9bf8a71c230f2c0c5,1=-
alone put c90000000000000055 1=b49f5b275ed3c80c3e055ca6
len
alone put 01f2 -
begin 1 range 084e 2 all
step 1889
step 1889
step 1889
step 1889
step 1889
step 1889
step 1889
step 1889
step 1889
begin 2 put c90000000000000053 1=97cd1a35b3ab70fde281636a,0=3d31
finish 1890
finish 1889
alone remove c9
alone tidy 0255
alone put 0238 1=e0db70949972f3f1e2a6fed2
alone remove 0498
alone put 03f4 0=4815
alone remove 00cd
alone remove 0867
alone put ca000000000000005c5a5031b931906e 1=fed894823acea28eeca6578e
alone put cb0000000000000084c8 -
alone put 05c0 1=22
apply 0
alone range c800000000000000159400f6df162c60a1 9 all
alone put cb000000000000003af0 -
advance
begin 1 range ca0000000000000086 2 all
step 1903
step 1903
step 1903
step 1903
step 1903
step 1903
step 1903
begin 2 put 070d -
finish 1904
finish 1903
alone tidy 07fd
alone put c900000000000000aedc063244fac16d94ca31bf631f3813ac 1=4747455518b7aad01542712c
alone get 004b all
alone put 06d6 -
alone put cb00000000000000987f8c9002dbd96277 1=cc,0=-
alone putif 0666 0 1=23d5a5a34f186ff61f46fd0f
alone put 0802 -
alone put 020b -
alone remove c90000000000000011aaa8c9bf6241cb428816ef55eddcb590
alone put 00bc 0=c8,1=e89b
alone put cd 1=2a77b7fd9ce2b56f58a76a27,0=ec9404c104d8fd294c548d72
alone remove ca000000000000003c
alone putif cb000000000000006c21c861a490e63d0c406eff082918d55f 7 -
len
alone put 06cc 1=-,0=3ac547ee31156499a46338d9
alone get cb000000000000001c all
alone remove 074c
alone put cd00000000000000 -
alone put cd000000000000007e -
alone range c800000000 1 all
alone put cc0000000000000012 0=a7a2
alone remove 020c
alone put 00cd 0=43ec8aa86704f03689747c23
alone putif 0488 7 0=230b26ab33920a4323e1511c,1=34
alone put 0028 -
alone get 01f5 all
alone put 01f2 -
alone remove 055a
alone put cc000000000000000614d8ce32949db5 1=62,0=39dd
alone put c800000000000000 -
apply 0
alone remove 013b
alone putif ca00000000000000b9 0 -
alone put 07fd 1=1c4afbb5c7cd99582be3ebf6
alone putif cb000000000000006cac3a907fec27f3 0 0=c2847340853f4c6a5e079dae
alone tidy 0562
alone put ca00000000000000c38c8a25c03eab42 -
alone put cd00000000000000882c 0=e5
alone remove cd00000000000000b3fd184461c515f81b0e72256007dbaeff
alone get 000a all
alone put 03ef 0=e7b1,1=93
alone put 0794 0=b93d
alone putif 0682 1575 0=7279,1=c8
alone get cb00000000000000fd all
alone remove 01a7
alone put 0052 0=-
collect
alone put c9000000000000001e 0=c183,1=7548
alone remove ca00000000000000d88a
alone remove 07a8
alone get 0121 all
alone remove c800000000000000d3
alone put 02a4 -
alone putif 071a 1540 0=82b0
alone tidy 035e
collect
alone remove 04a8
alone remove 081f
alone get cc00000000000000ea05d62c60fae9de33 all
alone remove cb00000000000000bf51d5b456be3f9f
alone range 0670 1 all
alone remove 06a4
alone remove cd00000000000000882c
alone tidy 0082
alone putif c800000000000000159400f6df162c60a1 7 1=4e
alone remove c800000000000000dc
alone put 07cc 0=-,1=-
advance
alone get 01f2 all
begin 1 range 0626 2 all
step 1969
step 1969
step 1969
step 1969
step 1969
step 1969
step 1969
begin 2 put c800000000000000ce1fb065692e8dde3a153e2e7937c73582 0=f608
finish 1970
finish 1969
alone put 066a -
alone remove 0231
alone range ca000000000000005e 3 all
alone get c90000000000000050 all
apply 0
alone put c90000000000000094a8 -
alone tidy 05d2
alone put cd00000000000000997c78543c1101bc6e 0=49c61d7466d7b42e67faea1f
alone put c90000000000000025e9 1=27
alone putif c800000000000000e1 0 -
alone put 074c 0=6542d167a1481cd5fd4ef879
alone putif 0296 331 0=ac79,1=00
alone put 079a -
alone remove ca00000000000000b1931dcec7db5353d2
alone put cc000000000000004f 1=31d2,0=857f7d3d7a3690a8560e4933
begin 1 range cc000000000000009a 2 all
step 1985
step 1985
step 1985
step 1985
step 1985
step 1985
step 1985
begin 2 put 00a2 -
finish 1986
finish 1985
alone putif 066a 7 1=-
alone put c8 -
alone get ca000000000000005e all
alone get cb0000000000000087b15fe2d0a4ec6a77 all
alone put 0871 1=-
alone tidy 03fc
alone put 05c6 -
alone put 03f2 -
alone remove cb00000000000000bc8a
alone remove c90000000000000087
alone put 01c0 1=6f
alone get cb00000000000000bd79d8ab5ac1f3ae all
alone put cb00000000000000e9 -
alone remove 0778
alone put ca00000000000000a75a 0=-
alone put 0231 1=0d,0=073da1456290fcbb739533ce
alone tidy cb000000000000008b94
alone put 013b 0=cbb19db34357cbd4d9582c6e
alone putif ca00000000000000d88a 0 -
alone put 02fe 0=8e46,1=e481
alone tidy 013b
alone putif 020b 1623 -
alone put c900 0=f4f0
alone remove 0690
alone range 072f 3 all
alone get 0697 all
alone put 0010 1=c43906c8a845fe2c2b6360b5,0=a62c9b804d28e179d2b8692a
alone get ca000000000000001646807db59b4c4d0a all
alone put 0721 1=5914,0=81
alone tidy 02d4
alone put 063a -
alone put 014a -
alone get 0255 all
collect
alone put 01f2 0=-
alone get 00a0 all
alone put 01ec -
alone remove 079a
alone range 0648 1 all
alone put c800000000000000ef8c -
alone putif 07f6 7 0=8241,1=-
alone put cc00000000000000588a594ef89713d524 0=50,1=51d51bed7e6dc623d5b4a147
alone remove ca00000000000000a75a
alone remove 0734
alone put c90000000000000050 1=-,0=03
alone remove cb
alone put 019e 1=17d02734aa20854c4f4169ad,0=88a6fbbae1d224aac18cfea2
alone range cd000000000000002a0c1682a067df9b 3 all
alone put 0784 0=70ad
alone range 013a 9 all
alone get 03f4 all
alone remove cb00000000000000
alone put 00a2 0=1b
alone tidy c900000000
alone put 0335 -
alone put 05c3 0=66
alone get c90000000000000055 all
alone putif cd00000000000000d3701f69810a8172d0 0 -
alone get 052a all
alone put 0871 1=9f56abefec77911a23881f70,0=55
len
alone remove 040b
alone remove 05d2
alone remove 0082
alone remove 03d8
alone get c800000000000000ce1fb065692e8dde3a153e2e7937c73582 all
drop 1
alone tidy cb00000000000000ed
alone tidy 0632
alone put 0735 -
alone put 01a5 1=2626fa4fd421e0ebf03b139e
alone put 0481 0=2e
alone putif 02cc 7 0=-,1=5239
alone get 014a all
alone put 0499 -
alone put cc000000000000000d3706a7e5f62593c4 1=8ebbd51f56c0df35335a98b4
alone remove 0040
alone putif cb00000000000000ae68 7 -
alone putif 0210 0 -
alone put 020c 1=4b58a70bd9874ab60afffac2,0=-
alone remove 068b
alone put 03ef 0=2b
alone put 063a -
alone putif 083b 0 -
alone put 07f4 0=a8c4
alone remove 0604
alone put 083b -
alone get 0834 all
alone put cb00000000000000bd79d8ab5ac1f3ae -
alone put 081f 0=a6d03258cdce662c0b6fa9a4,1=e9
alone put 079a 1=ac39
alone put 0025 1=-,0=76
alone range 0227 9 all
alone put cb00000000000000522464f87d742c84 -
alone put ca00000000000000 -
alone put cb000000000000009aaeb161fb8dfc7b7f 1=-,0=-
alone put ca00000000000000a75a -
alone remove 04cc
alone put c80000000000000026 1=fe,0=-
alone put 05ec 1=-,0=50bc76d8f1b053e7ee608a38
len
alone put ca000000000000001646807db59b4c4d0a 0=fe,1=41e2
alone put 0478 0=-
alone put cd00000000000000655209d59f27a047f2 1=-,0=8d
alone put c90000000000000050 -
alone put 074c 1=ab1b4a7337b649c2601e2a21
alone put 013b -
alone put ca000000000000005e 0=-,1=d966
alone put ca00000000000000e38f5442c6378c7f5a47bb0f97607ad014 -
alone put 0250 1=f6
alone tidy 025e
len
alone put 0027 1=-,0=-
alone put 07f6 -
alone put 0048 0=9512
alone put 06cc -
alone put cb0000000000000019 -
alone put c9000000000000009ee1e594e907af2089 1=eb3f,0=add0e02a58d33c2014319d38
alone put 044d -
alone remove cc000000000000002ab7
alone remove cd00000000000000
alone remove 0426
alone putif 0370 0 -
alone range 0600 3 all
alone get c900000000000000f7d486fba03621f316 all
alone put cc0000000000000066c3e49d7b006ba484 -
begin 1 range c900000000000000e1 2 all
step 2108
begin 2 put 02bd 0=815f307118c2e7c85d536224,1=b834
finish 2109
finish 2108
alone put ca 1=-,0=a67f
alone put c80000000000000070d96fd754d3c92c 0=9ed9,1=75
alone putif cc00000000000000dea4164cf47de50e 1569 0=175224a01ba87dd59c0dd2ab
alone put cd0000000000000083199b2e6627ff8c3f3d46e746cd23d680 -
alone remove c900000000000000a9bb0e5630f8cfbc
alone remove 012d
alone putif 07cc 1658 1=d4
alone put 051a 1=a32e
alone put 03f4 1=780c79edbc00e26bc347bf0c,0=0141
alone remove 00a2
alone put cb00000000000000ed 1=db3e18b465f979c18c9f73b6,0=39dcd5e15087d76a4dd947e9
advance
alone put ca0000000000000098 0=-,1=bb07
alone put 01f2 -
alone put cb000000000000005b -
alone put cb0000000000000087 -
alone put 0239 1=71ed80755c66d0d30e1e40bc,0=c221
alone put 016a 1=-,0=559b
alone put 03b2 -
alone put cb00000000000000bf51d5b456be3f9f 1=-
alone putif 03a0 0 0=b71c65e06c8f6f52858f71d1,1=f620
alone put 0335 0=c828,1=11
alone get 0450 all
alone put c800000000000000b0878240984a30658857d6eb845b92779c 0=67
alone put cc000000000000004f 1=-,0=df6b70b93df3e19bc3ea7cc4
alone remove 06fa
alone range 03e5 1 all
alone remove cb000000000000001c
apply 0
alone put 05de -
alone put 0636 0=6a57c5afef921c223148635e,1=-
alone remove 01dd
alone put 03f2 0=d210c1e977366a0b6f1b645b
alone put 00a2 -
alone put 03fc 0=fee01d79c72c882a99f3f900
alone put cc000000000000002ab7 1=-
alone put 03f4 0=06,1=3e4c346aa86c7a4160cb72bc
alone put c800 -
alone putif c800000000000000d3 7 0=-
alone range 03d8 1 all
alone put 056e -
alone put 0211 -
alone remove ca000000000000005a
alone put 0719 1=6373f135cb9d1b64fc407fb1
alone put 0676 1=7acb54edd04102c57dd66cb0
alone remove cb00000000000000ae68
alone putif 0802 0 0=3396
alone put c800000000000000e1 -
alone get 017d all
alone put ca00000000000000e7 1=-,0=8677
alone put 015d 1=bb6c,0=a52d
alone range cd000000000000001a14e54ee269c342 3 all
alone put 06ca -
alone put 0052 0=3f4c0666ff345399e573cf6a,1=a82aac6a46529a3e05482305
alone put cd0000000000000097 1=76df
alone tidy 0218
alone get 063a all
alone remove 05c0
alone put ca000000000000005e 0=-,1=4c
alone put 034d 0=8c0e
apply 0
alone put 0022 -
alone put c9 1=-,0=9410efd81a294b7fe80692a5
alone remove cc000000000000002ab7
alone remove cc00000000000000fd89
alone tidy ca00000000000000e7
alone put 0201 1=-
advance
alone tidy c800000000000000ef8c
alone put ca00000000000000a75a 0=-
alone putif cb0000000000000084c8 1614 -
alone remove 0450
alone get 0867 all
alone put 0080 1=-
alone put 084e -
alone put 03e1 1=-,0=-
alone put cb00000000000000bf51d5b456be3f9f 0=50,1=d78efd2e20a4e33a6f461fbb
alone put cb0000000000000087b15fe2d0a4ec6a77 1=-,0=-
alone putif cc00000000 0 -
alone remove 012a
alone put 01b6 1=9c53b13a84cb40875118fa92
apply 0
alone putif cc00000000000000a2c86ebdd2a3fdcfc7 0 -
alone remove 0632
alone put 03b2 -
alone tidy 07aa
len
alone remove 03c6
alone put 05eb 0=b3e62f053201d246b56a46a5
alone put 0056 1=fa,0=f637
begin 1 range ca000000000000009c14 2 all
step 2194
step 2194
step 2194
step 2194
step 2194
step 2194
begin 2 put ca0000000000000090bd 1=5aa0b63cd9343131ad0287ce
finish 2195
finish 2194
alone put 0426 -
alone putif cd00 7 -
alone put c800000000000000 -
alone get c800000000000000159400f6df162c60a1 all
alone remove cd00000000000000469d61aaeb55d1d8d5
alone get 045f all
alone put 0082 0=-
alone put 0799 -
len
alone get 0025 all
alone get 01dd all
alone remove ca00000000000000cc207fc5877ff0b2
apply 0
apply 0
alone tidy cd000000000000001023
alone put 012d 0=1dfaa3811eedfc3a55d0fb26,1=a728
alone range 0697 9 all
alone remove cb0000000000000087667ed037747d98
alone tidy 07dc
alone put cd00000000000000 -
alone remove c90000000000000055
alone tidy 021e
alone put 0796 -
alone get 040b all
alone put 0713 1=4a3fded6fde8ac85884ecbcf,0=2b43
alone remove 0022
collect
alone put 080f 1=32
alone put cd000000000000003f44 0=-
alone get 06e0 all
alone remove 05d2
alone remove 0064
alone put 00b0 -
alone get 05c0 all
alone put c900000000000000a9bb0e5630f8cfbc -
alone remove cb00000000000000ae68
alone remove cb00000000000000fd
alone put 0034 -
alone remove 0664
alone put c800000000000000b0878240984a30658857d6eb845b92779c 1=-
alone put 0702 0=-,1=144e
alone put 03e5 -
alone remove 063a
alone get 02bd all
alone putif 04b4 1507 1=-,0=f35a672c1e7217ecb3e0982f
alone remove 083f
alone put 0734 0=-,1=8c40
alone remove cd0000000000000097
alone get ca00000000000000 all
alone put 07a8 -
alone tidy cb00
alone putif c90000000000000055 0 1=8c9f
apply 0
alone put c900000000000000da7090b0a1d96e73227af33c0431d4401a 0=baad
alone put c800000000000000159400f6df162c60a1 1=-,0=1ab091119597f09cf6b337d2
alone get cc all
alone put 0043 -
begin 1 range 0480 2 all
step 2248
step 2248
step 2248
begin 2 put 0370 -
finish 2249
finish 2248
alone put cd00000000000000daad1c168fecdb319b3c623ab974abae23 0=51
alone put cd00000000000000882c 0=-,1=14
alone put 00b0 -
alone put 0721 0=b515bfea97bb24109ff71641
alone put 0688 1=4e9782f7b003183307bce5d2
begin 1 range 06cc 2 all
step 2255
step 2255
step 2255
step 2255
step 2255
step 2255
step 2255
step 2255
step 2255
begin 2 put ca000000000000005e 1=96dccf0a3345a272a4e30cdb,0=c8c60e8cf6c9a39178d04d01
finish 2256
finish 2255
alone put 055a 0=d2f3,1=9b
alone put 0396 -
alone get 07fd all
alone put 00cd 0=1f12ea7594534067ffcb560c,1=e7c9ef94042e87250f70c8b5
alone remove 0022
alone range 0802 9 all
alone put c900000000000000aedc063244fac16d94ca31bf631f3813ac -
alone putif cb0000000000000019 1747 1=c927,0=fc1764a6645c97ce3ba39d47
alone put 0366 -
alone get 07e1 all
alone put 066a 1=f6,0=1e31065134316a6a33296027
alone put cb00000000000000e9 1=b0b554d4ec8d0e90dc8ea56f
alone putif 01f6 0 -
alone remove cd000000000000007b
alone get cb0000000000000087b15fe2d0a4ec6a77 all
alone remove 0833
alone range c800000000000000 1 all
alone remove cc0000000000000031
alone remove 01e3
alone put 01a6 1=9c
alone put 02f0 1=5e,0=4bda
alone put 0231 0=-,1=9c54434343d05ff53496c582
alone put 01e0 -
len
alone remove 0316
alone range c900000000000000a9bb0e5630f8cfbc 1 all
alone remove 0070
alone put cc00000000000000fd89 -
alone get 040b all
alone tidy 01d4
alone put c80000000000000031 -
alone put 03fc 1=-,0=dd
alone remove 0321
alone put cd00000000000000997c78543c1101bc6e -
alone put 0201 0=9bbd,1=14
alone tidy 02fe
alone remove c800000000000000ef8c
alone put 0624 0=27
alone put cc00000000000000ea05d62c60fae9de33 0=01,1=5f4150a6804536afbc8f4ef5
advance
alone get 02f0 all
alone put 043f 1=79,0=3ea029fbd5ca5a1cbc4b908e
alone putif 054d 0 1=-,0=-
alone get 0894 all
alone remove 0370
alone remove 01ec
alone putif 01b0 7 -
alone put 0745 -
alone put 04da -
alone tidy cc00000000000000ae485b10275176140b
alone get 07a0 all
alone get c9000000000000001e all
alone tidy cc00000000000000f925
alone remove 06a4
alone put 01f7 1=e546,0=9e
alone put c90000000000000094a8 1=4e05,0=21a6
alone range 0094 3 all
alone put 05f8 0=-,1=-
apply 0
alone put 0008 -
alone put 066a 1=a3,0=31
alone put 0711 1=80fe,0=5691
alone put cb0000000000000011 -
alone put 0356 1=-,0=be70
alone tidy 0116
alone remove 0494
alone put 0722 1=6fa86bce76b48242c9907bca
alone get ca000000000000009c14 all
alone tidy 0290
alone put 00a2 1=1c,0=49a4
alone put 0043 1=-
alone tidy 068b
alone put c900000000000000a9bb0e5630f8cfbc -
alone remove 05f8
alone remove c9
alone tidy 0776
alone put 004e 0=06,1=97
alone putif 0118 0 1=6570f2559744c5ddea2460fc,0=4b08
alone put 00a2 1=e399
alone get 0490 all
alone put 0530 0=-
alone remove cd000000000000001023
alone put 01a5 1=82
alone putif 0499 0 1=95
alone get cb000000000000005b all
alone remove cd
alone put cc0000000000000066c3e49d7b006ba484 0=-
alone remove 0721
alone get cc00000000000000043f all
alone put cb00000000000000fd 0=-,1=-
alone put 06b0 -
alone put 051e 0=1d,1=8de67135c76f4d983442977b
alone put 043f 1=-,0=1e
alone put 03ce 0=ebb8fb45548e09b0de0c531e,1=-
alone tidy cd00000000000000655209d59f27a047f2
alone get cd000000000000001023 all
alone put 0160 1=6a76,0=9139
alone put cd00000000000000dd 1=e8c9
alone remove 05f3
alone put 080a 1=-
alone put 03ee 0=125d
alone put cc00000000000000588a594ef89713d524 -
alone put 00a2 0=-,1=-
alone put 03e5 1=4228
alone put c900000000000000d887 0=7a6f,1=65
alone tidy 05a0
alone get cc000000000000005a all
apply 0
alone remove 035e
apply 0
apply 0
alone put 082e 1=362f
alone get 00f7 all
alone put cc00000000000000043f -
alone tidy c80000000000000012ad
alone tidy c80000000000000052
alone put 0636 1=-
alone put 0881 -
alone tidy 04a8
begin 1 range 0686 2 all
step 2370
step 2370
step 2370
step 2370
step 2370
step 2370
begin 2 put c90000000000000011aaa8c9bf6241cb428816ef55eddcb590 0=-
finish 2371
finish 2370
alone putif 07e1 0 -
alone remove 05f8
alone tidy 051f
alone put 01e0 -
alone put cc0000000000000066c3e49d7b006ba484 0=05
alone put 05d2 1=9434
alone remove 0205
alone putif 079e 0 1=36a17543c83dd8be1f101a85,0=dbaf
begin 1 range 002a 2 all
step 2380
step 2380
step 2380
step 2380
step 2380
step 2380
step 2380
begin 2 put ca0000000000000017 -
finish 2381
finish 2380
alone remove 0466
alone remove 013a
apply 0
apply 0
alone put 026c 1=5f29
alone put c800000000000000652fcf1e03d0eb27 1=-,0=06d196ac4745ff39e615f01f
alone get 0666 all
alone put 0719 0=-,1=-
alone put 04dc 0=-,1=-
alone tidy cd00000000000000dd
alone range 0466 9 all
collect
apply 0
alone putif 0719 0 0=c473
alone range cd000000000000001a14e54ee269c342 3 all
alone get cd000000000000001023 all
alone put c800000000000000d8580c074288cbb8 0=604f
alone remove 079e
alone tidy 03d6
alone get c900000000 all
alone putif 04cc 0 -
alone range c8000000000000003a 9 all
apply 0
alone range 03c5 9 all
alone put 03fa 1=-
alone remove 0426
alone get 058c all
alone get cd0000000000000045d503a02a49409afd all
alone remove 05ec
alone get 043f all
alone put 015d -
collect
alone put cd000000000000009b 0=33
alone putif 0379 7 0=cec9174511aa7b1a200f425a,1=49
alone get ca000000000000008fbfbc852659d97b09 all
alone get cb00000000000000e9 all
alone tidy c9000000000000009ee1e594e907af2089
begin 1 range 0364 2 all
step 2413
begin 2 put cd000000000000001a14e54ee269c342 0=23
finish 2414
finish 2413
apply 0
alone remove ca00000000000000
alone put 0228 0=59b4,1=456f
begin 1 range c800 2 all
step 2417
step 2417
step 2417
step 2417
step 2417
begin 2 put 013a -
finish 2418
finish 2417
alone put cd000000000000007b 1=c0,0=eb71
alone tidy cd0000000000000097
alone put 02ec -
alone putif c90000000000000087 7 0=8384dac5688e8f58709fa143,1=-
alone get 061c all
alone put ca0000000000000017c258ac2d063d5f 1=-
alone putif 07c8 0 0=99d3,1=a214
alone put 05a4 0=5d
alone put cb0000000000000083 -
alone put 02f4 1=-
alone put 02fe 1=d4,0=b41d
alone put c9000000000000009e -
alone remove 0078
alone remove cc000000000000005a
alone put 0802 0=-,1=f2a4
alone put cd000000000000003f44 0=1868
alone remove ca000000000000005c5a5031b931906e
alone put 0504 1=-
alone range cd00000000000000997c78543c1101bc6e 9 all
alone get 00f7 all
alone remove cb00000000000000bc8a
alone remove cc000000000000005a
apply 0
alone tidy 01e3
alone get cc000000000000002a all
alone put cc00000000000000ac467db041123716 -
alone get c8000000000000004ea046a92bc0c1184d all
alone put cb000000000000006c21c861a490e63d0c406eff082918d55f 1=1b,0=5a
alone remove cc000000000000000614d8ce32949db5
alone remove cd00000000000000997c78543c1101bc6e
alone put 0118 -
alone put cb00000000000000ae68 1=e2a1
alone put cc000000000000009a -
alone get cb00000000 all
alone put c800000000000000 0=-,1=f9
alone put 080f 1=b476
alone tidy 06d6
alone remove ca00000000000000e7
alone tidy 03e1
alone put cd00000000000000611f7cfc7d2ace80756ee9fba939d30f6f 0=-
alone put 0682 -
alone put cd00000000 1=4327
alone putif 0780 7 1=23
alone put c900000000000000359c4178ccb2bd92414b711de3247b713e 0=-,1=362e
alone put 07a0 -
alone put 03f4 -
alone range 067f 1 all
alone putif cc0000000000000031 7 -
alone remove cc00
alone put cd 0=57
alone putif 05cc 0 -
alone remove 0199
alone put 078c 1=44ca
alone put 0481 1=b433e277302e059194b531e0,0=-
alone get cb00000000000000522464f87d742c84 all
alone put 0867 0=f86a,1=3b
alone put 0082 0=fe
alone put 0450 0=d3
alone put ca -
alone put 0426 -
alone tidy 063a
alone put 0645 -
alone put 0199 1=09135045b055b7606941b5e1
alone putif 01ce 0 1=6fc71251bc59c1cdff01f7d4,0=7116
alone tidy 0121
alone remove 06cc
begin 1 range 05eb 2 all
step 2484
step 2484
step 2484
step 2484
begin 2 put 034d 1=dab3
finish 2485
finish 2484
alone put 0038 1=-,0=-
alone put cb0000000000000087b15fe2d0a4ec6a77 1=d9,0=106a
apply 0
alone put cb00000000000000d4a82d970c37a25174 0=271e9483cc169a3b5f1ddefa
alone put 045f 1=6d
begin 1 range cb000000000000006cac3a907fec27f3 2 all
step 2490
step 2490
step 2490
step 2490
begin 2 put 004b -
finish 2491
finish 2490
alone put cc000000000000000928 -
alone remove cc000000000000002ab7
apply 0
alone tidy cd000000000000008a6c5364e5804a76
alone put 03a0 0=8d8c
alone putif 004b 2004 1=ab,0=5b
alone put 030a 0=-
len
apply 0
alone get c800000000000000c1b6365783178a2d4e all
alone range c8000000000000003a 3 all
alone put cb000000000000005df3518969a7a631e8 -
alone put cd0000000000000003c0a2dc2174b052 0=c3ac0d1146cf58276405f717
alone put 020b -
alone put 0784 1=adf8665fd3be1be0a6ee75ca
alone put c90000000000000087 0=d398
alone put ca000000000000003688a7eca476a88870 -
alone remove cc00000000000000a2c86ebdd2a3fdcfc7
alone put 0620 1=8f,0=8463
alone remove 03e5
alone put 0886 0=8a
alone get 040b all
alone putif 0802 1967 -
alone tidy 0666
alone remove 055a
alone putif ca 0 0=84c8,1=d0
alone put 0011 1=cbad,0=bfdf
alone get 04f6 all
alone tidy 0492
alone get ca000000000000003c all
alone put 0830 0=7ca2
alone put 0466 0=f7
alone range c90000000000000042b4 3 all
alone put 0666 0=bd2d,1=529c
alone put 0074 1=7e,0=40
alone putif cb 0 -
alone remove c800000000000000e1
alone remove 07ea
alone put 03c7 0=-
alone put cc00000000000000f9f72b3c0258bee145 1=-,0=a3
apply 0
apply 0
apply 0
apply 0
apply 0
apply 0
apply 0
apply 0
apply 0
apply 0
apply 0
apply 0
apply 0
apply 0
apply 0
apply 0
apply 0
apply 0
apply 0
apply 0
apply 0
apply 0
apply 0
apply 0
apply 0
apply 0
apply 0
apply 0
apply 0
apply 0
apply 0
apply 0
apply 0
apply 0
apply 0
apply 0
apply 0
apply 0
apply 0
apply 0
apply 0
apply 0
apply 0
apply 0
apply 0
apply 0
apply 0
apply 0
apply 0
apply 0
apply 0
apply 0
apply 0
apply 0
apply 0
apply 0
apply 0
apply 0
apply 0
apply 0
apply 0
apply 0
apply 0
apply 0
apply 0
apply 0
apply 0
apply 0
apply 0
apply 0
apply 0
apply 0
apply 0
apply 0
apply 0
apply 0
apply 0
apply 0
apply 0
apply 0
apply 0
apply 0
apply 0
apply 0
apply 0
apply 0
apply 0
apply 0
apply 0
apply 0
apply 0
apply 0
apply 0
apply 0
apply 0
apply 0
apply 0
apply 0
apply 0
apply 0
apply 0
apply 0
apply 0
apply 0
apply 0
apply 0
apply 0
apply 0
apply 0
apply 0
apply 0
apply 0
apply 0
apply 0
apply 0
apply 0
apply 0
apply 0
apply 0
apply 0
apply 0
apply 0
apply 0
apply 0
apply 0
apply 0
apply 0
apply 0
apply 0
apply 0
apply 0
apply 0
apply 0
apply 0
apply 0
apply 0
apply 0
apply 0
apply 0
apply 0
apply 0
apply 0
apply 0
apply 0
apply 0
apply 0
apply 0
apply 0
apply 0
apply 0
apply 0
apply 0
apply 0
apply 0
apply 0
apply 0
apply 0
apply 0
apply 0
apply 0
apply 0
apply 0
apply 0
apply 0
apply 0
apply 0
apply 0
apply 0
apply 0
apply 0
apply 0
apply 0
apply 0
apply 0
apply 0
apply 0
apply 0
apply 0
apply 0
apply 0
apply 0
apply 0
apply 0
apply 0
apply 0
apply 0
apply 0
apply 0
apply 0
apply 0
apply 0
apply 0
apply 0
apply 0
apply 0
apply 0
apply 0
apply 0
apply 0
apply 0
apply 0
apply 0
apply 0
apply 0
apply 0
apply 0
apply 0
apply 0
apply 0
apply 0
apply 0
apply 0
apply 0
apply 0
apply 0
apply 0
apply 0
apply 0
apply 0
apply 0
apply 0
apply 0
apply 0
apply 0
apply 0
apply 0
apply 0
apply 0
apply 0
apply 0
apply 0
apply 0
apply 0
apply 0
apply 0
apply 0
apply 0
apply 0
apply 0
apply 0
apply 0
apply 0
apply 0
apply 0
apply 0
apply 0
apply 0
apply 0
apply 0
apply 0
apply 0
apply 0
apply 0
apply 0
apply 0
apply 0
apply 0
apply 0
apply 0
apply 0
apply 0
apply 0
apply 0
apply 0
apply 0
apply 0
apply 0
apply 0
apply 0
apply 0
apply 0
apply 0
apply 0
apply 0
apply 0
apply 0
apply 0
apply 0
apply 0
apply 0
apply 0
apply 0
apply 0
apply 0
apply 0
apply 0
apply 0
apply 0
apply 0
apply 0
apply 0
apply 0
apply 0
apply 0
apply 0
apply 0
apply 0
apply 0
apply 0
apply 0
apply 0
apply 0
apply 0
apply 0
apply 0
apply 0
apply 0
apply 0
apply 0
apply 0
apply 0
apply 0
apply 0
apply 0
apply 0
apply 0
apply 0
apply 0
apply 0
apply 0
apply 0
apply 0
apply 0
apply 0
apply 0
apply 0
apply 0
apply 0
apply 0
apply 0
apply 0
apply 0
apply 0
apply 0
apply 0
apply 0
apply 0
apply 0
apply 0
apply 0
apply 0
apply 0
apply 0
apply 0
apply 0
apply 0
apply 0
apply 0
apply 0
apply 0
apply 0
apply 0
apply 0
apply 0
apply 0
apply 0
apply 0
apply 0
apply 0
apply 0
apply 0
apply 0
apply 0
apply 0
apply 0
apply 0
apply 0
apply 0
apply 0
apply 0
apply 0
apply 0
apply 0
apply 0
apply 0
apply 0
apply 0
apply 0
apply 0
apply 0
apply 0
apply 0
apply 0
apply 0
apply 0
apply 0
apply 0
apply 0
apply 0
apply 0
apply 0
apply 0
apply 0
apply 0
apply 0
apply 0
apply 0
apply 0
apply 0
apply 0
view 2 0 - 1000
alone range 0002 400 all
alone range 0324 400 all
alone range 065c 400 all
alone range cd000000000000002a0c1682a067df9b 400 all
len
advance
collect
