range _start 0
range fill 0
range by_rows 32
0x1091b9 1
0x1091cb 31
range by_columns 306
0x10922e 6
0x109240 158
0x109244 142
range main 2
0x1092a9 1
0x1092ae 1
outside 1
total 341
