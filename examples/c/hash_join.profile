range _start 0
range _dl_relocate_static_pie 0
range probe 532
0x4011e3 32
0x4011f4 227
0x4011fe 273
range count 0
range join 0
range build 121
0x401438 16
0x401447 105
range main 0
outside 8
total 661
