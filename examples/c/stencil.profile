range _start 0
range _dl_relocate_static_pie 0
range by_columns 5742
0x4011d2 6
0x4011d6 2542
0x4011de 326
0x4011e6 310
0x4011f2 2558
range count 0
range by_rows 256
0x401334 1
0x40133c 127
0x401351 128
range main 0
outside 0
total 5998
