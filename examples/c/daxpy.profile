range _start 0
range _dl_relocate_static_pie 0
range daxpy 80
0x4011ab 40
0x4011af 40
range strided 80
0x4011e8 40
0x4011ed 40
range show 0
range count 0
range count_more 0
range main 0
outside 0
total 160
