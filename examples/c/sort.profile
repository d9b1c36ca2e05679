range _start 0
range _dl_relocate_static_pie 0
range sort 472
0x4011ee 32
0x4011f3 10
0x4011f8 25
0x4011fe 403
0x40121b 2
range sorted 0
range main 0
outside 0
total 472
