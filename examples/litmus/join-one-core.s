# Core 0 joins, core 1 doesn't.
.entry core0
.entry core1
core0:
    lui x2, 0x40000
    li x1, 1
    sd x1, 0(x2)
    joinstrand
    ebreak
core1:
    lui x2, 0x40000
    li x1, 1
    sd x1, 8(x2)
    ebreak
.persist
.space 2
