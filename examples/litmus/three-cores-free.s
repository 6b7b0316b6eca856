# The chain through three cores without the barrier of core 1.
.entry core0
.entry core1
.entry core2
core0:
    lui x2, 0x40000
    lui x3, 0x20000
    li x1, 1
    sd x1, 0(x2)
    persistbarrier
    sd x1, 0(x3)
    ebreak
core1:
    lui x2, 0x40000
    lui x3, 0x20000
    ld x4, 0(x3)
    sd x4, 8(x3)
    ebreak
core2:
    lui x2, 0x40000
    lui x3, 0x20000
    ld x4, 8(x3)
    persistbarrier
    sd x4, 8(x2)
    ebreak
.volatile
.space 2
.persist
.space 2
