# Store buffering without the barrier of core 0.
.entry core0
.entry core1
core0:
    lui x2, 0x40000
    li x1, 1
    sd x1, 0(x2)
    ld x4, 8(x2)
    ebreak
core1:
    lui x2, 0x40000
    li x1, 1
    sd x1, 8(x2)
    ebreak
.persist
.space 2
