# Two writers, and a reader of each that passes a barrier and stores a word of its own.
.entry core0
.entry core1
.entry core2
.entry core3
core0:
    lui x2, 0x40000
    li x1, 1
    sd x1, 0(x2)
    ebreak
core1:
    lui x2, 0x40000
    li x1, 1
    sd x1, 8(x2)
    ebreak
core2:
    lui x2, 0x40000
    ld x4, 0(x2)
    persistbarrier
    sd x4, 16(x2)
    ebreak
core3:
    lui x2, 0x40000
    ld x4, 8(x2)
    persistbarrier
    sd x4, 24(x2)
    ebreak
.persist
.space 4
