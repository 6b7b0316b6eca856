# Core 0 looks at the flag before core 1 raises it: load, then store, across cores.
.entry core0
.entry core1
core0:
    lui x2, 0x40000
    lui x3, 0x20000
    li x1, 1
    sd x1, 0(x2)
    persistbarrier
    ld x4, 0(x3)
    ebreak
core1:
    lui x2, 0x40000
    lui x3, 0x20000
    li x1, 1
    sd x1, 0(x3)
    persistbarrier
    sd x1, 8(x2)
    ebreak
.volatile
.space 1
.persist
.space 2
