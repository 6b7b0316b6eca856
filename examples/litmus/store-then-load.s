# Store buffering: core 0 stores X, passes a barrier and loads Y before core 1 stores it.
.entry core0
.entry core1
core0:
    lui x2, 0x40000
    li x1, 1
    sd x1, 0(x2)
    persistbarrier
    ld x4, 8(x2)
    ebreak
core1:
    lui x2, 0x40000
    li x1, 1
    sd x1, 8(x2)
    ebreak
.persist
.space 2
