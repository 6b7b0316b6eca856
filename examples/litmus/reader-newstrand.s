# Message passing where core 1 begins a strand between its barrier and its store.
.entry core0
.entry core1
core0:
    lui x2, 0x40000
    lui x3, 0x20000
    li x1, 1
    sd x1, 0(x2)
    persistbarrier
    sd x1, 0(x3)
    ebreak
core1:
    lui x2, 0x40000
    lui x3, 0x20000
    ld x4, 0(x3)
    persistbarrier
    newstrand
    sd x4, 8(x2)
    ebreak
.volatile
.space 1
.persist
.space 2
