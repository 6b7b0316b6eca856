# The second strand loads what the first one stored, passes a barrier and stores.
    lui x2, 0x40000
    li x1, 1
    sd x1, 0(x2)
    newstrand
    ld x4, 0(x2)
    persistbarrier
    sd x4, 8(x2)
    ebreak
.persist
.space 2
