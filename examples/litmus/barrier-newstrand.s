# Two words on two strands, and a barrier before the second strand begins.
    lui x2, 0x40000
    li x1, 1
    sd x1, 0(x2)
    persistbarrier
    newstrand
    sd x1, 8(x2)
    ebreak
.persist
.space 2
