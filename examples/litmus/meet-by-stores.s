# Two strands that store one word, Y: the first after X, the second before Z.
    lui x2, 0x40000
    li x1, 1
    li x5, 2
    sd x1, 0(x2)
    persistbarrier
    sd x1, 8(x2)
    newstrand
    sd x5, 8(x2)
    persistbarrier
    sd x5, 16(x2)
    ebreak
.persist
.space 3
