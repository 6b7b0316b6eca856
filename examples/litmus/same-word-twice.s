# One word stored twice on one strand, and then another word behind a barrier.
    lui x2, 0x40000
    li x1, 1
    li x5, 2
    sd x1, 0(x2)
    sd x5, 0(x2)
    persistbarrier
    sd x1, 8(x2)
    ebreak
.persist
.space 2
