# A join, and then a new strand.
    lui x2, 0x40000
    li x1, 1
    sd x1, 0(x2)
    joinstrand
    newstrand
    sd x1, 8(x2)
    ebreak
.persist
.space 2
