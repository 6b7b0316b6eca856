# A join between two words.
    lui x2, 0x40000
    li x1, 1
    sd x1, 0(x2)
    joinstrand
    sd x1, 8(x2)
    ebreak
.persist
.space 2
