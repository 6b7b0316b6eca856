# Five stores on two strands, for a machine that is short of everything.
    lui x2, 0x40000
    addi x1, x0, 1
    sd x1, 0(x2)         # word 0
    sd x2, 0(x2)         # word 0 again
    sd x1, 8(x2)
    sd x1, 16(x2)
    newstrand
    sd x1, 0(x2)         # word 0 from another strand
    joinstrand
    ebreak
.persist
.space 3
