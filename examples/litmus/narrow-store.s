# Two stores of one byte into one word.
    lui x2, 0x40000
    li x1, 1
    li x5, 2
    sb x1, 0(x2)
    sb x5, 1(x2)
    ebreak
.persist
.space 1
