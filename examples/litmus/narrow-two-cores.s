# Two cores store the halves of one word.
.entry core0
.entry core1
core0:
    lui x2, 0x40000
    li x1, 1
    sw x1, 0(x2)
    ebreak
core1:
    lui x2, 0x40000
    li x5, 2
    sw x5, 4(x2)
    ebreak
.persist
.space 1
