# publish.s without its barrier. A nop stands in its place, so that the schedules fit both.

    la x2, head
    la x3, node
    ld x6, 0(x2)         # the head so far
    li x5, 0xbb
    sd x5, 0(x3)         # the new node's value
    sd x6, 8(x3)         # its next
    nop                  # the barrier is missing
    sd x3, 0(x2)         # the new head
    joinstrand
    ebreak

.persist
head:
    .word 0x40000008
    .word 0xaa           # the old node: its value
    .word 0              # and no next
node:
    .space 2             # room for the new one
