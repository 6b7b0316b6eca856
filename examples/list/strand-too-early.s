# publish.s with a strand begun too early: between the barrier and the store that it should hold back.

    la x2, head
    la x3, node
    ld x6, 0(x2)         # the head so far
    li x5, 0xbb
    sd x5, 0(x3)         # the new node's value
    sd x6, 8(x3)         # its next
    persistbarrier       # orders what is behind it on this strand
    newstrand            # and the new head is on another one
    sd x3, 0(x2)         # the new head
    joinstrand
    ebreak

.persist
head:
    .word 0x40000008
    .word 0xaa           # the old node: its value
    .word 0              # and no next
node:
    .space 2             # room for the new one
