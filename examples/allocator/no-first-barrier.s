# allocate.s without its first barrier. A nop stands in its place, so that the schedules fit both.

    la x2, heap
    ld x5, 0(x2)         # a fresh block: the top so far
    addi x6, x5, 16
    sd x6, 0(x2)         # the top goes past it
    li x7, 0xaa
    sd x7, 0(x5)         # the block's data
    nop                  # 1: the barrier is missing
    sd x5, 16(x2)        # the root: the block is in use

    sd x0, 16(x2)        # the root: nobody uses it any more
    persistbarrier       # 2: before its data gives way
    ld x8, 8(x2)         # the free list so far
    sd x8, 0(x5)         # its next
    persistbarrier       # 3: the next, before the block is on the list
    sd x5, 8(x2)         # the free list begins with it
    joinstrand
    ebreak

.persist
heap:
    .word 0x40000028     # the top: block 1
    .word 0x40000018     # the free list: block 0
    .word 0              # the root
    .space 2             # block 0
    .space 2             # block 1
    .space 2             # block 2
