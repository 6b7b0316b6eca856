# A heap of blocks of two words. Blocks from the top on were never used; a free list holds those that were given back,
# each with the next one's address in its first word. The program takes a fresh block, keeps its address in the root, drops
# it and gives it back. After a crash a block must be in use, or free, or above the top, and only one of these.

    la x2, heap
    ld x5, 0(x2)         # a fresh block: the top so far
    addi x6, x5, 16
    sd x6, 0(x2)         # the top goes past it
    li x7, 0xaa
    sd x7, 0(x5)         # the block's data
    persistbarrier       # 1: the block is taken and filled, before somebody can find it
    sd x5, 16(x2)        # the root: the block is in use

    sd x0, 16(x2)        # the root: nobody uses it any more
    persistbarrier       # 2: before its data gives way
    ld x8, 8(x2)         # the free list so far
    sd x8, 0(x5)         # its next
    persistbarrier       # 3: the next, before the block is on the list
    sd x5, 8(x2)         # the free list begins with it
    joinstrand
    ebreak

.persist
heap:
    .word 0x40000028     # the top: block 1
    .word 0x40000018     # the free list: block 0
    .word 0              # the root
    .space 2             # block 0
    .space 2             # block 1
    .space 2             # block 2
