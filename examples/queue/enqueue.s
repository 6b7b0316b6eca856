# Two cores put a node each at the end of a linked queue, without a lock. A node is a value and the address of the next
# node. The tail may lag behind by one node, and whoever finds it so moves it on. It is in volatile memory: after a crash,
# recovery follows the queue from its first node. A core tells its client only once its node can't be lost.

.entry first
.entry second

first:
    la x2, node_a
    la x3, tail
    li x5, 0xaa
    sd x5, 0(x2)         # the node's value
    ld x4, 0(x3)         # the last node
    ld x6, 8(x4)         # its next: none
    persistbarrier       # the node, before the word that makes it part of the queue
    sd x2, 8(x4)         # the link
    persistbarrier       # the link, before the tail shows it to others
    sd x2, 0(x3)         # the tail
    joinstrand
    li a7, 1
    mv a0, x5
    ecall                # tell the client: the value is in the queue
    ebreak

second:
    la x2, node_b
    la x3, tail
    li x5, 0xbb
    sd x5, 0(x2)
try:
    ld x4, 0(x3)         # the last node, or the one before it
    ld x6, 8(x4)         # its next
    beq x6, x0, link
    sd x6, 0(x3)         # there is one: help the tail on, and try again
    j try
link:
    persistbarrier       # the node, and the links that were followed, before the link
    sd x2, 8(x4)
    persistbarrier
    sd x2, 0(x3)
    joinstrand
    li a7, 1
    mv a0, x5
    ecall
    ebreak

.volatile
tail:
    .word 0x40000000     # the first node
.persist
    .space 2             # the first node, which holds no value
node_a:
    .space 2
node_b:
    .space 2
