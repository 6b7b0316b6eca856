# Puts a new node at the front of a linked list. A node is a value and the address of the next node.
# After a crash, recovery follows the list from its head.

    la x2, head
    la x3, node
    ld x6, 0(x2)         # the head so far
    li x5, 0xbb
    sd x5, 0(x3)         # the new node's value
    sd x6, 8(x3)         # its next
    persistbarrier       # the node, before the word that makes it part of the list
    sd x3, 0(x2)         # the new head
    joinstrand
    ebreak

.persist
head:
    .word 0x40000008
    .word 0xaa           # the old node: its value
    .word 0              # and no next
node:
    .space 2             # room for the new one
