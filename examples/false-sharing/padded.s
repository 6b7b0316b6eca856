# Two cores, each of which counts to four in a persistent word of its own. The words are 64 bytes apart, each in a line
# of its own.

.entry first
.entry second

first:
    la x2, counters      # core 0's word
    j count
second:
    la x2, counters
    addi x2, x2, 64      # core 1's word
count:
    li x6, 4
again:
    addi x5, x5, 1
    sd x5, 0(x2)
    bne x5, x6, again
    ebreak

.persist
counters:
    .word 0              # core 0's
    .space 7             # the rest of its line
    .word 0              # core 1's
