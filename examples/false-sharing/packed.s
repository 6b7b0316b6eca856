# Two cores, each of which counts to four in a persistent word of its own. The words are 8 bytes apart, in one line of
# the caches.

.entry first
.entry second

first:
    la x2, counters      # core 0's word
    j count
second:
    la x2, counters
    addi x2, x2, 8       # core 1's word
count:
    li x6, 4
again:
    addi x5, x5, 1
    sd x5, 0(x2)
    bne x5, x6, again
    ebreak

.persist
counters:
    .word 0              # core 0's
    .word 0              # core 1's
