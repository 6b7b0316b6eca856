# handoff.s without the barrier of core 0. A nop stands in its place, so that the schedules fit both.

.entry writer
.entry reader

writer:
    la x2, data
    la x3, flag
    li x5, 0x11
    sd x5, 0(x2)         # the data
    nop                  # the barrier is missing
    li x6, 1
    sd x6, 0(x3)         # the flag
    ebreak

reader:
    la x2, data
    la x3, flag
wait:
    ld x6, 0(x3)
    beq x6, x0, wait
    persistbarrier       # the flag as it was seen, before the note
    sd x6, 8(x2)         # the note
    joinstrand
    ebreak

.volatile
flag:
    .word 0
.persist
data:
    .word 0
    .word 0              # the note
