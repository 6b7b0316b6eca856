# handover.s with the join moved to where the record is needed: core 1 joins before its note, and core 0 doesn't wait.

.entry writer
.entry reader

writer:
    la x2, record
    la x3, flag
    li x5, 0x11
    sd x5, 0(x2)         # the payload
    newstrand            # the index doesn't wait for it
    li x6, 0x22
    sd x6, 8(x2)         # the index
    nop                  # no join here
    li x7, 1
    sd x7, 0(x3)         # the flag
    ebreak

reader:
    la x2, record
    la x3, flag
wait:
    ld x7, 0(x3)
    beq x7, x0, wait
    joinstrand           # waits for this core's persists, and it has none
    sd x7, 16(x2)        # the note
    joinstrand
    ebreak

.volatile
flag:
    .word 0
.persist
record:
    .word 0              # the payload
    .word 0              # the index
    .word 0              # the note
