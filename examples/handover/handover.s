# Core 0 writes a record to persistent memory, its payload and its index on a strand each, and hands it to core 1 by a flag in
# volatile memory. Core 1 notes in persistent memory that it has the record. After a crash the flag is gone; recovery trusts
# the note: where it is 1, payload and index are there.

.entry writer
.entry reader

writer:
    la x2, record
    la x3, flag
    li x5, 0x11
    sd x5, 0(x2)         # the payload
    newstrand            # the index doesn't wait for it
    li x6, 0x22
    sd x6, 8(x2)         # the index
    joinstrand           # both strands, before the flag
    li x7, 1
    sd x7, 0(x3)         # the flag
    ebreak

reader:
    la x2, record
    la x3, flag
wait:
    ld x7, 0(x3)
    beq x7, x0, wait
    persistbarrier       # the flag as it was seen, before the note
    sd x7, 16(x2)        # the note
    joinstrand
    ebreak

.volatile
flag:
    .word 0
.persist
record:
    .word 0              # the payload
    .word 0              # the index
    .word 0              # the note
