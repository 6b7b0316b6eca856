# An append-only log. The commit word says how many records count; a record is two words.
# After a crash, recovery reads the commit word and takes so many records from the front.

    la x2, commit
    li x5, 0x11          # record 0
    sd x5, 8(x2)
    li x5, 0x12
    sd x5, 16(x2)
    persistbarrier       # the record, before the word that makes it count
    li x6, 1
    sd x6, 0(x2)

    li x5, 0x21          # record 1
    sd x5, 24(x2)
    li x5, 0x22
    sd x5, 32(x2)
    persistbarrier
    li x6, 2
    sd x6, 0(x2)

    joinstrand           # wait until all of this is durable
    mv a0, x6
    li a7, 1
    ecall                # tell the client: two records are in the log
    ebreak

.persist
commit:
    .word 0
    .space 2             # record 0
    .space 2             # record 1
