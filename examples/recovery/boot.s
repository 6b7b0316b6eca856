# What runs at each start: first recovery by the undo log, then a transfer of 0x30 from A to B under that log.

    la x2, A
    ld x5, 16(x2)
    beq x5, x0, transfer # the flag is 0: the log doesn't count, and there is nothing to repair
    ld x6, 24(x2)        # it is 1: a crash cut a transfer off, or a recovery
    ld x7, 32(x2)
    sd x6, 0(x2)         # both old values, in place
    sd x7, 8(x2)
    persistbarrier       # they are durable before the log stops counting
    sd x0, 16(x2)
    joinstrand           # recovered

transfer:
    ld x6, 0(x2)
    ld x7, 8(x2)
    sd x6, 24(x2)        # the old values, in the log
    sd x7, 32(x2)
    persistbarrier
    li x5, 1
    sd x5, 16(x2)        # the log counts
    persistbarrier
    addi x6, x6, -48     # 0x30 goes from A to B
    addi x7, x7, 48
    sd x6, 0(x2)
    sd x7, 8(x2)
    persistbarrier
    sd x0, 16(x2)        # the transfer counts
    joinstrand
    ebreak

.persist
A:
    .word 0x100
B:
    .word 0x50
flag:
    .word 0
log:
    .space 2
