# writers.s without its join. A nop stands in its place, so that the schedules fit both.

    la x2, log_a
    li x6, 1
    li x5, 0x11
    sd x5, 0(x2)         # entry of log A
    persistbarrier       # the entry, before its commit word
    sd x6, 8(x2)         # commit word of log A

    newstrand            # log B is free of log A
    li x5, 0x21
    sd x5, 16(x2)        # entry of log B
    persistbarrier
    sd x6, 24(x2)        # commit word of log B

    nop                  # the join is missing
    sd x6, 32(x2)        # checkpoint
    ebreak

.persist
log_a:
    .space 2
    .space 2             # log B
    .space 1             # the checkpoint
