# One core writes to two logs that have nothing to do with each other, and then to a checkpoint that vouches for both.
# In each log, recovery believes the entry where the commit word is 1. Where the checkpoint is 1 it looks no further:
# both logs are complete.

    la x2, log_a
    li x6, 1
    li x5, 0x11
    sd x5, 0(x2)         # entry of log A
    persistbarrier       # the entry, before its commit word
    sd x6, 8(x2)         # commit word of log A

    newstrand            # log B is free of log A
    li x5, 0x21
    sd x5, 16(x2)        # entry of log B
    persistbarrier
    sd x6, 24(x2)        # commit word of log B

    joinstrand           # both logs, before the checkpoint
    sd x6, 32(x2)        # checkpoint
    ebreak

.persist
log_a:
    .space 2
    .space 2             # log B
    .space 1             # the checkpoint
