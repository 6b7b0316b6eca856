# redo.s with a strand of its own for the changes in place, so that they don't wait for what the core logs next.

    la x2, accounts
    li x7, 1
    ld x5, 0(x2)         # A
    ld x6, 8(x2)         # B
    addi x5, x5, -48
    addi x6, x6, 48
    sd x5, 24(x2)        # both new values, in the log
    sd x6, 32(x2)
    persistbarrier       # 1: the log, before the word that makes it count
    sd x7, 16(x2)        # from here on the transfer is made
    persistbarrier       # 2: the commit word, before anything is changed in place
    newstrand            # behind the barrier, and yet it frees them of the commit word
    sd x5, 0(x2)
    sd x6, 8(x2)
    persistbarrier       # 3: both values in place, before the log is given up
    sd x0, 16(x2)
    joinstrand
    ebreak

.persist
accounts:
    .word 0x100          # A
    .word 0x50           # B
    .word 0              # the commit word
    .space 2             # the log
