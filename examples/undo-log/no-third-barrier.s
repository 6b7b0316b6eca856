# update.s without its third barrier. A nop stands in its place, so that the schedules fit both.

    la x2, accounts
    ld x5, 0(x2)         # A
    ld x6, 8(x2)         # B
    sd x5, 24(x2)        # keep both old values
    sd x6, 32(x2)
    persistbarrier       # 1: the old values, before the flag that makes them count
    li x7, 1
    sd x7, 16(x2)
    persistbarrier       # 2: the flag, before anything is changed in place
    addi x5, x5, -48
    addi x6, x6, 48
    sd x5, 0(x2)
    sd x6, 8(x2)
    nop                  # barrier 3 is missing
    sd x0, 16(x2)
    joinstrand
    ebreak

.persist
accounts:
    .word 0x100          # A
    .word 0x50           # B
    .word 0              # the flag
    .space 2             # the old values
