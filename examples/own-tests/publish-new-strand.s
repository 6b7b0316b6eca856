# The same, with a strand begun behind the barrier: under strand alone that frees the second store.
# may: ready=1 record=0: strict no, epoch no, strand yes
    la x2, record
    la x3, ready
    li x1, 7
    sd x1, 0(x2)
    persistbarrier
    newstrand
    li x1, 1
    sd x1, 0(x3)
    ebreak
.persist
ready:  .space 1
record: .space 1
