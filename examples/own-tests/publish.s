# A record is stored, and then the word that says it is there.
# may: ready=1 record=0: no
# may: ready=0 record=7: yes
    la x2, record
    la x3, ready
    li x1, 7
    sd x1, 0(x2)
    persistbarrier
    li x1, 1
    sd x1, 0(x3)
    ebreak
.persist
ready:  .space 1
record: .space 1
