# Core 1 finds the flag that core 0 sets behind its record, and stores a note. A test with a question that nothing is expected of.
# may: note=1 record=0: no
# may: note=0 record=0
.entry writer
.entry reader
writer:
    la x2, record
    la x3, flag
    li x1, 1
    sd x1, 0(x2)
    persistbarrier
    sd x1, 0(x3)
    ebreak
reader:
    la x2, note
    la x3, flag
    ld x1, 0(x3)
    persistbarrier
    sd x1, 0(x2)
    ebreak
.volatile
flag:   .space 1
.persist
record: .space 1
note:   .space 1
