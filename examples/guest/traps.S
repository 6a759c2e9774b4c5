    .option norvc
    .text
    .globl trap_entry
    .balign 4
trap_entry:
    csrrw sp, sscratch, sp
    addi sp, sp, -256
    sd x1, 8(sp)
    .irp i, 3,4,5,6,7,8,9,10,11,12,13,14,15,16,17,18,19,20,21,22,23,24,25,26,27,28,29,30,31
    sd x\i, 8*\i(sp)
    .endr
    csrr a0, scause
    csrr a1, stval
    mv a2, sp
    call trap
    ld x1, 8(sp)
    .irp i, 3,4,5,6,7,8,9,10,11,12,13,14,15,16,17,18,19,20,21,22,23,24,25,26,27,28,29,30,31
    ld x\i, 8*\i(sp)
    .endr
    addi sp, sp, 256
    csrrw sp, sscratch, sp
    sret
