    .option norvc
    .section .text.start
    .globl start
start:
    la sp, stack_top
    call main
    li a0, 0
    li a1, 0
    li a6, 0
    li a7, 0x53525354
    ecall
