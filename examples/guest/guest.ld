OUTPUT_ARCH(riscv)
ENTRY(start)
SECTIONS {
    . = 0x80000000;
    .text : { *(.text.start) *(.text*) *(.rodata*) *(.srodata*) }
    . = ALIGN(4096);
    .data : { *(.data*) *(.sdata*) }
    .bss : { *(.sbss*) *(.bss*) . = ALIGN(16); . = . + 8192; stack_top = .; }
}
