/* The board mps2-an386 of qemu: 4 MiB of code from 0 on, 4 MiB of memory from 0x20000000 on. */
MEMORY {
    CODE (rx) : ORIGIN = 0, LENGTH = 4M
    RAM (rw) : ORIGIN = 0x20000000, LENGTH = 4M
}
ENTRY(reset)
SECTIONS {
    .vectors : { KEEP(*(.vectors)) } > CODE
    .text : { *(.text*) *(.rodata*) . = ALIGN(4); } > CODE
    .ARM.exidx : { *(.ARM.exidx*) } > CODE
    data_load = LOADADDR(.data);
    .main (NOLOAD) : { . += 8192; . = ALIGN(8); main_top = .; } > RAM
    .data : { data_start = .; *(.data*) . = ALIGN(4); data_end = .; } > RAM AT > CODE
    .bss (NOLOAD) : { bss_start = .; *(.bss*) *(COMMON) . = ALIGN(4); bss_end = .; } > RAM
}
