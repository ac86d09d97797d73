/* All of the program in RAM, from its start on: what runs, and what is written. */
OUTPUT_ARCH(riscv)
ENTRY(_start)
PHDRS { text PT_LOAD FLAGS(5); data PT_LOAD FLAGS(6); }
MEMORY { ram : ORIGIN = 0x80000000, LENGTH = 1M }
SECTIONS {
  .text : { *(.text.start) *(.text .text.*) } > ram : text
  .rodata : { *(.rodata .rodata.* .srodata .srodata.*) } > ram : text
  .data : {
    *(.data .data.*)
    __global_pointer$ = . + 0x800;
    *(.sdata .sdata.*)
  } > ram : data
  .bss (NOLOAD) : {
    . = ALIGN(4);
    bss_start = .;
    *(.bss .bss.* .sbss .sbss.* COMMON)
    . = ALIGN(4);
    bss_end = .;
  } > ram : data
  stack_end = ORIGIN(ram) + LENGTH(ram);
  /DISCARD/ : { *(.comment) *(.eh_frame*) *(.riscv.attributes) *(.note*) }
}
