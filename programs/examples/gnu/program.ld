/* One segment at address 0, and no program header but its own. */
ENTRY(_start)
PHDRS { program PT_LOAD FLAGS(7); }
SECTIONS {
  . = 0;
  .text : { *(.text) *(.rodata) *(.data) *(.bss) } :program
  /DISCARD/ : { *(.riscv.attributes) *(.comment) }
}
