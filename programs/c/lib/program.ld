/* How a program lies in memory: text and constants from address 0 on, and on the next page its variables. */
ENTRY(_start)
PHDRS {
  text PT_LOAD FLAGS(5);  /* to be read and executed */
  data PT_LOAD FLAGS(6);  /* to be read and written */
}
SECTIONS {
  . = 0;
  .text : {
    *(.text.start)
    *(.text .text.*)
    *(.rodata .rodata.* .srodata .srodata.*)
  } :text
  . = ALIGN(4096);
  .data : { *(.data .data.* .sdata .sdata.*) } :data
  .bss : { *(.sbss .sbss.* .bss .bss.* COMMON) } :data
  /DISCARD/ : { *(.comment) *(.riscv.attributes) *(.note .note.*) *(.eh_frame) }
}
