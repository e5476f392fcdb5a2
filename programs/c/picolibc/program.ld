/* How a program with a C library lies in memory: text and constants from address 0 on, then a stack of its own, then
   its variables, and behind them what malloc gives. Below the stack is the text, which can't be written: a stack that
   grows too far ends the program by a fault, and no byte is overwritten.

   __stack_size    bytes of the stack, without it 294,912: -Wl,--defsym=__stack_size=1048576. These are 72 pages, and not 64,
                   since a hart keeps what it knows of page v in place v modulo 64: so the last eight pages of the stack,
                   which are used most, don't take the places of a text of at most 56 pages
   __stack_rights  6 (to be read and written) without it; 7 lets instructions lie there, as functions within functions
                   need it whose address is taken: -Wl,--defsym=__stack_rights=7
   __base          where the text begins, without it 0: a host's emulator may want another place */
ENTRY(_start)
/* The C library has functions of these names, too. */
EXTERN(sbrk abort)
PHDRS {
  text PT_LOAD FLAGS(5);  /* to be read and executed */
  stack PT_LOAD FLAGS(DEFINED(__stack_rights) ? __stack_rights : 6);
  data PT_LOAD FLAGS(6);  /* to be read and written */
}
SECTIONS {
  . = DEFINED(__base) ? __base : 0;
  .text : {
    KEEP(*(.text.start))
    *(.text .text.* .gnu.linkonce.t.*)
    *(.rodata .rodata.* .gnu.linkonce.r.*)
    *(.srodata .srodata.* .sdata2 .sdata2.*)
    . = ALIGN(8);
    __preinit_array_start = .;
    KEEP(*(.preinit_array))
    __preinit_array_end = .;
    __init_array_start = .;
    KEEP(*(SORT_BY_INIT_PRIORITY(.init_array.*)))
    KEEP(*(.init_array .ctors))
    __init_array_end = .;
    __fini_array_start = .;
    KEEP(*(SORT_BY_INIT_PRIORITY(.fini_array.*)))
    KEEP(*(.fini_array .dtors))
    __fini_array_end = .;
  } :text
  . = ALIGN(4096);
  .stack (NOLOAD) : {
    . += DEFINED(__stack_size) ? __stack_size : 0x48000;
    . = ALIGN(4096);
    __stack_top = .;
  } :stack
  .data : {
    *(.data .data.* .gnu.linkonce.d.*)
    . = ALIGN(8);
    __global_pointer$ = . + 0x800;
    *(.sdata .sdata.* .gnu.linkonce.s.*)
  } :data
  /* Variables of a thread, of which there is one: they are used where the file has them. */
  . = ALIGN(MAX(ALIGNOF(.tdata), MAX(ALIGNOF(.tbss), 16)));
  __tls_base = .;
  .tdata : { *(.tdata .tdata.* .gnu.linkonce.td.*) } :data
  .tbss : { *(.tbss .tbss.* .gnu.linkonce.tb.* .tcommon) } :data
  .tbss_space (NOLOAD) : {
    . = ADDR(.tbss);
    . += SIZEOF(.tbss);
    . = ALIGN(16);
  } :data
  .bss (NOLOAD) : {
    *(.sbss .sbss.* .gnu.linkonce.sb.*)
    *(.bss .bss.* .gnu.linkonce.b.* COMMON)
  } :data
  _end = .;
  end = .;
  /* What the C library's own start file would use; it isn't linked. */
  __heap_start = .;
  __heap_end = .;
  __tdata_source = ADDR(.tdata);
  __tdata_size = SIZEOF(.tdata);
  __tbss_size = SIZEOF(.tbss);
  __tbss_offset = ADDR(.tbss) - ADDR(.tdata);
  /DISCARD/ : {
    *(.comment) *(.riscv.attributes) *(.note .note.*)
    *(.eh_frame .eh_frame.*) *(.gcc_except_table .gcc_except_table.*)
  }
}
