/* SPDX-License-Identifier: MIT */
/* qemu's aarch64 board `virt`: memory begins at 0x40000000, and its first part has qemu's description of the board. */
ENTRY(_start)
PHDRS {
  code PT_LOAD FLAGS(5);
  data PT_LOAD FLAGS(6);
}
SECTIONS {
  . = 0x40080000;
  .text : { KEEP(*(.start)) *(.text*) *(.rodata*) } :code
  . = ALIGN(4096);
  .data : { *(.data*) } :data
  .bss : { bss_begins = ALIGN(8); *(.bss*) *(COMMON) bss_ends = ALIGN(8); } :data
  /DISCARD/ : { *(.comment) *(.note*) *(.eh_frame*) }
}
