/* Code and constants from 0x8000 on, variables from 0x0600 on, and the stack below 0x8000. */
ENTRY(_start)
MEMORY
{
  low (rw) : ORIGIN = 0x0600, LENGTH = 0x79f0
  high (rx) : ORIGIN = 0x8000, LENGTH = 0x7000
}
__stack = 0x7ffe;
SECTIONS
{
  .text : { *(.start) *(.text .text.*) } > high
  .rodata : { *(.rodata .rodata.*) } > high
  .data : { *(.data .data.*) } > low
  .bss (NOLOAD) : { *(.bss .bss.* COMMON) } > low
  /DISCARD/ : { *(.comment) *(.note*) *(.MSP430.attributes) }
}
