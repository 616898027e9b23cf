/* Untrusted code of a node: code and constants from 0x8000, variables from 0x0600, the stack below 0x0c00. 0x0300 to
   0x05ff stay free for windows, and address 0 holds the instruction of `load`. The vector of interrupt line k is at
   0xffe0 + 2 k, k from 0 to 14. There is no flash: after a reset memory is zero, and the program must be put again. */
ENTRY(_start)
MEMORY {
  low (rw) : ORIGIN = 0x0600, LENGTH = 0x0600
  high (rx) : ORIGIN = 0x8000, LENGTH = 0x7000
  vectors (r) : ORIGIN = 0xffe0, LENGTH = 30
}
__stack = 0x0c00;
SECTIONS {
  .text : { *(.start) *(.text .text.*) } > high
  .rodata : { *(.rodata .rodata.*) } > high
  .data : { *(.data .data.*) } > low
  .bss (NOLOAD) : { *(.bss .bss.* COMMON) } > low
  .vector3 0xffe6 : { KEEP(*(__interrupt_vector_3)) } > vectors
  /DISCARD/ : { *(.comment) *(.note*) *(.MSP430.attributes) }
}
