/* What every guest in C is linked by. The build line gives the places: `load` where the image is loaded, `room` how many
   bytes it may have, and `memory` how many bytes of memory the VM has from `load` on. Variables without a first value,
   which begin as zero, stand after the image's room; the stack goes down from the end of memory. */
ENTRY(start)

memory_end = load + memory;

SECTIONS
{
    . = load;
    .text : { *(.text.start) *(.text .text.*) }
    .rodata : { *(.rodata .rodata.*) }
    .data : { *(.data .data.*) }
    ASSERT(. <= load + room, "the image is larger than its room")

    . = load + room;
    .bss (NOLOAD) : { *(.bss .bss.* COMMON) }
    ASSERT(. <= memory_end - 0x1000, "no room is left for the stack")

    /DISCARD/ : { *(.comment) *(.note .note.*) *(.eh_frame) }
}
