/* Puts BYTES, for which the Makefile has a number, before the code of a call, so that it begins in its page where it is fastest (docs/DECISIONS.md,
   Pages). */
SECTIONS
{
    .text.begun 0 : SUBALIGN(4) { . = . + BYTES; *(.text.*) }
}
