/* Begins the program: a stack, the places of input and results, and SYSCALL at the end. */
        .set    noreorder
        .section .start, "ax"
        .globl  _start
_start:
        lui     $29, %hi(stack)
        addiu   $29, $29, %lo(stack)
        lui     $4, %hi(input)
        addiu   $4, $4, %lo(input)
        lui     $5, %hi(output)
        jal     figures
        addiu   $5, $5, %lo(output)
        syscall
