# Where the program begins: it takes a stack of its own and goes on in C. What an image needs of a stack is the number at
# offset 28 of its header, at most 4096 bytes.
        .text
        .globl  _start
_start:
        la      sp, stack_end
        call    run

        .bss
        .balign 16
        .space  16384
stack_end:
