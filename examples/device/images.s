# The images, each at a multiple of 16. They are code, and read the tables behind their code, so they lie in memory that may
# be executed and read. `check` makes their files by `rup replay`.
        .section .text.images, "ax"

        .balign 16
        .globl  sum_image
sum_image:
        .incbin "sum.image"

        .balign 16
        .globl  fnv1a_image
fnv1a_image:
        .incbin "fnv1a.image"

        .balign 16
        .globl  upcase_image
upcase_image:
        .incbin "upcase.image"
