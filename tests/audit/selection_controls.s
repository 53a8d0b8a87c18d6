# The controls of a selection's audit that no C is sure to become, on their way to a selection that is silent by itself. A control has the name
# of its part (parts.h). At entry: edi width, esi z0, edx z1, ecx z2, r8d c0, r9d c1; on the stack, from 8(%rsp) on, 8 bytes each: c2, t1, t2,
# b, and the places of the three results or the log and its length.
    .macro control name
    .globl select_control_\name
select_control_\name:
    .endm
    .text

# t1 with b added: the results join to the right half, and are not those that they must be. Nothing leaks.
control answers
    mov 32(%rsp), %eax
    xor %eax, 16(%rsp)
    jmp guarded_select

# A jump that depends on t1, to the same instructions.
control flow
    testb $1, 16(%rsp)
    jz 1f
    nop
    jmp guarded_select
1:  nop
    jmp guarded_select

# An instruction that no narrower width runs.
control widths
    cmp $8, %edi
    jne guarded_select
    nop
    jmp guarded_select

# z0 in the lower 16 bits of 32, z1 in the upper: beside z2 they leak.
control log_entries
    mov %edx, %eax
    shl $16, %eax
    mov %si, %ax
    jmp guarded_logged_select

    .section .note.GNU-stack, "", @progbits
