# How the copy of an instruction is run: all registers are loaded from audit_state, and saved there behind it. The addresses of that are
# relative to rip, so that no register is needed for it, and the audit's own stack pointer stands in a variable.
    .set flags, 128
    .set vectors, 144
    .text

    .macro load register, place
    mov audit_state+\place(%rip), %\register
    .endm
    .macro save register, place
    mov %\register, audit_state+\place(%rip)
    .endm
    .macro each_general what
    \what rax, 0
    \what rbx, 8
    \what rcx, 16
    \what rdx, 24
    \what rsi, 32
    \what rdi, 40
    \what rbp, 48
    \what rsp, 56
    \what r8, 64
    \what r9, 72
    \what r10, 80
    \what r11, 88
    \what r12, 96
    \what r13, 104
    \what r14, 112
    \what r15, 120
    .endm

    .macro load_half number
    movdqu audit_state+vectors+32*\number(%rip), %xmm\number
    .endm
    .macro load_whole number
    vmovdqu audit_state+vectors+32*\number(%rip), %ymm\number
    .endm
    .macro save_half number
    movdqu %xmm\number, audit_state+vectors+32*\number(%rip)
    .endm
    .macro save_whole number
    vmovdqu %ymm\number, audit_state+vectors+32*\number(%rip)
    .endm
    .macro each_vector what
    .irp number, 0, 1, 2, 3, 4, 5, 6, 7, 8, 9, 10, 11, 12, 13, 14, 15
    \what \number
    .endr
    .endm

    .globl audit_run_copy, audit_copy_done, audit_copy_taken
audit_run_copy:
    push %rbx; push %rbp; push %r12; push %r13; push %r14; push %r15
    mov %rsp, audit_own_stack(%rip)
    cmpq $0, audit_wide(%rip)
    je 1f
    each_vector load_whole
    jmp 2f
1:  each_vector load_half
2:  pushq audit_state+flags(%rip)
    popfq
    each_general load
    jmp *audit_copy(%rip)

# Where copies go on: a branch that is taken, and all others.
audit_copy_taken:
    movq $1, audit_taken(%rip)
audit_copy_done:
    each_general save
    mov audit_own_stack(%rip), %rsp
    pushfq
    cld
    popq audit_state+flags(%rip)
    cmpq $0, audit_wide(%rip)
    je 1f
    each_vector save_whole
    vzeroupper
    jmp 2f
1:  each_vector save_half
2:  pop %r15; pop %r14; pop %r13; pop %r12; pop %rbp; pop %rbx
    ret

    .section .note.GNU-stack, "", @progbits
