# How a call is entered, and the memset and memcpy that it is linked with. What the audit itself needs stands in variables of step.c: at
# entry the registers hold the call's arguments and zeros, and memset leaves nothing on the call's stack.
    .text

    .globl audit_enter, audit_back
audit_enter:
    push %rbx; push %rbp; push %r12; push %r13; push %r14; push %r15
    mov %rsp, audit_own_stack(%rip)
    mov audit_stack(%rip), %rsp
    cmpq $0, audit_wide(%rip)
    je 1f
    vzeroall
1:  pxor %xmm0, %xmm0; pxor %xmm1, %xmm1; pxor %xmm2, %xmm2; pxor %xmm3, %xmm3
    pxor %xmm4, %xmm4; pxor %xmm5, %xmm5; pxor %xmm6, %xmm6; pxor %xmm7, %xmm7
    pxor %xmm8, %xmm8; pxor %xmm9, %xmm9; pxor %xmm10, %xmm10; pxor %xmm11, %xmm11
    pxor %xmm12, %xmm12; pxor %xmm13, %xmm13; pxor %xmm14, %xmm14; pxor %xmm15, %xmm15
    mov audit_arguments(%rip), %rdi
    mov audit_arguments+8(%rip), %rsi
    mov audit_arguments+16(%rip), %rdx
    mov audit_arguments+24(%rip), %rcx
    mov audit_arguments+32(%rip), %r8
    mov audit_arguments+40(%rip), %r9
    xor %eax, %eax; xor %ebx, %ebx; xor %ebp, %ebp; xor %r10d, %r10d; xor %r11d, %r11d
    xor %r12d, %r12d; xor %r13d, %r13d; xor %r14d, %r14d; xor %r15d, %r15d
    pushfq
    orq $0x100, (%rsp)
    popfq
    call *audit_code(%rip)
audit_back:
    mov audit_own_stack(%rip), %rsp
    mov %rax, audit_result(%rip)
    pop %r15; pop %r14; pop %r13; pop %r12; pop %rbp; pop %rbx
    ret

# memset is the firmware's: all of it counts as one step. It is entered without the trap flag, and int3 ends the step.
    .globl audited_memset, audited_memset_done
audited_memset:
    mov %rdi, %r9
    mov %esi, %eax
    mov %rdx, %rcx
    rep stosb
    mov %r9, %rax
    int3
audited_memset_done:
    ret

# memcpy is the firmware's too. What it copies are values of the call, so it is stepped through like the call's own code: 16 bytes at once,
# as long as there are so many.
    .globl audited_memcpy
audited_memcpy:
    mov %rdi, %rax
    jmp 2f
1:  movdqu (%rsi), %xmm0
    movdqu %xmm0, (%rdi)
    add $16, %rsi
    add $16, %rdi
    sub $16, %rdx
2:  cmp $16, %rdx
    jae 1b
    jmp 4f
3:  movb (%rsi), %cl
    movb %cl, (%rdi)
    inc %rsi
    inc %rdi
    dec %rdx
4:  test %rdx, %rdx
    jnz 3b
    ret

    .section .note.GNU-stack, "", @progbits
