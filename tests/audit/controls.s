# The controls: each handles its arguments in one way that one part of the audit alone can see, on its way to a call that is silent by itself.
# A control has the name of its part (parts.h). Three parts have two: for the stack and the lent scratch, for a register and memory. The
# last ones have none.
#
# At entry: edi method, esi n, edx m, ecx x0, r8d r1, r9d r2; on the stack, from 8(%rsp) on, 8 bytes each: s1, s2, r3, b, table, its
# length, scratch, its length. x0 and r1 together leak with r2. mov, lea, bswap and vector instructions leave the flags as they are.

# Each control writes r2 to memory first, so that no part is needed only to see the other half of a leak.
    .macro control name
    .globl control_\name
control_\name:
    mov %r9, -16(%rsp)
    .endm
    .macro go_on
    jmp guarded_bare_call
    .endm
    .text

# x0 and r1 beside each other in the lowest bits of a register.
control general
    lea (%rcx,%r8,4), %eax
    go_on

# x0 and r1 in one register, x0 in its second byte and r1 in its highest.
control high_bits
    mov %r8, %rax
    bswap %rax
    mov %cl, %ah
    go_on

# The comparison of x0 with r1.
control flags
    cmp %r8d, %ecx
    go_on

# x0 and r1 beside each other in the lower half of a vector register.
control vectors
    movd %ecx, %xmm0
    movd %r8d, %xmm1
    punpckldq %xmm1, %xmm0
    go_on

# x0 in the lower half of a vector register, r1 in the upper.
control upper_halves
    vmovd %ecx, %xmm0
    vmovd %r8d, %xmm1
    vinsertf128 $1, %xmm1, %ymm0, %ymm0
    vzeroall
    go_on

# x0 and r1 are written one by one and read at once, and nothing of them is left.
control reads
    mov %cl, -8(%rsp)
    mov %r8b, -7(%rsp)
    xor %eax, %eax
    and -8(%rsp), %ax
    go_on

# 512 r1 in memory takes in x0's lowest bit, from the carry flag: one word holds both, and no register does. The carry is 0 afterwards.
control stack_writes
    mov %r8b, -7(%rsp)
    bt $0, %ecx
    rclw $1, -8(%rsp)
    go_on

# The same with 2 r1 in a byte, at a place that depends on r3.
control scratch_writes
    mov 56(%rsp), %rax
    mov 24(%rsp), %r10d
    mov %r8b, (%rax,%r10)
    bt $0, %ecx
    rclb $1, (%rax,%r10)
    go_on

# x0 and r1 are added in an address alone; what is there is 0.
control addresses
    lea -64(%rsp,%r8), %rax
    testb $0, (%rax,%rcx)
    go_on

# x0 and r1 are joined with r3 both. So the call forms the exclusive or of r1 and r2, which leaks with x0; and x0 stands in its register at
# entry, and nowhere afterwards.
control entry
    xor 24(%rsp), %ecx
    xor 24(%rsp), %r8d
    go_on

# The exclusive or of x0 and r1, beside s1: as a whole, no other value is this one joined with the input.
control bytes
    mov 8(%rsp), %ah
    mov %cl, %al
    xor %r8b, %al
    go_on

# s1's lowest bit flips where r3 is the greatest number of its width. The answer is wrong then, and nothing leaks.
control answers
    mov 24(%rsp), %eax
    inc %eax
    cmp %eax, 48(%rsp)
    sete %al
    xor %al, 8(%rsp)
    go_on

# A jump that depends on r1, to the same instructions.
control flow
    test $1, %r8b
    jz 1f
    nop
    go_on
1:  nop
    go_on

# x0 and r1 beside each other in a register of MMX, which is not watched.
control instructions
    movd %ecx, %mm0
    movd %r8d, %mm1
    punpckldq %mm1, %mm0
    emms
    go_on

# maskmovdqu names no memory and writes to (%rdi): the one byte that the mask picks.
    .macro store_unnamed place
    mov %rdi, %r10
    mov $0x80, %eax
    movd %eax, %xmm0
    \place, %rdi
    maskmovdqu %xmm0, %xmm0
    mov %r10, %rdi
    .endm

control stack_stores
    store_unnamed "lea -8(%rsp)"
    go_on

control scratch_stores
    store_unnamed "mov 56(%rsp)"
    go_on

# An instruction that no narrower width runs.
control widths
    cmp $8, %esi
    jne guarded_bare_call
    nop
    go_on

# Goes on at once but where the first entry of the table comes again in the middle, as at n = m in no balanced table.
    .macro with_few_values
    mov 40(%rsp), %rax
    mov 48(%rsp), %r10
    shr $1, %r10
    mov (%rax,%r10), %r10b
    cmp (%rax), %r10b
    jne guarded_bare_call
    .endm

# On such a table, the exclusive or of x0 and r1.
control few_values
    with_few_values
    mov %ecx, %eax
    xor %r8d, %eax
    go_on

# On such a table, an instruction that no narrower width runs.
control few_values_widths
    with_few_values
    cmp $8, %esi
    jne guarded_bare_call
    nop
    go_on

# At n = 8, more instructions than a balanced table may cost, and on such a table more than that may.
control pace
    cmp $8, %esi
    jne guarded_bare_call
    mov $4000, %eax
1:  dec %eax
    jnz 1b
    go_on

control few_values_pace
    with_few_values
    cmp $8, %esi
    jne guarded_bare_call
    mov $15500, %eax
1:  dec %eax
    jnz 1b
    go_on

# The exclusive or of x0 and r1 where m is above n, as for no balanced table.
control wide_outputs
    cmp %esi, %edx
    jbe guarded_bare_call
    mov %ecx, %eax
    xor %r8d, %eax
    go_on

# The same where m is 4 or more.
control widest_outputs
    cmp $4, %edx
    jb guarded_bare_call
    mov %ecx, %eax
    xor %r8d, %eax
    go_on

# More steps than the audit has room for.
control length
    mov $40000, %eax
1:  dec %eax
    jnz 1b
    go_on

# More stack than the audit has room for.
control depth
    lea -4096(%rsp), %rsp
    lea 4096(%rsp), %rsp
    go_on

# Silent, and must pass: a vector register is stored at a place that depends on r3, and no general register holds what is stored.
control vector_store
    movd %r8d, %xmm0
    paddb %xmm0, %xmm0
    mov 24(%rsp), %eax
    and $3, %eax
    movq %xmm0, -32(%rsp,%rax)
    go_on

# The controls of a logged call, on their way to one that is silent: behind the scratch's length stand the log and its length.
    .macro go_on_logged
    jmp guarded_logged_call
    .endm

# x0 in the lower 16 bits of 32, r1 in the upper.
control log_entries
    mov %r8d, %eax
    bswap %eax
    mov %cx, %ax
    go_on_logged

# The same in memory: they are written one by one and read at once, and nothing of them is left.
control log_reads
    mov %cx, -8(%rsp)
    mov %r8w, -6(%rsp)
    xor %eax, %eax
    and -8(%rsp), %eax
    go_on_logged

# The controls of used scratch: each reads what an earlier call left, then r3, and refuses.
    .macro refuse
    mov 24(%rsp), %r10d
    mov $4864, %eax
    ret
    .endm

# Two leftovers are joined by bitwise or: beside r3 they tell the input, where the table is not affine.
control joined_leftovers
    mov 56(%rsp), %rax
    movb 1(%rax), %r10b
    or (%rax), %r10b
    refuse

# Of what method 5 leaves, two leftovers of the second half: they tell the input beside x0.
control joined_second_half
    mov 56(%rsp), %rax
    add 48(%rsp), %rax
    movb 1(%rax), %r10b
    or (%rax), %r10b
    refuse

# Silent, and must pass: the same two one after the other.
control single_leftovers
    mov 56(%rsp), %rax
    movb 1(%rax), %r10b
    movb (%rax), %r10b
    refuse

# The first leftover decides whether the second is read.
control early_exit
    mov 56(%rsp), %rax
    cmpb $0, (%rax)
    jne 1f
    cmpb $0, 1(%rax)
1:  refuse

# A clear that reads what it clears. At entry: rdi the scratch, rsi its length.
control reading_clear
    cmpb $0, (%rdi)
    jmp cippazhey_clear

# A clear that leaves the last byte.
control short_clear
    dec %rsi
    jmp cippazhey_clear

    .section .note.GNU-stack, "", @progbits
