# The controls of a frame's audit: each handles the key's shares in one way that one part of the audit alone can see, on its way to a stand-in
# for a frame that is silent by itself. A control has the name of its part (parts.h), and a part may have more than one.
#
# At entry: rdi plaintext, rsi, rdx and rcx the key's shares, r8 the random bytes; on the stack, from 8(%rsp) on, 8 bytes each: scratch, its
# length, and where the three shares go. Two shares of a byte of the key together leak with the third.

    .macro control name
    .globl frame_control_\name
frame_control_\name:
    .endm
    .macro go_on
    xor %eax, %eax
    jmp frame_stand_in
    .endm
    .text

# AES without rounds: the plaintext is added to the first share of the key, and the scratch is cleared. Silent, and must pass.
    .globl frame_stand_in
frame_stand_in:
    mov 24(%rsp), %r10
    movdqu (%rsi), %xmm0
    movdqu (%rdi), %xmm1
    pxor %xmm1, %xmm0
    movdqu %xmm0, (%r10)
    mov 32(%rsp), %r10
    movdqu (%rdx), %xmm0
    movdqu %xmm0, (%r10)
    mov 40(%rsp), %r10
    movdqu (%rcx), %xmm0
    movdqu %xmm0, (%r10)
    mov 8(%rsp), %r10
    pxor %xmm0, %xmm0
    .irp at, 0, 16, 32, 48, 64, 80, 96, 112, 128, 144, 160, 176, 192, 208, 224, 240
    movdqu %xmm0, \at(%r10)
    .endr
    xor %eax, %eax
    ret

# The first byte of the key is looked up in a table that has each number at its own place, and without masks of the output: the answer is that
# byte. No two values on the way to it leak.
control alone
    push %rbx
    mov 16(%rsp), %r11
    movzbl (%rdx), %r9d
    xor (%r8), %r9b
    xor (%rcx), %r9b
    xor %r10d, %r10d
1:  movzbl (%rsi), %eax
    xor %r10b, %al
    mov %r10d, %ebx
    xor %r9d, %ebx
    mov %al, (%r11,%rbx)
    inc %r10d
    cmp $256, %r10d
    jne 1b
    movzbl (%r8), %eax
    movb (%r11,%rax), %al
    pop %rbx
    go_on

# The exclusive or of the second and the third share of a byte.
control twos
    mov (%rdx), %al
    xor (%rcx), %al
    go_on

# The second and the third share of a byte beside each other in a register.
control beside
    mov (%rdx), %al
    mov (%rcx), %ah
    go_on

# The same at the ends of a vector register.
control beside_vector
    movzbl (%rdx), %eax
    movd %eax, %xmm0
    movzbl (%rcx), %eax
    movd %eax, %xmm1
    pslldq $15, %xmm1
    por %xmm1, %xmm0
    go_on

# The first share with a mask added and the second are beside each other, and elsewhere the third and the mask: all four join to the key's byte.
control beside_both
    mov (%rsi), %al
    xor (%r8), %al
    mov (%rdx), %ah
    movzbl (%r8), %eax
    shl $8, %eax
    mov (%rcx), %al
    go_on

# The exclusive or of the second and the third share, both doubled: its bits are at other places than those of the first.
control bits
    movzbl (%rdx), %eax
    add %eax, %eax
    movzbl (%rcx), %r9d
    add %r9d, %r9d
    xor %r9d, %eax
    go_on

# A bit of the second share and one of the third, both with the same random bit added, are joined in xmm0. Where the second of them is 0, that
# changes nothing; so it is in the first call, and the byte and the random byte are chosen so.
control later
    movzbl 5(%rdx), %eax
    xor (%r8), %al
    and $1, %eax
    movd %eax, %xmm0
    movzbl 5(%rcx), %eax
    xor (%r8), %al
    and $1, %eax
    movd %eax, %xmm1
    pxor %xmm1, %xmm0
    go_on

# The random bytes are read sixteen at once, and the two masks of a lookup's output stand beside each other: they leak with its answer. The
# frame in C does the rest.
control neighbours
    movdqu 32(%r8), %xmm0
    pxor %xmm0, %xmm0
    jmp guarded_frame

# A jump that depends on the second share, to the same instructions.
control flow
    testb $1, (%rdx)
    jz 1f
    nop
    go_on
1:  nop
    go_on

# One that depends on the length of the scratch.
control scratch_length
    cmpq $256, 16(%rsp)
    ja 1f
    nop
    go_on
1:  nop
    go_on

# The lowest bit of a copy of the first share flips where a random byte is above 127. The answer is wrong then, and nothing leaks.
control answers
    movdqu (%rsi), %xmm0
    movdqu %xmm0, -32(%rsp)
    lea -32(%rsp), %rsi
    mov (%r8), %al
    shr $7, %al
    xor %al, (%rsi)
    go_on

# A number that each call finds greater by one.
    .data
calls: .long 0
    .text
control copies
    incl calls(%rip)
    go_on

    .section .note.GNU-stack, "", @progbits
