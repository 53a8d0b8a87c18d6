# The controls of a screen's audit that no C is sure to become. A control has the name of its part (parts.h). At entry: rdi the run, rsi its
# length. Each reads every byte once.
    .text

# A jump that depends on a byte, to the same instructions.
    .globl screen_control_flow
screen_control_flow:
    xor %ecx, %ecx
    jmp 4f
1:  testb $1, (%rdi,%rcx)
    jz 2f
    nop
    jmp 3f
2:  nop
    jmp 3f
3:  inc %rcx
4:  cmp %rsi, %rcx
    jne 1b
    mov $-1, %rax
    ret

# The start of a fault, where there is none.
    .globl screen_control_answers
screen_control_answers:
    xor %ecx, %ecx
    jmp 2f
1:  movzbl (%rdi,%rcx), %eax
    inc %rcx
2:  cmp %rsi, %rcx
    jne 1b
    xor %eax, %eax
    ret

    .section .note.GNU-stack, "", @progbits
