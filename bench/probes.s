# Functions with probes of the stack, for bench/probes: those named lost_ read what a probe overwrote, those named kept_ don't.
        .intel_syntax noprefix
        .text

# the loop that touches each page of a frame of 128 KiB, by this register
        .macro probe register
        lea     \register, [rsp - 0x20000]
1:      sub     rsp, 0x1000
        mov     qword ptr [rsp], 0
        cmp     rsp, \register
        jne     1b
        sub     rsp, 0x100
        .endm

        .macro leave_frame
        add     rsp, 0x20100
        ret
        .endm

lost_argument:
        probe   r11
        lea     rax, [r11 + rdi]
        leave_frame

lost_argument_narrow:
        probe   r11
        movzx   eax, r11w
        leave_frame

lost_value:
        mov     r11, rdi
        mov     rcx, rsi
        probe   r11
        mov     qword ptr [rsp], rcx
        add     rcx, r11
        mov     rax, rcx
        leave_frame

lost_by_other_setup:
        mov     r11, rsp
        sub     r11, 0x20000
2:      sub     rsp, 0x1000
        or      qword ptr [rsp], 0
        cmp     r11, rsp
        jb      2b
        mov     qword ptr [rsp + 8], r11
        leave_frame

lost_in_alignment:
        push    rbp
        mov     rbp, rsp
        mov     r11, rsp
        and     r11, -16384
        cmp     r11, rsp
        je      4f
        sub     rsp, 0x1000
        cmp     rsp, r11
        jb      3f
2:      mov     qword ptr [rsp], 0
        sub     rsp, 0x1000
        cmp     r11, rsp
        jb      2b
3:      mov     rsp, r11
        mov     qword ptr [rsp], 0
4:      mov     r14, r11
        mov     rsp, rbp
        pop     rbp
        ret

lost_in_one_branch:
        probe   r11
        test    rdi, rdi
        je      2f
        xor     r11d, r11d
        jmp     3f
2:      inc     rdi
3:      mov     rax, r11
        leave_frame

lost_behind_a_table:
        probe   r11
        lea     rcx, [rip + .Llost_table]
        movsxd  rax, dword ptr [rcx + 4*rdi]
        add     rax, rcx
        jmp     rax
.Llost_first:
        mov     r11d, 1
        jmp     .Llost_end
.Llost_second:
        mov     rdi, r11
.Llost_end:
        mov     rax, rdi
        leave_frame

lost_to_a_call:
        probe   r11
        call    kept_takes_r11
        leave_frame

lost_by_a_jump_to_another:
        probe   r11
        add     rsp, 0x20100
        jmp     kept_takes_r11

lost_rax:
        probe   rax
        mov     rdi, rax
        leave_frame

lost_rax_unnamed:
        probe   rax
        mul     rdi
        leave_frame

lost_by_a_routine:
        mov     eax, 0x20100
        call    __rust_probestack
        sub     rsp, rax
        mov     rdi, r11
        leave_frame

lost_rax_by_a_routine:
        mov     eax, 0x20100
        call    r10
        sub     rsp, rax
        lea     rdi, [rax + 1]
        leave_frame

# it takes r11 as an argument
kept_takes_r11:
        mov     rax, r11
        ret

kept_unread:
        probe   r11
        mov     rax, rdi
        leave_frame

kept_elsewhere:
        mov     r10, r11
        probe   r11
        mov     r11, r10
        lea     rax, [r11 + rdi]
        leave_frame

kept_written_in_each_branch:
        probe   r11
        test    rdi, rdi
        je      2f
        mov     r11d, 1
        jmp     3f
2:      xor     r11d, r11d
3:      mov     rax, r11
        leave_frame

kept_behind_a_table:
        probe   r11
        lea     rcx, [rip + .Lkept_table]
        movsxd  rax, dword ptr [rcx + 4*rdi]
        add     rax, rcx
        jmp     rax
.Lkept_first:
        mov     r11d, 1
        jmp     .Lkept_end
.Lkept_second:
        mov     r11, rdi
.Lkept_end:
        mov     rax, r11
        leave_frame

kept_narrow:
        probe   r11
        sete    r11b
        movzx   r11d, r11b
        mov     rax, r11
        leave_frame

kept_argument_of_a_call:
        probe   r11
        mov     r11, rdi
        call    kept_takes_r11
        leave_frame

kept_as_room:
        probe   rax
        push    rax
        nop     word ptr [rax + rax]
        pop     rcx
        leave_frame

kept_by_a_routine:
        push    rax
        mov     r10, r11
        mov     eax, 0x20100
        call    __rust_probestack
        sub     rsp, rax
        mov     rax, qword ptr [rsp + 0x20100]
        add     rax, r10
        add     rsp, 0x20108
        ret

# memory of a size that is known when it runs, whose begin the register is
kept_begin_of_memory:
        push    rbp
        mov     rbp, rsp
        mov     rax, rsp
        sub     rax, rdi
        cmp     rax, rsp
        jge     3f
2:      xor     qword ptr [rsp], 0
        sub     rsp, 0x1000
        cmp     rax, rsp
        jl      2b
3:      mov     rsp, rax
        mov     byte ptr [rax], 1
        mov     rsp, rbp
        pop     rbp
        ret

__rust_probestack:
        ret

        .globl  start
start:
        ret

        .section .rodata
.Llost_table:
        .long   .Llost_first - .Llost_table, .Llost_second - .Llost_table
.Lkept_table:
        .long   .Lkept_first - .Lkept_table, .Lkept_second - .Lkept_table
