# What a C library does before main: the segment %gs of thread-local data, and the end of the program with main's answer.
        .bss
        .balign 16
        .space 64
thread: .space 16
        .data
# entry number, base, limit in pages, and the bits: 32-bit, in pages, usable (struct user_desc of Linux)
area:   .long -1, thread, 0xfffff, 0x51
        .text
        .globl _start
_start: movl $thread, thread
        movl $243, %eax                 # set_thread_area
        movl $area, %ebx
        int $0x80
        movl area, %eax
        leal 3(,%eax,8), %eax
        movl %eax, %gs
        andl $-16, %esp
        call main
        movl %eax, %ebx
        movl $1, %eax                   # exit
        int $0x80
        .section .note.GNU-stack
