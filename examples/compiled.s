# A program as a compiler leaves it: protection of branches and of the stack, a loop that calls, a switch by a table, and a
# call that does not come back. In C:
#
#     int two(void) { return 2; }
#     void stop(void) { __asm__("hlt"); }
#     int start(void)
#     {
#         int result = 0;
#         for (int turn = 0; turn != 3; turn++) result = two();
#         switch (result) { case 0: result = 0; case 1: result++; case 2: ; }
#         return result;
#     }
#
# tools/assemble_example.sh makes its bytes anew and compares them with those of compiled.elf.
        .intel_syntax noprefix
        .text
        .globl _start
_start: endbr64
        push    rbx
        sub     rsp, 16
        mov     rax, qword ptr fs:[40]          # the stack's guard
        mov     qword ptr [rsp+8], rax
        xor     ebx, ebx
again:  call    two
        inc     ebx
        cmp     ebx, 3
        jne     again
        cmp     eax, 2
        ja      done
        mov     eax, eax
        jmp     qword ptr [rax*8+table]
case0:  xor     eax, eax
case1:  inc     eax
done:   mov     rdx, qword ptr [rsp+8]
        sub     rdx, qword ptr fs:[40]
        jne     broken
        add     rsp, 16
        pop     rbx
        ret
broken: call    stop
        hlt
two:    mov     eax, 2
        ret
stop:   hlt
        .balign 8, 0xcc
table:  .quad   case0, case1, done
