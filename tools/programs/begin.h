/* How each program begins and ends where there is no library: start's answer is the status. */
int start(void);

void _start(void)
{
    int status = start();
    __asm__ volatile("mov %0, %%edi\n\tmov $60, %%eax\n\tsyscall\n\thlt" : : "r"(status));
}
