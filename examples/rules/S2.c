void keep(int x)
{
    __asm__("testl %0,%0; jz 1f; pushl %0; 1: nop" : : "r"(x) : "cc");
}

void keep_mended(int x)
{
    __asm__("testl %0,%0; jz 1f; pushl %0; popl %%ecx; 1: nop" : : "r"(x) : "ecx", "cc");
}
