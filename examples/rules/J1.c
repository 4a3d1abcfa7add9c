void count_down(unsigned x)
{
    __asm__("1: decl %0; jnz 2b" : "+r"(x) : : "cc");
}

void count_down_mended(unsigned x)
{
    __asm__("1: decl %0; jnz 1b" : "+r"(x) : : "cc");
}
