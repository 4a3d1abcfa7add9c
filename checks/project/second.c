#define WIDTH "b"

#include "low bits.h"

char is_zero(unsigned x)
{
    char c;
    __asm__("cmpl $0,%1; sete %0" : "=r"(c) : "r"(low_bits(x, 1)) : "cc");
    return c;
}

void stop(unsigned char x)
{
    __asm__ volatile("cli" : : : "memory");
    __asm__("mov" WIDTH " $1,%" WIDTH "0; movl $2,%%edx" : "=q"(x));
}
