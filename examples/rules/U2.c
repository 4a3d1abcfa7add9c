char is_zero(int x)
{
    char c;
    __asm__("cmpl $0,%1; sete %0" : "=r"(c) : "r"(x) : "cc");
    return c;
}

char is_zero_mended(int x)
{
    char c;
    __asm__("cmpl $0,%1; sete %0" : "=q"(c) : "r"(x) : "cc");
    return c;
}
