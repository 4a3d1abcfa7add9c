char product_is_zero(int x, int y)
{
    char c;
    __asm__("imull %2,%1; sete %0" : "=q"(c), "+r"(x) : "r"(y) : "cc");
    return c;
}

int widened(char c)
{
    int y;
    __asm__("movl %k1,%0" : "=r"(y) : "r"(c));
    return y;
}

char product_is_zero_mended(int x, int y)
{
    char c;
    __asm__("imull %2,%1; testl %1,%1; sete %0" : "=q"(c), "+r"(x) : "r"(y) : "cc");
    return c;
}

int widened_mended(char c)
{
    int y;
    __asm__("movsbl %1,%0" : "=r"(y) : "q"(c));
    return y;
}
