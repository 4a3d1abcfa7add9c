int sum(int x, int y)
{
    __asm__("addl %1,%0" : "+r"(y) : "r"(x));
    return y;
}

int sum_mended(int x, int y)
{
    __asm__("addl %1,%0" : "+r"(y) : "r"(x) : "cc");
    return y;
}
