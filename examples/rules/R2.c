int sum(int x)
{
    int y = 1;
    __asm__("addl %1,%0" : "=r"(y) : "r"(x) : "cc");
    return y;
}

int sum_mended(int x)
{
    int y = 1;
    __asm__("addl %1,%0" : "+r"(y) : "r"(x) : "cc");
    return y;
}
