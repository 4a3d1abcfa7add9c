int sum(int x, int y)
{
    int z;
    __asm__("movl %1,%0; addl %2,%0" : "=r"(z) : "r"(x), "r"(y) : "cc");
    return z;
}

int sum_mended(int x, int y)
{
    int z;
    __asm__("movl %1,%0; addl %2,%0" : "=&r"(z) : "r"(x), "r"(y) : "cc");
    return z;
}
