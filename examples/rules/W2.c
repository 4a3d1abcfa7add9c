int next(int x)
{
    int y;
    __asm__("incl %1; movl %1,%0" : "=r"(y) : "r"(x) : "cc");
    return y;
}

int next_mended(int x)
{
    int y;
    __asm__("incl %1; movl %1,%0" : "=r"(y), "+r"(x) : : "cc");
    return y;
}
