int load(int *p)
{
    int y;
    __asm__("movl (%1),%0" : "=r"(y) : "r"(p));
    return y;
}

int load_mended(int *p)
{
    int y;
    __asm__("movl %1,%0" : "=r"(y) : "m"(*p));
    return y;
}
