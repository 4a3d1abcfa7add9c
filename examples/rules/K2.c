int copied(int x)
{
    int y;
    __asm__("movl %1,%0" : "r"(y) : "r"(x));
    return y;
}

int copied_mended(int x)
{
    int y;
    __asm__("movl %1,%0" : "=r"(y) : "r"(x));
    return y;
}
