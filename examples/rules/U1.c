int copied(int x)
{
    int y;
    __asm__("movl %1,%0" : "=m"(y) : "g"(x));
    return y;
}

int copied_mended(int x)
{
    int y;
    __asm__("movl %1,%0" : "=m"(y) : "ri"(x));
    return y;
}
