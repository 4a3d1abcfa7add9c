int taken(void)
{
    int y;
    __asm__("popl %0; pushl %0" : "=r"(y));
    return y;
}

int taken_mended(int x)
{
    int y;
    __asm__("pushl %1; popl %0" : "=r"(y) : "r"(x));
    return y;
}
