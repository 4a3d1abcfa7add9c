int load(int x)
{
    int y;
    __asm__("pushl %%ecx; movl %1,%0; popl %%ecx" : "=a"(y) : "m"(x));
    return y;
}

int load_mended(int x)
{
    int y;
    __asm__("movl %1,%0; pushl %%ecx; popl %%ecx" : "=a"(y) : "m"(x));
    return y;
}
