void keep(int x)
{
    __asm__("pushl %0" : : "r"(x));
}

void keep_mended(int x)
{
    __asm__("pushl %0; popl %%ecx" : : "r"(x) : "ecx");
}
