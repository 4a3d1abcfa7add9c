int zero(void)
{
    int y;
    __asm__("xorl %%ecx,%%ecx; movl %%ecx,%0" : "=r"(y) : : "cc");
    return y;
}

int zero_mended(void)
{
    int y;
    __asm__("xorl %%ecx,%%ecx; movl %%ecx,%0" : "=r"(y) : : "ecx", "cc");
    return y;
}
