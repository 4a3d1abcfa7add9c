unsigned widened(unsigned short x)
{
    unsigned y;
    __asm__("movl %k1,%0; movzwl %w0,%0" : "=r"(y) : "rm"(x));
    return y;
}

unsigned widened_mended(unsigned short x)
{
    unsigned y;
    __asm__("movzwl %1,%0" : "=r"(y) : "rm"(x));
    return y;
}
