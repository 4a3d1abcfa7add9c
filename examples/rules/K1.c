int sum(int x, int z)
{
    int y;
    __asm__("leal (%1,%2),%0" : "=a"(y) : "b"(x), "b"(z));
    return y;
}

int sum_mended(int x, int z)
{
    int y;
    __asm__("leal (%1,%2),%0" : "=a"(y) : "b"(x), "c"(z));
    return y;
}
