/* The first alternative is memory and a later one a register: gcc takes memory that it doesn't fill. */
__attribute__((noipa)) static int next(int y)
{
    __asm__("addl $1,%0" : "+m,a"(y) : : "cc");
    return y;
}

int main(void)
{
    return next(3) != 4;
}
