unsigned with_carry(unsigned x)
{
    __asm__("adcl $0,%0" : "+r"(x) : : "cc");
    return x;
}

unsigned with_carry_mended(unsigned x, unsigned carry)
{
    __asm__("addl $-1,%1; adcl $0,%0" : "+r"(x), "+r"(carry) : : "cc");
    return x;
}
