/* What both sources include: two functions, of which the second breaks W1, and a macro whose statement breaks it. */
static inline unsigned next(unsigned x)
{
    __asm__("incl %0" : "+r"(x) : : "cc");
    return x;
}

static inline unsigned low_bits(unsigned x, unsigned count)
{
    __asm__("movl %1,%%ecx; shll %%cl,%0" /* the others are shifted out */
            : "+&r"(x)
            : "r"(count)
            : "cc");
    return x;
}

#define CLEARED(x) __asm__("xorl %%edx,%%edx; movl %%edx,%0" : "=r"(x) : : "cc")
