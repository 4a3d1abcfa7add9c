void clear_down(char *last, unsigned count)
{
    __asm__("std; rep stosb" : "+D"(last), "+c"(count) : "a"(0) : "memory");
}

void clear_down_mended(char *last, unsigned count)
{
    __asm__("std; rep stosb; cld" : "+D"(last), "+c"(count) : "a"(0) : "memory");
}
