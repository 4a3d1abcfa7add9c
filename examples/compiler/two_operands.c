/* One object is an output in memory and an input for which gcc may choose memory too: it is overwritten before it is read. */
__attribute__((noipa)) static int exchanged(int *object)
{
    int old;
    __asm__("movl $7,%0; movl %2,%1" : "=m"(*object), "=&r"(old) : "rm"(*object));
    return old;
}

int main(void)
{
    int object = 3;
    return exchanged(&object) != 3;
}
