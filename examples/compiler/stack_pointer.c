/* The address of an array of variable length is %esp itself, which gcc gives for "r"; the block pushes before it reads it. */
__attribute__((noipa)) static int is_moved(int length)
{
    char array[length], *copy;
    __asm__ volatile("pushl $0; movl %1,%0; popl %%ecx" : "=&r"(copy) : "r"(array) : "ecx");
    return copy != array;
}

int main(void)
{
    return is_moved(4);
}
