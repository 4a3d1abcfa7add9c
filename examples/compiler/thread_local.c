/* gcc writes the operand as `%gs:` with an offset, and `lea` takes the offset alone. */
static __thread int object;

__attribute__((noipa)) static int is_moved(void)
{
    int *pointer = &object, *address;
    __asm__("leal %1,%0" : "=r"(address) : "m"(*pointer));
    return address != pointer;
}

int main(void)
{
    return is_moved();
}
