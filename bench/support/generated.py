"""A preprocessed C file in the style of a kernel's, of any size."""

# One piece of the file; @ stands for a number.
PIECE = r"""# @ "include/linux/part.h" 1 3 4
struct part_@ { unsigned long flags; struct part_@ *next; const char *name; int (*probe)(struct part_@ *, unsigned); };
typedef struct part_@ part_@_t;
enum kind_@ { KIND_A_@ = 0x@u, KIND_B_@ = (1 << 3) | 7, KIND_C_@ = 'c' };
extern int printk(const char *fmt, ...) __attribute__((__format__(__printf__, 1, 2)));
static inline __attribute__((unused)) unsigned int swab_@(unsigned int x)
{
    unsigned int y; /* moved and counted up */
    __asm__ volatile("movl %1,%0; addl $1,%0" : "=r" (y) : "r" (x) : "cc");
    if (y >= 0xff00u && (y & ~3u) != 0 || !x) // nothing to do
        return y >> 8 ^ x << 24;
    for (int i = 0; i < 16; ++i)
        y += table[i]->value * 1.5e+3 - 'a' + L'\x41', x <<= 1;
    printk("part_@: %d \"%s\"\n", y, u8"name");
    return y;
}
"""


def write(path, size):
    """Writes a file of `size` bytes, of whole pieces and blanks."""
    with open(path, "w") as out:
        out.write("extern struct { int value; } **table;\n")
        written, number = out.tell(), 0
        while True:
            number += 1
            piece = PIECE.replace("@", str(number))
            if written + len(piece) > size:
                break
            out.write(piece)
            written += len(piece)
        out.write(" " * (size - written))
    return path
