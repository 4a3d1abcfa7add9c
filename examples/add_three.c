int f(int x,int y){__asm__("movl %1,%0; addl $3,%0":"=r"(y):"r"(x):"cc");return y;}
