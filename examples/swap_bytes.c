int f(int x,int y){__asm__("bswapl %0":"+r"(y):"r"(x));return y;}
