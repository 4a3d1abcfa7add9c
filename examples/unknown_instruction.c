int f(int x){__asm__("nop; fsin"::"r"(x));return x;}
