int f(int x,int y){__asm__("nop"::"r"(x):"st");return y;}
