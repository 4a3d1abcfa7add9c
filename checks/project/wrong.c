#error "a source that the compiler refuses"
void stop(void) { __asm__("movl $0,%%eax" : : "r"(0)); }
