/* Runs single instructions on this processor, without a C library.

   Input: records of a number and a state, each a struct below; the number says which instruction (`stubs`, generated).
   Output: for each record how the instruction ended and the state behind it. */
typedef unsigned int u32;

struct state {
    u32 regs[7]; /* eax ebx ecx edx esi edi ebp */
    u32 esp;
    u32 flags;
    u32 memory[8];
    u32 pushed[2]; /* the first two words below STACK */
};

struct record {
    u32 word; /* in: the instruction; out: how it ended */
    struct state state;
};

enum { MOVED, JUMPED, DIVIDED };

/* The linker puts it where the check says. */
struct arena {
    u32 memory[8];
    u32 unused[504];
};

struct arena arena __attribute__((section(".arena")));
struct state now;
u32 jumped, faulted, kept_esp, entered;
static char signal_stack[16384];

extern void *const stubs[];
void enter(void *stub);
void leave(void);
void restored(void);

__asm__(".text\n"
        "enter:\n"
        "	pushal\n"
        "	movl %esp, kept_esp\n"
        "	movl 36(%esp), %eax\n"
        "	movl %eax, entered\n"
        "	pushl now+32\n"
        "	popfl\n"
        "	movl now, %eax\n"
        "	movl now+4, %ebx\n"
        "	movl now+8, %ecx\n"
        "	movl now+12, %edx\n"
        "	movl now+16, %esi\n"
        "	movl now+20, %edi\n"
        "	movl now+24, %ebp\n"
        "	movl now+28, %esp\n"
        "	jmp *entered\n"
        ".globl went_on, went_to_goal\n"
        "went_to_goal:\n"
        "	movl $1, jumped\n"
        "went_on:\n"
        "	movl %esp, now+28\n"
        "	movl kept_esp, %esp\n"
        "	movl %eax, now\n"
        "	movl %ebx, now+4\n"
        "	movl %ecx, now+8\n"
        "	movl %edx, now+12\n"
        "	movl %esi, now+16\n"
        "	movl %edi, now+20\n"
        "	movl %ebp, now+24\n"
        "	pushfl\n"
        "	popl now+32\n"
        "	cld\n"
        "	popal\n"
        "	ret\n"
        "leave:\n"
        "	cld\n"
        "	movl kept_esp, %esp\n"
        "	popal\n"
        "	ret\n"
        "restored:\n"
        "	movl $173, %eax\n"
        "	int $0x80\n");

static u32 call(u32 number, u32 a, u32 b, u32 c, u32 d)
{
    u32 answer;
    __asm__ volatile("int $0x80" : "=a"(answer) : "a"(number), "b"(a), "c"(b), "d"(c), "S"(d) : "memory");
    return answer;
}

/* The registers that the kernel gives a handler, from edi on (struct sigcontext). */
struct context {
    u32 before[5 + 4];
    u32 edi, esi, ebp, esp, ebx, edx, ecx, eax, trap, error, eip, cs, eflags;
};

/* A division that can't be done. */
static void on_fault(int signal, void *info, struct context *at)
{
    u32 regs[7] = {at->eax, at->ebx, at->ecx, at->edx, at->esi, at->edi, at->ebp};
    for (int k = 0; k < 7; k++)
        now.regs[k] = regs[k];
    now.esp = at->esp;
    now.flags = at->eflags;
    faulted = 1;
    leave();
}

static void catch_faults(void)
{
    /* struct sigaction: SA_SIGINFO, SA_ONSTACK, SA_NODEFER, SA_RESTORER */
    u32 action[5] = {(u32)on_fault, 0x4c000004, (u32)restored, 0, 0};
    u32 stack[3] = {(u32)signal_stack, 0, sizeof signal_stack};
    call(186, (u32)stack, 0, 0, 0);
    call(174, 8, (u32)action, 0, 8);
}

/* Reads or writes all bytes. Whether there were as many. */
static int moved(u32 number, u32 file, void *bytes, u32 count)
{
    u32 done = 0;
    while (done < count) {
        u32 some = call(number, file, (u32)bytes + done, count - done, 0);
        if (some == 0 || some > count)
            return 0;
        done += some;
    }
    return 1;
}

static void run(struct record *record)
{
    u32 *stack = (u32 *)(&arena + 1);
    now = record->state;
    for (int k = 0; k < 8; k++)
        arena.memory[k] = now.memory[k];
    stack[-1] = now.pushed[0];
    stack[-2] = now.pushed[1];
    jumped = faulted = 0;
    enter(stubs[record->word]);
    for (int k = 0; k < 8; k++)
        now.memory[k] = arena.memory[k];
    now.pushed[0] = stack[-1];
    now.pushed[1] = stack[-2];
    record->state = now;
    record->word = faulted ? DIVIDED : jumped ? JUMPED : MOVED;
}

static struct record records[256];

/* The first word of the input is the count of records. */
void _start(void)
{
    u32 left;
    catch_faults();
    if (!moved(3, 0, &left, sizeof left))
        call(1, 1, 0, 0, 0);
    while (left > 0) {
        u32 some = left < 256 ? left : 256;
        if (!moved(3, 0, records, some * sizeof *records))
            call(1, 1, 0, 0, 0);
        for (u32 k = 0; k < some; k++)
            run(&records[k]);
        if (!moved(4, 1, records, some * sizeof *records))
            call(1, 1, 0, 0, 0);
        left -= some;
    }
    call(1, 0, 0, 0, 0);
}
