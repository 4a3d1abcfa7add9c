"""Files of asm statements whose verdicts are timed."""

# One function each; @ stands for a number.
SIX_FORMS = (
    'int g@(int x){int y;__asm__("movl %1,%0":"=r"(y):"r"(x));return y;}',
    'int g@(int x){__asm__("addl $3,%0":"+r"(x)::"cc");return x;}',
    'int g@(int x){__asm__("negl %0":"+r"(x));return x;}',
    'int g@(int x,int y){int z;__asm__("movl %1,%0; addl %2,%0":"=r"(z):"r"(x),"r"(y):"cc");return z;}',
    'int g@(int n){int s;__asm__("xorl %0,%0; 1: addl %1,%0; decl %1; jnz 1b":"=&r"(s),"+r"(n)::"cc");return s;}',
    'void g@(void){__asm__("fsin"::);}',
)

INSTRUCTIONS = 512
OPERANDS = 30
# Operands in a register or in memory: 2 to the power of their number is the number of shapes.
EITHER = 6


def of_forms(forms, count, random):
    """So many functions, each of a form that is drawn."""
    return "".join(random.choice(forms).replace("@", str(number)) + "\n" for number in range(count))


def function(template, outputs, inputs, clobbers):
    """A function with one statement over x0, x1, .. and the file's array v."""
    names = ",".join(f"int x{number}" for number in range(EITHER))
    quoted = ",".join(f'"{name}"' for name in clobbers)
    parts = f'"{"; ".join(template)}":{",".join(outputs)}:{",".join(inputs)}:{quoted}'
    return f"int v[{OPERANDS}];\nint f({names}){{int y=0;__asm__({parts});return y;}}\n"


def label(number):
    """A label of that number in a template. No digit may stand before `%=`."""
    return f".L{chr(ord('a') + number // 26)}{chr(ord('a') + number % 26)}%="


def loop():
    """A block of 512 instructions that is one loop."""
    return function(["1: decl %0", *["decl %0"] * (INSTRUCTIONS - 2), "jnz 1b"], ['"+r"(x0)'], [], ["cc"])


def line():
    """512 instructions one behind another, with 30 operands and 64 shapes."""
    either = [f'"rm"(x{number})' for number in range(EITHER)]
    memory = [f'"m"(v[{number}])' for number in range(OPERANDS - 1 - EITHER)]
    adds = [f"addl %{1 + number % (OPERANDS - 1)},%0" for number in range(INSTRUCTIONS - 1)]
    return function(["movl $0,%0", *adds], ['"=&a"(y)'], [*either, *memory], ["cc"])


class Block:
    """A drawn block with many labels, jumps, operands and shapes. No rule is broken before its facts are asked."""

    def __init__(self, random):
        self.random = random
        self.either = random.randint(0, EITHER)
        self.memory = random.randint(0, OPERANDS - 2 * EITHER)
        self.instructions = random.randint(INSTRUCTIONS // 2, INSTRUCTIONS)
        self.labels = random.randint(1, 100)
        self.jumping = random.choice((0.02, 0.1, 0.3))
        self.jumps = 0

    def operands(self):
        """The outputs and the inputs, whose numbers go from 0 to `either` + `memory` without one."""
        kinds = [f'"{self.random.choice(("+", "=", ""))}rm"(x{number})' for number in range(self.either)]
        kinds += [f'"{self.random.choice(("=", ""))}m"(v[{number}])' for number in range(self.memory)]
        kinds.sort(key=lambda it: it[1] not in "+=")
        return [it for it in kinds if it[1] in "+="], [it for it in kinds if it[1] not in "+="]

    def instruction(self):
        """One instruction, which reads or writes an operand at most."""
        if self.random.random() < self.jumping:
            self.jumps += 1
            return f"{self.random.choice(('jz', 'jc', 'jl', 'jg', 'jmp'))} {label(self.random.randrange(self.labels))}"
        register, other = self.random.sample(("%%eax", "%%ecx", "%%edx"), 2)
        forms = [f"movl {register},{other}", f"addl {register},{other}", f"incl {register}", f"movl $1,{register}"]
        count = self.either + self.memory
        if count:
            operand = f"%{self.random.randrange(count)}"
            forms += [f"{name} {operand},{register}" for name in ("movl", "addl", "cmpl")]
            forms += [f"{name} {register},{operand}" for name in ("movl", "xorl", "xchgl")]
        return self.random.choice(forms)

    def text(self):
        lines = [self.instruction() for _ in range(self.instructions)]
        for number in range(self.labels):
            at = self.random.randrange(len(lines))
            lines[at] = f"{label(number)}: {lines[at]}"
        return function(lines, *self.operands(), ["eax", "ecx", "edx", "cc"])

    def __str__(self):
        operands = f"{self.either} operands in register or memory, {self.memory} in memory"
        return f"{self.instructions} instructions, {self.labels} labels, {self.jumps} jumps, {operands}"
