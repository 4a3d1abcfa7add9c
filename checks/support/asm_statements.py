"""Generated asm statements, each in a C function of one line."""
import dataclasses
import random

DECLARATIONS = (
    "enum color { RED, GREEN = 20, BLUE = 200 }; struct four { short a; char b; }; struct odd { char c[3]; };"
    " struct big { int w[16]; }; struct huge { int w[20]; }; struct bits { int low : 3; };"
    " int gi, ga[4]; char gc; short gs; long long gl; struct big gb; struct huge gh; struct bits gf; void other(void);"
)
PARAMETERS = (
    "int i, unsigned j, char c, unsigned char uc, _Bool b, short s, unsigned short us, long long l,"
    " unsigned long long ul, int *p, char *q, enum color e, struct four t, struct odd o, float f"
)
# What gcc knows of these under -O2 alone.
LOCALS = "int n = 7, w = 40; short h = -300; char k = 100; int a[4]; struct big z;"


@dataclasses.dataclass(frozen=True)
class Expression:
    text: str
    lvalue: bool = True
    # What gcc takes for a constant in each optimisation: a `number`, or the `address` of an object.
    constant: str = ""
    # How many registers its address needs.
    registers: int = 0


def lvalues(texts, registers=0):
    return [Expression(text, registers=registers) for text in texts.split()]


def values(texts, constant=""):
    return [Expression(text, lvalue=False, constant=constant) for text in texts.split("; ")]


# By the bytes of their values.
WORDS = {
    1: lvalues("c uc b gc k t.b") + lvalues("*q q[3]", 1) + values("(char)i; (char)(c + 1)")
    + values("(char)5; (unsigned char)200; (_Bool)1; (signed char)-3; (char)100", "number"),
    2: lvalues("s us gs h t.a") + lvalues("*(short*)p", 1) + values("(short)(i + 1); (unsigned short)j")
    + values("(short)1000; (unsigned short)65000; (short)-1; (short)31", "number"),
    4: lvalues("i j gi p q n w e ga[2] a[1] gb.w[3]") + lvalues("*p p[3] ga[i] a[i]", 1)
    + values("i + j; i & 1; p + 1; -i; &a[1]")
    + values("0; 3; 4; 31; 32; 63; 64; 127; 128; 200; 255; 256; -1; -128; -129; 0x7fffffff; 0x80000000u", "number")
    + values("'x'; sizeof(int); GREEN; 7u", "number") + values("&gi; &ga[1]; &gb.w[2]", "address"),
}
WIDE = lvalues("l ul gl") + values("l + 1; 5ll")
# Those that are in memory.
OBJECTS = lvalues("o z gb ga a t f l s gc") + [Expression('"abc"', constant="address")]
# No operand of a register, or none at all.
STRANGE = lvalues("f t o gf.low z gh") + values("5ll; 1.0f; (void)0; other")
REGISTERS = "abcdSDqQrrrrrr"
NUMBERS = "inIJKMN"
FOREIGN = "XoVpRftxyeZEFsGLOlTW?!*%#<>$^ 0"
CONDITIONS = "a ae b be c e g ge l le na nae nb nbe nc ne ng nge nl nle no np ns nz o p s z".split()
FORMS = {
    "a": "eax ax al ah", "b": "ebx bx bl bh", "c": "ecx cx cl ch", "d": "edx dx dl dh", "S": "esi si", "D": "edi di",
    "": "ebp bp",
}
NAMED = [form for forms in FORMS.values() for name in forms.split() for form in (name, "%" + name)]
UNKNOWN = ["esp", "sp", "st", "xmm0", "mm1", "flags", "dirflag", "fpsr", "sil", "r8", "EAX", "0", "fs"]


@dataclasses.dataclass
class Operand:
    expression: Expression
    # One text of letters for each alternative, behind the sign.
    alternatives: list
    sign: str = ""
    name: str = ""
    modifier: str = ""
    flag: bool = False

    @property
    def constraint(self):
        return self.sign + ",".join(self.alternatives)

    def written(self):
        return f"{f'[{self.name}]' if self.name else ''}\"{self.constraint}\"({self.expression.text})"


@dataclasses.dataclass
class Statement:
    number: int
    outputs: list
    inputs: list
    clobbers: list
    # Further words of the template.
    more: str = ""

    @property
    def operands(self):
        return self.outputs + self.inputs

    def named(self):
        """The numbers of the operands that the template names."""
        return [number for number, operand in enumerate(self.operands) if not operand.flag]

    def written(self):
        holes = (f" %{self.operands[it].modifier}{it}" for it in self.named())
        template = f'"# asm {self.number}{"".join(holes)}{self.more}"'
        lists = [", ".join(operand.written() for operand in part) for part in (self.outputs, self.inputs)]
        lists.append(", ".join(f'"{clobber}"' for clobber in self.clobbers))
        return f"asm volatile({' : '.join([template, *lists])})"

    def function(self):
        return f"void f{self.number}({PARAMETERS}) {{ {LOCALS} {self.written()}; }}"


class Generator:
    """Statements most of which lie in asmck's tables; each fifth has one change that may break a rule."""

    def __init__(self, seed):
        self.random = random.Random(seed)

    def chance(self, share):
        return self.random.random() < share

    def statement(self, number):
        count = self.random.choices((1, 2, 3, 4), (2, 3, 3, 3))[0]
        alternatives = self.random.choices((1, 2, 3), (6, 3, 1))[0]
        outputs = [self.output(alternatives) for _ in range(self.random.randint(0, count))]
        inputs = [self.input(alternatives, outputs) for _ in range(count - len(outputs))]
        for place, operand in enumerate(outputs + inputs):
            operand.name = f"x{place}" if self.chance(0.3) else ""
        self.name_ties(outputs, inputs)
        statement = Statement(number, outputs, inputs, self.clobbers())
        if self.chance(0.2):
            self.change(statement)
        return statement

    def output(self, alternatives):
        if self.chance(0.06 if alternatives == 1 else 0.02):
            flag = "@cc" + self.random.choice(CONDITIONS)
            lvalue = self.lvalue(WORDS[self.random.choice((1, 2, 4))])
            return Operand(lvalue, [flag], "=", flag=True)
        sign = "+" if self.chance(0.25) else "="
        size, expression = self.expression(lvalue=True)
        letters = [self.letters(size, expression, True) for _ in range(alternatives)]
        return Operand(expression, [self.marked(it) for it in letters], sign, modifier=self.modifier(size))

    def input(self, alternatives, outputs):
        places = [place for place, it in enumerate(outputs) if it.sign == "=" and not it.flag]
        if places and self.chance(0.35):
            return self.tied(outputs, self.random.choice(places))
        size, expression = self.expression(lvalue=False)
        if size in WORDS and self.chance(0.2):
            # A value that another operand may have too.
            expression = WORDS[size][0]
        letters = [self.letters(size, expression, False) for _ in range(alternatives)]
        return Operand(expression, letters, modifier=self.modifier(size))

    def tied(self, outputs, place):
        """An input that is placed as an output, in each alternative or in some."""
        output = outputs[place]
        size = next((size for size, words in WORDS.items() if output.expression in words), 0)
        expression = output.expression
        if size and self.chance(0.6):
            expression = self.random.choice(WORDS[size])
        everywhere = not size or self.chance(0.7)
        letters = [
            str(place) if everywhere or self.chance(0.5) else self.letters(size, expression, False)
            for _ in output.alternatives
        ]
        return Operand(expression, letters, modifier=output.modifier)

    def name_ties(self, outputs, inputs):
        """Has some ties name their outputs by their names."""
        for operand in inputs:
            for at, text in enumerate(operand.alternatives):
                if text.isdigit() and outputs[int(text)].name and self.chance(0.5):
                    operand.alternatives[at] = f"[{outputs[int(text)].name}]"

    def lvalue(self, expressions):
        return self.random.choice([it for it in expressions if it.lvalue and not it.constant])

    def expression(self, lvalue):
        """An expression, and its size where it may be in a register."""
        size = self.random.choices((1, 2, 4, 8, 0), (3, 2, 8, 1, 1))[0]
        expressions = {**WORDS, 8: WIDE, 0: OBJECTS}[size]
        return size, self.lvalue(expressions) if lvalue else self.random.choice(expressions)

    def modifier(self, size):
        # Under `k` a byte has a name in every register.
        return "k" if size == 1 and self.chance(0.75) else ""

    def letters(self, size, expression, output):
        if size == 8:
            return self.random.choice(("A", "m", "Am") if expression.lvalue else ("A",))
        if size == 0:
            return "m"
        shares = {"r": 8, "m": 3, "i": 3, "g": 1, "rm": 2, "ri": 3, "mi": 1, "rr": 2, "rrmi": 1}
        kinds = self.random.choices(*zip(*shares.items()))[0]
        if output:
            kinds = kinds.replace("i", "r") if self.chance(0.9) else kinds
        elif kinds in ("m", "mi") and not expression.lvalue and self.chance(0.9):
            kinds = "r"
        elif kinds == "i" and not expression.constant and self.chance(0.9):
            kinds = "ri"
        letters = [self.random.choice({"r": REGISTERS, "m": "m", "i": NUMBERS, "g": "g"}[kind]) for kind in kinds]
        self.random.shuffle(letters)
        return "".join(letters)

    def marked(self, letters):
        if not self.chance(0.2):
            return letters
        at = self.random.randint(0, len(letters))
        return letters[:at] + "&" + letters[at:]

    def clobbers(self):
        if self.chance(0.5):
            return []
        count = self.random.choice((1, 1, 1, 2, 2, 3, 5, 8))
        return [self.random.choice([*NAMED, "memory", "cc", "memory", "cc"]) for _ in range(count)]

    def change(self, statement):
        """Changes a part of one operand, or what stands beside the operands."""
        operand = self.random.choice(statement.operands)
        at = self.random.randrange(len(operand.alternatives))
        letters, texts = operand.alternatives[at], operand.alternatives
        other_sign = self.random.choice("+=") if operand in statement.inputs else ""
        tie = self.random.choice(("0", "1", "9", "[x0]", "[y]"))
        sized = self.lvalue(WORDS[self.random.choice((1, 2, 4))])
        changes = [
            lambda: texts.__setitem__(at, letters + self.random.choice(FOREIGN)),
            lambda: texts.__setitem__(at, letters + self.random.choice("+=&")),
            lambda: texts.__setitem__(at, letters + "0"),
            lambda: texts.__setitem__(at, tie),
            lambda: texts.__setitem__(at, ""),
            lambda: texts.append("r"),
            lambda: texts.pop(),
            lambda: setattr(operand, "sign", other_sign),
            lambda: setattr(operand, "expression", self.random.choice(STRANGE)),
            lambda: setattr(operand, "expression", sized),
            lambda: [setattr(it, "name", "x0") for it in statement.operands],
            lambda: statement.inputs.append(Operand(operand.expression, [it.replace("&", "") for it in texts])),
            lambda: setattr(statement, "more", " %7"),
            lambda: setattr(statement, "more", f" %{self.random.choice('aznPlAHqy')}0"),
            lambda: statement.clobbers.append(self.random.choice(UNKNOWN)),
            lambda: statement.clobbers.append(FORMS.get(letters, "ebp").split()[0]),
        ]
        self.random.choice(changes)()
