#!/usr/bin/env python3
"""Compares the sizes of asm operands in short texts of rare forms of C with gcc's.

    checks/rare_forms.py [--size small|full]

The rows below are texts that real files hardly have: tags and bodies behind attributes of all spellings, typedef
names that are declared again, braces of other dialects, tags alone, parameters that are named in their own list,
identifier lists, names of functions in parentheses, names and arguments of attributes, null pointer constants,
`#pragma pack`, tokens that gcc cuts otherwise. A small program over c_exprs, built without a proof by `rt try`, prints
the sizes of their operands; gcc -m32 compiles the same texts with the sizes in place of the operands. Where gcc refuses
a text (a form of another compiler, or of C to come), the program may give no size, but for rows with one of their own.
Both sizes are the same. Status 0 where no size is another than gcc's, 77 where there is no gcc for -m32, else 1.
"""
import pathlib
import re
import sys
import tempfile

from support.check import arguments
from support.compiler import demand_gcc, gcc
from support.trial import program_in, told

CRATES = "asm_core asm_statement c_decls c_exprs c_scopes c_tokens c_words ck_ports"
# Texts in which `@(..)` is an asm statement with that input.
TEXTS = [
    # tags and bodies behind attributes
    "void f(void) { int x; { enum __attribute((packed)) {B} x = B; @(x) } }",
    "void f(void) { int x; { enum [[gnu::packed]] {B} x = B; @(x) } }",
    "void f(void) { int x; { const enum __attribute((packed)) {B} x = B; @(x) } }",
    "void f(void) { int x; { _Atomic enum __attribute((packed)) {B} x = B; @(x) } }",
    "void f(void) { int x; { __extension__ enum [[gnu::packed]] {B} x = B; @(x) } }",
    "struct s {int a;}; void f(void) { struct __attribute((packed)) s {short a;}; struct s w; @(w.a) }",
    "struct s {int a;}; void f(void) { (void)sizeof(struct __attribute((packed)) s {short a;}); struct s w; @(w.a) }",
    "struct s {int a;}; void f(void) { (void)(struct [[gnu::packed]] s {short a;} *)0; struct s w; @(w.a) }",
    "struct s {int a;}; void f(void) { typedef struct [[gnu::packed]] s {short a;} q; struct s w; @(w.a) }",
    "struct s {int a;}; void f(void) { __typeof__(struct [[gnu::packed]] s {short a;}) z; struct s w; @(w.a) }",
    "struct s {int a;}; void f(void) { for (; sizeof(struct __attribute((packed)) s {short a;});) "
    "{ struct s v; @(v.a) } }",
    "struct s {int a;}; void f(void) { struct [[gnu::unused]] s; struct s *p; struct s {short a;}; @(p->a) }",
    "struct s {int a;}; void f(void) { struct s __attribute__((unused)); struct s *p; struct s {short a;}; @(p->a) }",
    "struct s {int a;}; void f(void) { [[gnu::unused]] struct s; struct s *p; struct s {short a;}; @(p->a) }",
    # tags alone, which declare anew, and with other words
    "struct s {int a;}; void f(void) { struct s; struct s *p; struct s {short a;}; @(p->a) }",
    "struct s {int a;}; void f(void) { __extension__ __attribute__((unused)) struct s; struct s *p; "
    "struct s {short a;}; @(p->a) }",
    "struct s {int a;}; void f(void) { const struct s; struct s *p; struct s {short a;}; @(p->a) }",
    "struct s {int a;}; void f(void) { struct s const; struct s *p; struct s {short a;}; @(p->a) }",
    "struct s {int a;}; void f(void) { static struct s; struct s *p; struct s {short a;}; @(p->a) }",
    "struct s {int a;}; void f(void) { __attribute__((unused)) const struct s; struct s *p; struct s {short a;}; "
    "@(p->a) }",
    "struct s {int a;}; void f(void) { _Alignas(8) struct s; struct s *p; struct s {short a;}; @(p->a) }",
    "union s {int a;}; void f(void) { struct t {union s; int b;} v; union s *p; union s {short a;}; @(p->a) @(v) }",
    "void f(void) { struct t {struct s; int b;} v; struct s *p; struct s {short a;}; @(p->a) @(v) }",
    "struct s {int a;}; void f(void) { const struct s; struct s {short a;}; struct s v; @(v) }",
    "void f(void) { char B; { enum e : short {B}; @(B) } }",
    "enum e {A}; void f(void) { enum e : short {B}; enum e y; @(y) }",
    # typedef names that are declared again
    "typedef int T; void f(void) { typedef short [[]] T __attribute((unused)); T w; @(w) }",
    "typedef short U; typedef int T; void f(void) { typedef U __attribute((unused)) (T); T w; @(w) }",
    "typedef int T; void f(void) { short _Atomic typedef ((T)); T w; @(w) }",
    "typedef int T; void f(void) { char y; __auto_type z = (T)1; { T *y; @(y) } }",
    # tokens that gcc cuts otherwise
    "void f(int x) { <% short x; @(x) %> }",
    "void f(int x) { char s<:2:>; @(s) }",
    # braces and heads that no C11 has
    "void f(void) { int x; __transaction_relaxed { short x = 1; @(x) } }",
    "void f(void) { int x; each(x) { short x = 1; @(x) } @(x) }",
    "void f(void) { int x, a; x = lazy { short x; @(x) }; }",
    "void f(void) { int x, a; if (short x = 1; a) { @(x) } }",
    # parameters in their own list, identifier lists and what looks like one
    "int x; void g(char x, __typeof__(x) z) { @(z) }",
    "enum {n = 3}; void g(int n, int (*a)[n]) { @(*a) }",
    "typedef char *T; short b; int g(a, b) T a; int b; { @(b) return 0; } void h(void) { @(b) }",
    "int b; int g(a, b) __builtin_va_list a; short b; { @(b) return 0; } void h(void) { @(b) }",
    "int b; int (*g(a, b))(int) int a; short b; { @(b) return 0; } void h(void) { @(b) }",
    "_Alignas(8) char w[3]; void f(void) { int z; @(z) @(w) }",
    "_Atomic(int) volatile v; void f(void) { int z; @(z) }",
    "static __thread __attribute__((unused)) int t; void f(void) { int z; @(z) }",
    # functions with their name in parentheses
    "int (f)(int x, short y) { @(x) @(y) return 0; }",
    "int x; int (*(f)(short x))(int) { @(x) return 0; }",
    "int x; int (*((f)(short x)))(int x) { @(x) return 0; }",
    "int x; int (*(*(f)(short x))(char x))(int x) { @(x) return 0; }",
    "int x; int (((__attribute__((noinline)) f)))(short x) { @(x) return 0; }",
    "int x; void g(void) { int (f)(short x) { @(x) return 0; } f(1); }",
    "int x; int (f)(x, y) short x, y; { @(x) return 0; }",
    "int x; int (*f)(short x) { @(x) return 0; }",
    # attributes by their own name, and words in the arguments of others
    "int mode(int), QI; void f(void) { __attribute__((foo(mode(QI)))) int x; @(x) }",
    "int mode(int), QI; int x __attribute__((int(mode(QI)), mode(HI))); void f(void) { @(x) }",
    "int x __attribute__((unused, mode(QI))) __attribute__((unused)); void f(void) { @(x) }",
    "enum {QI = 1}; int x __attribute__((mode(QI + 1))); void f(void) { @(x) }",
    "enum {QI = 1}; int x __attribute__((mode((QI)))); void f(void) { @(x) }",
    "int x [[foo::bar(mode(QI))]], y [[gnu::mode(QI)]], z [[mode(QI)]]; void f(void) { @(x) @(y) @(z) }",
    "void vector_size(int *p); void f(void) { int x __attribute__((cleanup(vector_size))); @(x) }",
    "int packed; struct {char c; int a __attribute__((foo(packed)));} s; void f(void) { @(s) @(s.a) }",
    "int packed; struct __attribute__((foo(packed))) {char c; int a;} s; void f(void) { @(s) }",
    "int mode(int), QI; enum __attribute__((foo(mode(QI)))) {A} s; void f(void) { @(s) }",
    "enum __attribute__((unused, mode(QI))) {A} s; void f(void) { @(s) }",
    # attributes behind the parenthesis of a parameter or type name
    "void f(int (__attribute__((unused)) *p)) { @(p) @(*p) }",
    "void f(int (__attribute__((unused)) x)[3]) { @(x) @(*x) }",
    "void f(int (__attribute__((unused)) (*p))) { @(p) @(*p) }",
    "void f(int (__attribute__((mode(QI))) x)) { @(x) }",
    "void f(int (__attribute__((mode(QI))) *x)) { @(x) @(*x) }",
    "void f(int (__attribute__((aligned(16))) p)) { struct {char c; __typeof__(p) x;} s; @(p) @(s) }",
    "void f(int (__attribute__((aligned(16))) *p)) { struct {char c; __typeof__(p) x;} s; @(p) @(*p) @(s) }",
    "void f(int (__attribute__((vector_size(16))) *p)) { @(p) @(*p) }",
    "typedef char T; void f(int (__attribute__((unused)) T)) { int T; @(T) }",
    "void f(int x(__attribute__((unused)) int y)) { @(x) }",
    "void f(int ([[gnu::unused]] *p)) { @(f) }",
    "void f(void) { @(*(int (__attribute__((unused)) *))0) @(*(char (__attribute__((unused)) *)[3])0) }",
    "void f(void) { @(*(int (__attribute__((mode(QI))) *))0) @(*(int (__attribute__((aligned(16))) *))0) }",
    "void f(void) { @(**(char (*(__attribute__((unused)) *))[3])0) @(*(char (*)(__attribute__((unused)) int))0) }",
    "void f(void) { struct {char c; __typeof__(int (__attribute__((aligned(16))) *)) x;} s; @(s) }",
    # attributes that gcc counts in typeof
    "void f(void) { struct {char c; __typeof__(int __attribute__((aligned(16)))) x;} s; @(s) }",
    "void f(void) { struct {char c; __typeof__(int *__attribute__((aligned(16)))) x;} s; @(s) }",
    "void f(void) { int *__attribute__((aligned(16))) p; struct {char c; __typeof__(p) x;} s; @(s) }",
    "void f(void) { struct {char c; int (__attribute__((aligned(16))) x);} s; @(s) }",
    # null pointer constants, and two pointers
    "void f(int c, int *p) { @(*(c ? p : (void *)(void *)0)) @(*(c ? p : (void *)(0x40000000 * 4))) }",
    "void f(int c, int *p) { @(*(c ? (void *)0 : p)) @(*(c ? (p) : (0))) @(*(c ? p : ((void *)(0)))) }",
    "void f(int c, int *p, char *q) { @(*(c ? p : (int *)q)) @(*(c ? p : q)) @((c ? p : q)) }",
    "struct s {short a;}; void f(int c, struct s *p) { @((c ? p : p)->a) }",
    # layouts
    "#pragma pack(1)\nstruct s {char c; int a;}; struct s v; void f(void) { @(v) @(v.a) }",
    "#pragma /* all */ pack(1)\nstruct s {char c; int a;}; struct s v; void f(void) { @(v) }",
    "struct s {char c; int a;}; struct s v; void f(void) { @(v) }\n#pragma pack(1)\n",
]
# Such texts that gcc refuses, with the sizes that they have by another standard, or behind the braces of another dialect.
SIZED = {
    "void f(void) { int x, a; if (short x = 1; a) { @(x) } }": [2],
    "void f(void) { int x; each(x) { short x = 1; @(x) } @(x) }": [None, 4],
}


def operands(text):
    """The expressions of the statements, and what stands between them."""
    parts = re.split(r"@\(", text)
    expressions, between = [], [parts[0]]
    for part in parts[1:]:
        depth = 1
        for i, byte in enumerate(part):
            depth += {"(": 1, ")": -1}.get(byte, 0)
            if depth == 0:
                break
        expressions.append(part[:i])
        between.append(part[i + 1:])
    return expressions, between


def made(text, form):
    expressions, between = operands(text)
    return between[0] + "".join(form.format(e) + b for e, b in zip(expressions, between[1:]))


def measured(text):
    """What gcc gives for each operand, or None where it refuses the text."""
    done = gcc(made(text, 'asm("# SIZE %c0" : : "i"(sizeof({})));'), "-std=gnu2x", "-S", "-o", "-")
    return [int(size) for size in re.findall(r"# SIZE (\d+)", done.stdout)] if done.returncode == 0 else None


def disagreements(text, lines):
    # A statement that is outside has no operand to be wrong about.
    given = [line.split(" ")[3] if line.startswith("operand") else None for line in lines if line.strip()
             and line.split(" ")[0] in ("operand", "untyped", "outside")]
    wanted = SIZED.get(text, measured(text)) or [None] * len(given)
    if len(given) != len(wanted):
        yield f"{text}: {len(given)} statements and not {len(wanted)}"
    for size, gcc_size in zip(given, wanted):
        if size not in (None, "-") and (gcc_size is None or int(size) != gcc_size):
            yield f"{text}: {size} and not {gcc_size}"


def main():
    arguments(__doc__)
    demand_gcc()
    with tempfile.TemporaryDirectory() as name:
        folder = pathlib.Path(name)
        cases = folder / "cases"
        cases.mkdir()
        for k, text in enumerate(TEXTS):
            (cases / f"text{k}").write_text(made(text, 'asm("#" : : "m"({}));'))
        found = told(program_in(folder, "typed_operands", CRATES), cases)
    wrong = [line for k, text in enumerate(TEXTS) for line in disagreements(text, found.get(f"text{k}", []))]
    for line in wrong:
        print(line)
    print(f"{len(TEXTS)} texts: {len(wrong)} wrong")
    return 1 if wrong or not found else 0


sys.exit(main())
