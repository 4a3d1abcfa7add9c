"""A compiler's call as its words say it: what it compiles, and how to preprocess that alone."""
import os
from typing import NamedTuple

# Programs that run the compiler that follows them.
LAUNCHERS = {"ccache", "distcc", "icecc", "sccache"}
# Options whose argument is the next word (GCC manual, "Option Summary"; clang's -Xclang, -mllvm, -target and -MJ).
WITH_ARGUMENT = set(
    "-o -I -D -U -A -B -L -l -G -T -e -h -u -x -z -J -V -b -include -imacros -isystem -iquote -idirafter -iprefix "
    "-iwithprefix -iwithprefixbefore -isysroot -imultilib -MF -MT -MQ -MJ -Xlinker -Xassembler -Xpreprocessor -Xclang "
    "-mllvm -target --target --sysroot --param -aux-info -dumpbase -dumpbase-ext -dumpdir -wrapper -arch".split()
)
# What says where the compiler's outputs go, or that it makes others: preprocessing is not to write them again.
OUTPUTS = set(
    "-c -S -P -C -CC -o -aux-info -dumpbase -dumpbase-ext -dumpdir -MJ -MF -MT -MQ -MD -MMD -MP -MG".split()
)
OUTPUT_PREFIXES = ("-save-temps", "--save-temps", "-fdeps-")
# With these nothing is compiled.
COMPILES_NOTHING = {"-E", "-M", "-MM", "--version", "-###"}
# What a source is, by its ending: C, or C that is preprocessed already (GCC manual, "Overall Options").
PREPROCESSED = "cpp-output"
LANGUAGES = {".c": "c", ".i": PREPROCESSED}
RESPONSE_DEPTH = 10


class Source(NamedTuple):
    path: str
    language: str

    def is_c_file(self):
        """Whether it is a file in C; `-` is the standard input."""
        return self.language in LANGUAGES.values() and self.path != "-"


class Call(NamedTuple):
    """A call of a compiler: its program, the options that preprocessing shares, and the C sources that it compiles."""

    compiler: str
    options: tuple[tuple[str, ...], ...]
    sources: tuple[Source, ...]

    def preprocessing(self, source):
        """The words that print the source preprocessed, and write nothing else."""
        options = (word for option in self.options for word in option)
        return [self.compiler, *options, "-w", "-E", "-x", source.language, source.path]

    def target(self):
        """The compiler and the options that say for which machine it compiles."""
        options = (option for option in self.options if option[0].startswith(("-m", "-target", "--target", "-arch")))
        return (self.compiler, *(word for option in options for word in option))


def read_call(words, folder):
    """What the call says that runs in the folder. Its sources are those in C."""
    words = list(words)
    while len(words) > 1 and os.path.basename(words[0]) in LAUNCHERS:
        words.pop(0)
    compiler, *rest = words
    language = "c++" if compiler.endswith("++") else None
    options, preprocessor, sources, compiles = [], [], [], True
    rest = expanded(rest, folder)
    for word in rest:
        argument = [next(rest, "")] if word in WITH_ARGUMENT else []
        compiles &= word not in COMPILES_NOTHING
        if word == "-x" or word.startswith("-x") and not argument:
            language = given_language(argument[0] if argument else word[2:])
        elif word == "-Xpreprocessor":
            preprocessor += argument
        elif word.startswith("-Wp,"):
            preprocessor += word.split(",")[1:]
        elif is_output(word):
            continue
        elif word.startswith("-") and word != "-":
            options.append((word, *argument))
        else:
            sources.append(Source(word, language or LANGUAGES.get(os.path.splitext(word)[1], "")))
    for word in without_dependencies(preprocessor):
        options.append(("-Xpreprocessor", word))
    return Call(compiler, tuple(options), tuple(it for it in sources if compiles and it.is_c_file()))


def given_language(word):
    return None if word == "none" else word


def is_output(word):
    joined = word.startswith(("-o", "-MF", "-MT", "-MQ", "-MJ"))
    return word in OUTPUTS or joined or word.startswith(OUTPUT_PREFIXES)


def without_dependencies(words):
    """The preprocessor's own words but those for dependency outputs; there -MD and -MMD have the file behind them."""
    rest = iter(words)
    for word in rest:
        if word in ("-MD", "-MMD", "-MF", "-MT", "-MQ"):
            next(rest, None)
        elif not word.startswith("-M"):
            yield word


def expanded(words, folder, depth=RESPONSE_DEPTH):
    """The words with those of response files in place of each `@FILE`; a file that isn't there stands for itself."""
    for word in words:
        file = os.path.join(folder, word[1:])
        if word.startswith("@") and depth and os.path.isfile(file):
            with open(file, errors="surrogateescape") as words_of_file:
                yield from expanded(response_words(words_of_file.read()), folder, depth - 1)
        else:
            yield word


def response_words(text):
    """The words of a response file: parted by white space, quoted by ' or ", a backslash taking the next character
    as it is, in quotes too (GCC manual, "@file")."""
    word, quote, characters = None, "", iter(text)
    for character in characters:
        if character == "\\":
            word = (word or "") + next(characters, "")
        elif quote or character in "'\"":
            word = word or ""
            if not quote:
                quote = character
            elif character == quote:
                quote = ""
            else:
                word += character
        elif not character.isspace():
            word = (word or "") + character
        elif word is not None:
            yield word
            word = None
    if word is not None:
        yield word
