"""The options that both programs have."""


def add(reader):
    reader.add_argument("--undecided", action="store_true", help="tell what asmck can't decide, too")
    reader.add_argument("--strict-cc", action="store_true", help='flags that change have to be declared by "cc"')
    help_text = "the program asmck (else that of the environment's ASMCK, else the one that bin/asmck built)"
    reader.add_argument("--asmck", metavar="PROGRAM", help=help_text)
