"""What the checks have in common: their arguments and how they end."""
import argparse
import sys

# The status of a check that could not be made here, as Automake's tests have it.
SKIPPED = 77


def arguments(doc, **named):
    """The arguments that a check was called with. `named` are further arguments of its own, with their help."""
    reader = argparse.ArgumentParser(description=doc, formatter_class=argparse.RawDescriptionHelpFormatter)
    help_text = "how much is compared; full by itself, small in the gate"
    reader.add_argument("--size", choices=("small", "full"), default="full", help=help_text)
    for name, help_text in named.items():
        reader.add_argument(name, nargs="*", metavar=f"{name.upper()}", help=help_text)
    return reader.parse_args()


def skip(why):
    print(f"skipped: {why}")
    sys.exit(SKIPPED)
