#!/usr/bin/env python3
"""Runs the tables of checks/tables against the crates below the checker's, built without a proof.

The tables say what tokens, literals, scopes, declarations, layouts, values, expressions and asm statements of short
texts are, where asm operands may be, how lines of templates are read, and what steps of instructions do, worked out by
hand or by gcc; nothing is proved of them, so they stand in no crate. Both sizes are the same. Status 0 where all agree, else 1.
"""
import pathlib
import subprocess
import sys
import tempfile

from support.check import arguments
from support.trial import ROOT, crate_in

TABLES = ROOT / "checks/tables"
ASM = "asm_constraints asm_core asm_places asm_statement asm_template att_reader bitflags register_search x86_table"
C = "c_decls c_exprs c_literals c_scopes c_tokens c_types c_values"


def main():
    arguments(__doc__)
    files = {str(file.relative_to(TABLES).with_suffix(".rt")): file for file in TABLES.glob("**/*.rattle")}
    with tempfile.TemporaryDirectory() as name:
        crate = crate_in(pathlib.Path(name), "tables", f"{ASM} {C}", files)
        done = subprocess.run(["rt", "try", "--test"], cwd=crate, text=True, capture_output=True)
    lines = done.stdout.splitlines()
    result = [line for line in lines if line.startswith("test result: ok. ")]
    if done.returncode or not result:
        print(*[line for line in lines if not line.endswith(" ... ok")], done.stderr[-2000:], sep="\n")
        return 1
    print(result[0].removeprefix("test result: ok. "))
    return 0


sys.exit(main())
