#!/usr/bin/env python3
"""Times the tokens of a 16 MiB preprocessed C file beside gcc's reading of the same file.

    bench/tokens.py [FILE.i ..]      with no file: one that this script writes

It builds a program that runs `tokens` over a copy of the repository's crates, outside the gate, with `rt` on the PATH.
BENCH_TOKENS names one that is built already.
"""
import os
import subprocess
import sys
import tempfile
import time

from support import generated
from support.program import built, crate_in

SIZE = 16 * 1024 * 1024

# The program, in Rattle.
PROGRAM = r'''//! Prints how long `tokens` takes on each file of the command line.
#![tactic(auto)]

use anyhow::{Result, ensure};
use c_tokens::tokens;
use std::time::Instant;
use std::{env, fs};

fn main(rt: HostRuntime) -> Result<()> {
    for name in env::args(&rt)?.skip(1) {
        let text = fs::read(&rt, name.as_str())?;
        ensure!(text.len() < 4294967295, "{name} is too large");
        let start = Instant::now(&rt)?;
        let found = tokens(rt.alloc(), &text);
        let took = start.elapsed(&rt)?.as_millis();
        match found {
            Ok(all) => {
                let count = all.list.len();
                println!(rt; "{count} tokens in {took} ms")?;
            }
            Err(end) => println!(rt; "{end} in {took} ms")?,
        }
    }
    Ok(())
}
'''

def program_in(folder):
    """The program that runs `tokens`."""
    return built(crate_in(folder, "bench_tokens", ("anyhow", "c_tokens"), {"main.rt": PROGRAM}))


def main():
    with tempfile.TemporaryDirectory() as folder:
        program = os.environ.get("BENCH_TOKENS") or program_in(folder)
        for path in sys.argv[1:] or [generated.write(os.path.join(folder, "large.i"), SIZE)]:
            print("%s: %d bytes" % (path, os.path.getsize(path)))
            subprocess.run([program, path], check=True)
            start = time.time()
            command = ["gcc", "-m32", "-std=gnu11", "-w", "-fpreprocessed", "-fsyntax-only", "-x", "cpp-output", path]
            gcc = subprocess.run(command, stderr=subprocess.DEVNULL)
            took = (time.time() - start) * 1000
            print("gcc -m32 -fpreprocessed -fsyntax-only: %d ms, status %d" % (took, gcc.returncode))


if __name__ == "__main__":
    main()
