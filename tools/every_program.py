"""python3 every_program.py OUT -- builds the programs of crates.txt as one file OUT, without proofs and without run-time
checks, which is the program by whose name it is called: a link to OUT of the name toml_check is toml_check, called by
its path or found through PATH. By a name of none it says so on standard error, and ends with status 1.

A build of its own for each program takes in the libraries each time, and that is nearly all of what it takes. Here each
program is a library with a public `main`, and a program above them all chooses.
"""
import os
import re
import shutil
import subprocess
import sys
import tempfile

TOP = os.path.dirname(os.path.dirname(os.path.abspath(__file__)))
NAME = "every_program"
MAIN = """//! Each program, by the last part of the name that this one is called by.
#![tactic(auto)]

use std::io;
use std::process::ExitCode;

fn main(rt: HostRuntime) -> io::Result<ExitCode> {
    let mut words = std::env::args(&rt)?;
    let path = words.next();
    let path = match &path {
        Some(path) => path.as_str(),
        None => "",
    };
    let name = match path.rsplit_once('/') {
        Some((_, name)) => name,
        None => path,
    };
%s    eprintln!(rt; "every_program: {name:?} is none of its programs; call it by a link that has a program's name")?;
    Ok(ExitCode::FAILURE)
}
"""
# How to end with what a program's `main` answers.
ENDS = {"ExitCode": "return Ok(%s::main(rt));", "io::Result<()>": "%s::main(rt)?;\n        return Ok(ExitCode::SUCCESS);",
        "io::Result<ExitCode>": "return %s::main(rt);"}


def programs():
    """Yields the name of each crate of crates.txt that is a program, and what its `main` answers."""
    with open(TOP + "/crates.txt", encoding="utf-8") as f:
        names = re.findall(r"^(\w+)[ :]", f.read(), re.M)
    for name in names:
        path = "%s/crates/%s/src/main.rt" % (TOP, name)
        if os.path.exists(path):
            with open(path, encoding="utf-8") as f:
                yield name, re.search(r"^fn main\(rt: HostRuntime\) -> (.*) \{$", f.read(), re.M)[1]


def lay_out(room):
    """Lays out in ROOM a repository with each program as a library, and the one above them; returns the folder of that one."""
    found = dict(programs())
    os.mkdir(room + "/crates")
    for name in os.listdir(TOP + "/crates"):
        folder = "%s/crates/%s" % (room, name)
        shutil.copytree("%s/crates/%s/src" % (TOP, name), folder + "/src")
        if name not in found:
            continue
        src = folder + "/src"
        os.rename(src + "/main.rt", src + "/lib.rt")
        with open(src + "/lib.rt", encoding="utf-8") as f:
            text = f.read()
        with open(src + "/lib.rt", "w", encoding="utf-8") as f:
            f.write(re.sub(r"^fn main\(", "pub fn main(", text, flags=re.M))
    with open(TOP + "/crates.txt", encoding="utf-8") as f:
        text = f.read()
    with open(room + "/crates.txt", "w", encoding="utf-8") as f:
        f.write("%s%s: %s\n" % (text, NAME, " ".join(found)))
    os.makedirs("%s/crates/%s/src" % (room, NAME))
    with open("%s/crates/%s/src/main.rt" % (room, NAME), "w", encoding="utf-8") as f:
        f.write(MAIN % "".join('    if name == "%s" {\n        %s\n    }\n' % (name, ENDS[answer] % name)
                               for name, answer in found.items()))
    return "%s/crates/%s" % (room, NAME)


def main(out):
    with tempfile.TemporaryDirectory(prefix="every-program-") as room:
        folder = lay_out(room)
        status = subprocess.call([sys.executable, TOP + "/tools/bench/unchecked.py", folder, os.path.abspath(out), "-O0"])
    sys.exit(status)


if __name__ == "__main__":
    if len(sys.argv) != 2:
        sys.exit(__doc__)
    main(sys.argv[1])
