"""A repository beside this one, with a crate of its own over copies of the libraries, as README.md tells it."""
import os
import shutil
import subprocess
import sys

TOP = os.path.dirname(os.path.dirname(os.path.dirname(os.path.realpath(__file__))))


def run(command, folder, **options):
    """Runs a command, and returns what it prints; ends with what it says where it fails."""
    ran = subprocess.run(command, cwd=folder, capture_output=True, text=True, **options)
    if ran.returncode:
        sys.exit(ran.stdout + ran.stderr)
    return ran.stdout


def built(room):
    """Builds toml_impls without proofs; returns its path."""
    program = room + "/toml_impls"
    run([sys.executable, TOP + "/tools/bench/unchecked.py", TOP + "/crates/toml_impls", program, "-O0"], TOP)
    return program


def copied(top):
    """Makes the repository, in which my_server is a copy of load_settings; returns the path of its settings."""
    names = [name for name in os.listdir(TOP + "/crates") if name.startswith("basic_toml")]
    for name in names:
        shutil.copytree("%s/crates/%s" % (TOP, name), "%s/crates/%s" % (top, name))
    shutil.copytree(TOP + "/crates/load_settings", top + "/crates/my_server", ignore=shutil.ignore_patterns("out"))
    with open(TOP + "/crates.txt", encoding="utf-8") as file:
        lines = [line for line in file if line.startswith("basic_toml")]
    with open(top + "/crates.txt", "w", encoding="utf-8") as file:
        file.write("".join(lines) + "my_server: basic_toml_typed basic_toml basic_toml_returns\n")
    shutil.copy(TOP + "/HANDLES", top + "/HANDLES")
    return top + "/crates/my_server/src/settings.rt"
