"""Builds the programs of this folder: ours over `basic_toml_serde`, without proofs, and those over Rust's serde.

What is built stays in DERIVED_OUT (default: `basic_toml_derived` in the folder for temporary files), and is built anew
where a source that it is made from has changed.
"""
import hashlib
import os
import re
import shutil
import subprocess
import sys
import tempfile

HERE = os.path.dirname(os.path.realpath(__file__))
TOP = os.path.dirname(os.path.dirname(HERE))
OUT = os.environ.get("DERIVED_OUT") or os.path.join(tempfile.gettempdir(), "basic_toml_derived")
REGISTRY = "/usr/share/cargo/registry"  # of Debian's packages of Rust libraries
PACKAGES = ("librust-serde-dev", "librust-serde-derive-dev")


def text_of(name):
    with open(os.path.join(HERE, name), encoding="utf-8") as file:
        return file.read()


def is_newest(program, key):
    """Answers whether a program was built of these sources, and if not, forgets it."""
    stamp = program + ".key"
    if os.path.exists(program) and os.path.exists(stamp) and open(stamp).read() == key:
        return True
    for path in (program, stamp):
        if os.path.exists(path):
            os.remove(path)
    return False


def key_of(sources, *words):
    digest = hashlib.sha256("\0".join(words).encode())
    for name in sorted(sources):
        digest.update(name.encode() + b"\0" + sources[name].encode() + b"\0")
    return digest.hexdigest()


def written(folder, sources):
    for name, text in sources.items():
        path = os.path.join(folder, name)
        os.makedirs(os.path.dirname(path), exist_ok=True)
        with open(path, "w", encoding="utf-8") as file:
            file.write(text)


def libraries(crates):
    """Answers these libraries and those that they stand on, lowest last."""
    needs = {}
    with open(os.path.join(TOP, "crates.txt"), encoding="utf-8") as lines:
        for line in lines:
            name, _, below = line.partition(":")
            if not line.startswith("#"):
                needs[name.split(" ")[0]] = below.split()
    names, found = crates.split(), []
    while names:
        name = names.pop()
        if name in needs and name not in found:
            found.append(name)
            names += needs[name]
    return found


def sources_of(crates):
    """Answers the files of these crates, but for what `rt` makes there."""
    sources = {}
    for crate in crates:
        for part in ("src", "specs", "proofs"):
            for folder, _, files in os.walk(os.path.join(TOP, "crates", crate, part)):
                for file in files:
                    path = os.path.join(folder, file)
                    with open(path, encoding="utf-8") as text:
                        sources[os.path.relpath(path, TOP)] = text.read()
    return sources


def laid_out(tree, sources):
    """Makes the files of a tree these, and leaves what `rt` keeps beside them."""
    for folder, _, files in os.walk(tree):
        for file in files:
            path = os.path.join(folder, file)
            if file.endswith((".rt", ".antt")) and "/out/" not in path and os.path.relpath(path, tree) not in sources:
                os.remove(path)
    for name, text in sources.items():
        path = os.path.join(tree, name)
        if not os.path.exists(path) or open(path, encoding="utf-8").read() != text:
            written(tree, {name: text})


def ours(name, sources, *level, crates="basic_toml_serde basic_toml serde"):
    """Builds a program over these crates of these files of its src/, without proofs, `-O0` or optimized."""
    program = os.path.join(OUT, name + "".join(level or ["-O3"]))
    libraries_below = libraries(crates)
    files = {**sources_of(libraries_below), **{f"crates/{name}/src/{file}": text for file, text in sources.items()}}
    with open(os.path.join(TOP, "crates.txt"), encoding="utf-8") as lines:
        listed = [line for line in lines if line.partition(":")[0] in libraries_below]
    files["crates.txt"] = "".join(listed) + f"{name}: {crates}\n"
    key = key_of(files, *level)
    if is_newest(program, key):
        return program
    tree = os.path.join(OUT, name)
    laid_out(tree, files)
    unchecked = os.path.join(TOP, "tools", "bench", "unchecked.py")
    words = [sys.executable, unchecked, os.path.join(tree, "crates", name), program]
    built = subprocess.run(words + [*level], stdout=subprocess.PIPE, stderr=subprocess.STDOUT)
    if built.returncode or not os.path.exists(program):
        sys.exit(built.stdout.decode(errors="replace")[-4000:] + f"\n{name} is not built")
    with open(program + ".key", "w") as file:
        file.write(key)
    return program


def has_package(name):
    words = ["dpkg", "-s", name]
    return b"install ok" in subprocess.run(words, stdout=subprocess.PIPE, stderr=subprocess.DEVNULL).stdout


def of_rust(text):
    """Takes out what Rust's serde does not have."""
    return re.sub(r" *#\[serde\(recursive\)\]\n", "", text).replace("Drop, ", "")


def theirs(name, sources, basic_toml):
    """Builds a program over Rust's serde and the basic-toml in this folder, optimized, of these files of its src/."""
    program = os.path.join(OUT, name)
    with open(os.path.join(basic_toml, "src", "lib.rs"), encoding="utf-8") as file:
        key = key_of({file: of_rust(text) for file, text in sources.items()}, file.read())
    if is_newest(program, key):
        return program
    for package in PACKAGES:
        if not has_package(package):
            if os.environ.get("NO_APT"):
                sys.exit(f"no package {package}")
            words = ["apt-get", "install", "-y", "--no-install-recommends", package]
            subprocess.run(words, stdout=sys.stderr, check=True)
    folder = os.path.join(OUT, "rust", name)
    shutil.rmtree(folder, ignore_errors=True)
    shutil.copytree(os.path.join(basic_toml, "src"), os.path.join(folder, "basic-toml", "src"))
    written(folder, {
        "Cargo.toml": f'[package]\nname = "{name}"\nversion = "0.1.0"\nedition = "2021"\n[profile.release]\n'
                      'codegen-units = 1\n[dependencies]\nserde = { version = "1", features = ["derive"] }\n'
                      'basic-toml = { path = "basic-toml" }\n',
        "basic-toml/Cargo.toml": '[package]\nname = "basic-toml"\nversion = "0.1.10"\nedition = "2021"\n'
                                 '[dependencies]\nserde = "1"\n',
        ".cargo/config.toml": '[source.crates-io]\nreplace-with = "debian"\n[source.debian]\n'
                              f'directory = "{REGISTRY}"\n',
        **{"src/" + file: of_rust(text) for file, text in sources.items()},
    })
    words = ["cargo", "build", "--release", "--offline", "--quiet"]
    quiet = {**os.environ, "RUSTFLAGS": "-A warnings"}
    if subprocess.run(words, cwd=folder, stdout=sys.stderr, env=quiet).returncode:
        sys.exit(f"{name} is not built")
    shutil.copy(os.path.join(folder, "target", "release", name), program)
    with open(program + ".key", "w") as file:
        file.write(key)
    return program
