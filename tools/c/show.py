#!/usr/bin/env python3
"""show.py LIBRARY: what the calls of basic_toml.py answer to a manifest."""
import sys

sys.dont_write_bytecode = True
import basic_toml  # noqa: E402

MANIFEST = """
name = "example"
edition = 2021

[dependencies]
serde = {version = "1.0", optional = true}

[[bin]]
name = "one"
[[bin]]
name = "two"
weight = 1.50
"""
WRONG = "[a]\nb.c = 1\nb.c = 2\n"


def main():
    toml = basic_toml.Library(sys.argv[1])
    print(toml.loads(MANIFEST))
    for path in ("name", "dependencies.serde.version", "dependencies.serde.optional", "bin[1].weight", "bin", ""):
        print(repr(path), "is", repr(toml.get(MANIFEST, path)))
    for path in ("dependencies.toml", "bin[two]"):
        try:
            toml.get(MANIFEST, path)
        except (KeyError, ValueError) as error:
            print(repr(path), "is none:", repr(error))
    print("wrong:", toml.check(MANIFEST))
    error = toml.check(WRONG)
    print("wrong:", error, "within", error.key_path, "at", error.origin, "and before it at", error.other)


if __name__ == "__main__":
    main()
