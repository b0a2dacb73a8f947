#!/usr/bin/env python3
"""tidy.py LIBRARY: as the program of tidy.c, in Python, by the shared library."""
import sys

sys.dont_write_bytecode = True
import basic_toml  # noqa: E402


def main():
    try:
        text = basic_toml.Library(sys.argv[1]).tidy(sys.stdin.buffer.read())
    except MemoryError:
        print("out of memory", file=sys.stderr)
        return basic_toml.OUT_OF_MEMORY
    except basic_toml.Error as error:
        where = "line {}, column {}: ".format(*(at + 1 for at in error.line_col)) if error.line_col else ""
        print(f"{where}{error}", file=sys.stderr)
        return error.status
    sys.stdout.buffer.write(text)
    return basic_toml.DONE


if __name__ == "__main__":
    sys.exit(main())
