"""basic_toml for Python, by ctypes.

    toml = basic_toml.Library("libtoml_c.so")
    toml.loads(text)                 # the document as dicts and lists, as `tomllib.loads` answers it
    toml.get(text, "bin[1].name")    # the value at a path
    toml.check(text)                 # what is wrong with it, or None
    toml.tidy(text)                  # the same data written anew

Each takes a text as `str` or `bytes`.
"""
import ctypes
import json
import os

# How a call ended: `enum toml_status` of basic_toml.h. What 2 means the call says.
DONE, REFUSED, NOT_WRITTEN, OUT_OF_MEMORY, NO_PATH = range(5)
NOT_FOUND = NOT_WRITTEN

# What a value is: `enum toml_kind`.
NONE, STRING, INTEGER, FLOAT, BOOLEAN, ARRAY, TABLE = range(7)


class Answer(ctypes.Structure):
    """`struct toml_answer` of basic_toml.h."""

    _fields_ = [
        ("status", ctypes.c_uint32),
        ("has_place", ctypes.c_bool),
        ("line", ctypes.c_size_t),
        ("column", ctypes.c_size_t),
        ("length", ctypes.c_size_t),
    ]


class Finding(ctypes.Structure):
    """`struct toml_finding` of basic_toml.h."""

    _fields_ = [
        ("status", ctypes.c_uint32),
        ("has_place", ctypes.c_bool),
        ("line", ctypes.c_size_t),
        ("column", ctypes.c_size_t),
        ("origin_line", ctypes.c_size_t),
        ("origin_column", ctypes.c_size_t),
        ("has_other", ctypes.c_bool),
        ("other_line", ctypes.c_size_t),
        ("other_column", ctypes.c_size_t),
        ("message_length", ctypes.c_size_t),
        ("key_path_length", ctypes.c_size_t),
    ]


class Value(ctypes.Structure):
    """`struct toml_value` of basic_toml.h."""

    _fields_ = [
        ("status", ctypes.c_uint32),
        ("kind", ctypes.c_uint32),
        ("number", ctypes.c_int64),
        ("count", ctypes.c_size_t),
        ("length", ctypes.c_size_t),
    ]


class Error(ValueError):
    """A text that was refused or cannot be written: the status, the message, and where the error has a place its line
    and column, from 0. An error of `check` has its keys apart, with periods between them; the line and the column where
    what it is about is written; and of a clash those of the key, header or value that stands first."""

    def __init__(self, status, message, line_col, key_path="", origin=None, other=None):
        super().__init__(message)
        self.status, self.line_col, self.key_path = status, line_col, key_path
        self.origin, self.other = origin, other


def place(answer):
    return (answer.line, answer.column) if answer.has_place else None


def in_bytes(text):
    return text.encode() if isinstance(text, str) else text


def memory(room):
    return ctypes.create_string_buffer(b"\xff" * room, max(room, 1))


class Library:
    """The calls of the shared library that this file is."""

    def __init__(self, file):
        it = ctypes.CDLL(os.path.abspath(file))
        part = [ctypes.c_char_p, ctypes.c_size_t]
        self.call_tidy = self.named(it.toml_c_tidy, Answer, 2 * part)
        self.call_tidy_rows_first = self.named(it.toml_c_tidy_rows_first, Answer, 2 * part)
        self.call_json = self.named(it.toml_c_json, Answer, [*part, ctypes.c_bool, *part])
        self.call_check = self.named(it.toml_c_check, Finding, 3 * part)
        self.call_get = self.named(it.toml_c_get, Value, 3 * part)

    @staticmethod
    def named(call, answer, arguments):
        call.restype, call.argtypes = answer, arguments
        return call

    def answer(self, text, room, rows_first=False):
        """The answer of `toml_c_tidy`, or of `toml_c_tidy_rows_first`, to some bytes, and all the memory that was there
        to write to."""
        output = memory(room)
        call = self.call_tidy_rows_first if rows_first else self.call_tidy
        return call(text, len(text), output, room), output.raw[:room]

    def json_answer(self, text, is_tagged, room):
        output = memory(room)
        return self.call_json(text, len(text), is_tagged, output, room), output.raw[:room]

    def get_answer(self, text, path, room):
        output = memory(room)
        return self.call_get(text, len(text), path, len(path), output, room), output.raw[:room]

    def check_answer(self, text, room, keys_room):
        message, keys = memory(room), memory(keys_room)
        found = self.call_check(text, len(text), message, room, keys, keys_room)
        return found, message.raw[:room], keys.raw[:keys_room]

    @staticmethod
    def whole(ask):
        """What a call answers that is given room enough, with its text."""
        answer, written = ask(256)
        if answer.length > len(written):
            answer, written = ask(answer.length)
        if answer.status == OUT_OF_MEMORY:
            raise MemoryError
        return answer, written[: answer.length]

    def written(self, ask):
        answer, text = self.whole(ask)
        if answer.status != DONE:
            raise Error(answer.status, text.decode(), place(answer))
        return text

    def tidy(self, text, rows_first=False):
        """The bytes of a text written anew, with the rows of each table first or in the order of the text; an Error, or
        a MemoryError."""
        text = in_bytes(text)
        return self.written(lambda room: self.answer(text, room, rows_first))

    def json(self, text, is_tagged=False):
        """The JSON of a text, in bytes; an Error, or a MemoryError."""
        text = in_bytes(text)
        return self.written(lambda room: self.json_answer(text, is_tagged, room))

    def loads(self, text):
        """The document as a dict, as `tomllib.loads` answers it, but for `inf` and `nan`, which are strings; an Error,
        or a MemoryError."""
        return json.loads(self.json(text))

    def check(self, text):
        """What is wrong with a text, as an Error with its key path; None where it is TOML."""
        text = in_bytes(text)
        found, message, keys = self.check_answer(text, 256, 256)
        if found.message_length > 256 or found.key_path_length > 256:
            found, message, keys = self.check_answer(text, found.message_length, found.key_path_length)
        if found.status == OUT_OF_MEMORY:
            raise MemoryError
        if found.status == DONE:
            return None
        message, keys = message[: found.message_length], keys[: found.key_path_length]
        origin = (found.origin_line, found.origin_column) if found.has_place else None
        other = (found.other_line, found.other_column) if found.has_other else None
        return Error(found.status, message.decode(), place(found), keys.decode(), origin, other)

    def get(self, text, path):
        """The value at a path: a str, an int, a float or a bool; of an array or a table how many elements or keys it
        has, as a tuple of its kind and that number. A KeyError where nothing stands there, a ValueError of a malformed
        path, else an Error or a MemoryError."""
        text, path = in_bytes(text), in_bytes(path)
        value, written = self.whole(lambda room: self.get_answer(text, path, room))
        if value.status == NOT_FOUND:
            raise KeyError(path.decode())
        if value.status == NO_PATH:
            raise ValueError(f"malformed path: {path!r}")
        if value.status != DONE:
            raise self.check(text)
        if value.kind == STRING:
            return written.decode()
        if value.kind == FLOAT:
            return float(written)
        if value.kind == BOOLEAN:
            return bool(value.number)
        if value.kind == INTEGER:
            return value.number
        return ("array" if value.kind == ARRAY else "table", value.count)
