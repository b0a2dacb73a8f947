/* basic_toml for programs in C.

   A call keeps nothing: what it gives stands in its answer and in memory of the caller's, and calls may be made from
   several threads at once. Memory that a call takes for itself, by malloc, is given back before it returns. */
#ifndef BASIC_TOML_H
#define BASIC_TOML_H

#include <stdbool.h>
#include <stddef.h>
#include <stdint.h>

#ifdef __cplusplus
extern "C" {
#endif

/* How a call ended. */
enum toml_status {
    TOML_DONE = 0,          /* what was asked for was done: the text is TOML, was written, or holds the value */
    TOML_REFUSED = 1,       /* the text was refused: it is no TOML, or its keys and tables clash */
    TOML_NOT_WRITTEN = 2,   /* toml_c_tidy: the text was read, and its table cannot be written in its order */
    TOML_NOT_FOUND = 2,     /* toml_c_get: nothing stands at the path */
    TOML_OUT_OF_MEMORY = 3, /* memory was refused */
    TOML_NO_PATH = 4,       /* toml_c_get: the path is malformed */
};

/* What came of a text. */
struct toml_answer {
    uint32_t status; /* one of enum toml_status */
    bool has_place;  /* whether it is an error that stands at a line and a column */
    size_t line;     /* from 0; else 0 */
    size_t column;   /* from 0 and in bytes; else 0 */
    size_t length;   /* how many bytes the text or the message has, whether or not there was room for them */
};

/* In every call a text and the memory for an answer come as a pointer and a length. No pointer is null, also where its
   length is 0, and no memory that is written to overlaps another. A text goes to the front of the memory for it: as
   much of it as there is room for, in UTF-8 and with no byte 0 behind it; the bytes behind it stay as they were. A
   length in the answer above that of the memory asks for another call, with more room. With TOML_OUT_OF_MEMORY nothing
   is written. Input that is not UTF-8 is refused. */

/* Reads a TOML text and writes its data anew: to `output` goes the text written anew, or, with TOML_REFUSED and
   TOML_NOT_WRITTEN, the error's message with its keys and its place. */
struct toml_answer toml_c_tidy(const uint8_t *input, size_t input_length, uint8_t *output, size_t output_length);

/* The same, with the rows of each table before its sections: so every text that is read is written, and the status is
   never TOML_NOT_WRITTEN. */
struct toml_answer toml_c_tidy_rows_first(const uint8_t *input, size_t input_length, uint8_t *output,
                                          size_t output_length);

/* Reads a TOML text and writes its data as JSON, on one line, the keys in the order of the text: `inf` and `nan` as
   strings, and with `is_tagged` each scalar with its type, as {"type":"integer","value":"80"}. To `output` goes the
   JSON, or, with TOML_REFUSED, the error's message with its keys and its place. */
struct toml_answer toml_c_json(const uint8_t *input, size_t input_length, bool is_tagged, uint8_t *output,
                               size_t output_length);

/* What is wrong with a text. */
struct toml_finding {
    uint32_t status;        /* TOML_DONE, TOML_REFUSED or TOML_OUT_OF_MEMORY */
    bool has_place;         /* whether it stands at a line and a column: all do but bytes that are no text */
    size_t line;            /* from 0; else 0 */
    size_t column;          /* from 0 and in bytes; else 0 */
    size_t origin_line;     /* where what it is about is written: of a clash the later key or header, else its place */
    size_t origin_column;   /* likewise, from 0 and in bytes; else 0 */
    bool has_other;         /* whether it is a clash: a key, a header or a value that stands first has a place too */
    size_t other_line;      /* that of what stands first, from 0; else 0 */
    size_t other_column;    /* likewise, from 0 and in bytes; else 0 */
    size_t message_length;  /* how many bytes the message has */
    size_t key_path_length; /* how many bytes the keys that lead there have; 0 where there are none */
};

/* Reads a TOML text and says what is wrong with it. With TOML_REFUSED the message goes to `message`, and the keys that
   lead to the error to `key_path`, with periods between them: `duplicate key: `b`` and `a` for "[a]\nb = 1\nb = 2".
   Else nothing is written. */
struct toml_finding toml_c_check(const uint8_t *input, size_t input_length, uint8_t *message, size_t message_room,
                                 uint8_t *key_path, size_t key_path_room);

/* What a value is. */
enum toml_kind {
    TOML_NONE = 0, /* no value was found */
    TOML_STRING = 1,
    TOML_INTEGER = 2,
    TOML_FLOAT = 3,
    TOML_BOOLEAN = 4,
    TOML_ARRAY = 5,
    TOML_TABLE = 6,
};

/* The value at a path. */
struct toml_value {
    uint32_t status; /* TOML_DONE, TOML_REFUSED, TOML_NOT_FOUND, TOML_OUT_OF_MEMORY or TOML_NO_PATH */
    uint32_t kind;   /* one of enum toml_kind */
    int64_t number;  /* an integer; 1 for true; else 0 */
    size_t count;    /* how many elements or keys an array or a table has; else 0 */
    size_t length;   /* how many bytes its text has */
};

/* Reads a TOML text and finds the value at a path: a key, and then keys behind periods and numbers of elements between
   brackets, counted from 0, as dependencies.serde.version or bin[1].name. Keys are TOML's, bare or in quotes; no blanks
   stand between. The empty path leads to the whole table. A malformed path is told before the text is read, and
   what is wrong with a text toml_c_check tells.

   The text of a scalar goes to `output`: a string's text, a float's as it is written, an integer's decimal, `true` or
   `false`. An array and a table have none. Where nothing was found, nothing is written. */
struct toml_value toml_c_get(const uint8_t *input, size_t input_length, const uint8_t *path, size_t path_length,
                             uint8_t *output, size_t output_length);

#ifdef __cplusplus
}
#endif

#endif
