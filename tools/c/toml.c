/* toml check | get PATH | json [--tagged]: reads a TOML text from standard input, and says what is wrong with it, what
   stands at a path, or all of it as JSON. It ends with the status of the call, or with 5 where its words are none of
   these. */
#include "basic_toml.h"
#include "read_all.h"

#include <string.h>

/* Memory for an answer. */
struct room {
    uint8_t *bytes;
    size_t length;
};

/* Makes room for a text of this length: whether there is. */
static bool make_room(struct room *room, size_t length)
{
    uint8_t *more = realloc(room->bytes, length);
    if (!more)
        return false;
    room->bytes = more;
    room->length = length;
    return true;
}

static int out_of_memory(void)
{
    fputs("out of memory\n", stderr);
    return TOML_OUT_OF_MEMORY;
}

/* Writes a text and a line feed: the status, or that memory failed where it was not written. */
static int line_out(FILE *file, const struct room *room, size_t length, int status)
{
    if (fwrite(room->bytes, 1, length, file) < length || fputc('\n', file) == EOF || fflush(file))
        return TOML_OUT_OF_MEMORY;
    return status;
}

static void place_out(bool has_place, size_t line, size_t column)
{
    if (has_place)
        fprintf(stderr, "line %zu, column %zu: ", line + 1, column + 1);
}

static int check(const uint8_t *input, size_t length, struct room *message, struct room *keys)
{
    struct toml_finding found;
    for (;;) {
        found = toml_c_check(input, length, message->bytes, message->length, keys->bytes, keys->length);
        if (found.message_length <= message->length && found.key_path_length <= keys->length)
            break;
        if (found.message_length > message->length && !make_room(message, found.message_length))
            return out_of_memory();
        if (found.key_path_length > keys->length && !make_room(keys, found.key_path_length))
            return out_of_memory();
    }
    if (found.status == TOML_OUT_OF_MEMORY)
        return out_of_memory();
    if (found.status == TOML_REFUSED) {
        place_out(found.has_place, found.origin_line, found.origin_column);
        line_out(stderr, message, found.message_length, 0);
        if (found.key_path_length > 0) {
            fputs("within ", stderr);
            line_out(stderr, keys, found.key_path_length, 0);
        }
        if (found.has_other)
            fprintf(stderr, "first defined at line %zu, column %zu\n", found.other_line + 1, found.other_column + 1);
    }
    return (int)found.status;
}

static int get(const uint8_t *input, size_t length, const char *path, struct room *text)
{
    static const char *const kinds[] = {"none", "string", "integer", "float", "boolean", "array", "table"};
    const uint8_t *words = (const uint8_t *)path;
    struct toml_value value = toml_c_get(input, length, words, strlen(path), text->bytes, text->length);
    while (value.length > text->length) {
        if (!make_room(text, value.length))
            return out_of_memory();
        value = toml_c_get(input, length, words, strlen(path), text->bytes, text->length);
    }
    switch (value.status) {
    case TOML_DONE:
        printf("%s ", kinds[value.kind]);
        if (value.kind != TOML_ARRAY && value.kind != TOML_TABLE)
            return line_out(stdout, text, value.length, TOML_DONE);
        printf("of %zu\n", value.count);
        return fflush(stdout) ? TOML_OUT_OF_MEMORY : TOML_DONE;
    case TOML_REFUSED:
        fputs("the text is refused\n", stderr);
        break;
    case TOML_NOT_FOUND:
        fputs("nothing stands there\n", stderr);
        break;
    case TOML_NO_PATH:
        fputs("that is no path\n", stderr);
        break;
    default:
        return out_of_memory();
    }
    return (int)value.status;
}

static int json(const uint8_t *input, size_t length, bool is_tagged, struct room *text)
{
    struct toml_answer answer = toml_c_json(input, length, is_tagged, text->bytes, text->length);
    while (answer.length > text->length) {
        if (!make_room(text, answer.length))
            return out_of_memory();
        answer = toml_c_json(input, length, is_tagged, text->bytes, text->length);
    }
    if (answer.status == TOML_OUT_OF_MEMORY)
        return out_of_memory();
    if (answer.status == TOML_DONE)
        return line_out(stdout, text, answer.length, TOML_DONE);
    place_out(answer.has_place, answer.line, answer.column);
    line_out(stderr, text, answer.length, 0);
    return (int)answer.status;
}

int main(int count, char **words)
{
    size_t length;
    int status = 5;
    struct room text = {NULL, 0}, keys = {NULL, 0};
    uint8_t *input;
    /* All is moved in large pieces, so that buffers would only take memory. */
    setvbuf(stdin, NULL, _IONBF, 0);
    setvbuf(stdout, NULL, _IONBF, 0);
    input = read_all(stdin, &length);
    if (!input || !make_room(&text, 16) || !make_room(&keys, 4))
        status = out_of_memory();
    else if (count == 2 && !strcmp(words[1], "check"))
        status = check(input, length, &text, &keys);
    else if (count == 3 && !strcmp(words[1], "get"))
        status = get(input, length, words[2], &text);
    else if (count == 2 && !strcmp(words[1], "json"))
        status = json(input, length, false, &text);
    else if (count == 3 && !strcmp(words[1], "json") && !strcmp(words[2], "--tagged"))
        status = json(input, length, true, &text);
    else
        fputs("usage: toml check | get PATH | json [--tagged] < FILE\n", stderr);
    free(input);
    free(text.bytes);
    free(keys.bytes);
    return status;
}
