/* tidy: reads a TOML text from standard input and writes its data anew to standard output, or says on standard error
   what is wrong, and where. It ends with the answer's status. */
#include "basic_toml.h"
#include "read_all.h"

int main(void)
{
    size_t length, room = 64;
    struct toml_answer answer = {.status = TOML_OUT_OF_MEMORY};
    uint8_t *input, *output, *more;
    /* Both are moved in large pieces, so that buffers would only take memory. */
    setvbuf(stdin, NULL, _IONBF, 0);
    setvbuf(stdout, NULL, _IONBF, 0);
    input = read_all(stdin, &length);
    output = malloc(room);
    if (input && output)
        answer = toml_c_tidy(input, length, output, room);
    while (answer.length > room) {
        room = answer.length;
        if (!(more = realloc(output, room))) {
            answer = (struct toml_answer){.status = TOML_OUT_OF_MEMORY};
            break;
        }
        output = more;
        answer = toml_c_tidy(input, length, output, room);
    }
    if (answer.status == TOML_DONE) {
        if (fwrite(output, 1, answer.length, stdout) < answer.length || fflush(stdout))
            answer.status = TOML_OUT_OF_MEMORY;
    } else if (answer.status == TOML_OUT_OF_MEMORY) {
        fputs("out of memory\n", stderr);
    } else {
        if (answer.has_place)
            fprintf(stderr, "line %zu, column %zu: ", answer.line + 1, answer.column + 1);
        fwrite(output, 1, answer.length, stderr);
        fputc('\n', stderr);
    }
    free(input);
    free(output);
    return (int)answer.status;
}
