/* How the programs read their input. */
#ifndef READ_ALL_H
#define READ_ALL_H

#include <stdint.h>
#include <stdio.h>
#include <stdlib.h>

/* All of a file, in memory that the caller frees; NULL where reading or memory failed. */
static uint8_t *read_all(FILE *file, size_t *length)
{
    size_t room = 4096, got;
    uint8_t *bytes = malloc(room), *more;
    *length = 0;
    while (bytes && (got = fread(bytes + *length, 1, room - *length, file)) > 0) {
        *length += got;
        if (*length < room)
            continue;
        room *= 2;
        if (!(more = realloc(bytes, room)))
            free(bytes);
        bytes = more;
    }
    if (bytes && ferror(file)) {
        free(bytes);
        bytes = NULL;
    }
    return bytes;
}

#endif
