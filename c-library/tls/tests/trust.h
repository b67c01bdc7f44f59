/* What the programs of this folder read: whole files, and a directory. */
#ifndef TRUST_H
#define TRUST_H

#include "arpki_tls_files.h"

#include <stdio.h>
#include <stdlib.h>
#include <string.h>

/* The bytes of a file, in a block of malloc with a zero behind them. NULL: it cannot be read. */
static inline uint8_t *read_file(const char *path, size_t *len)
{
    FILE *file = fopen(path, "rb");
    uint8_t *data = NULL;
    long size;
    *len = 0;
    if (file == NULL)
        return NULL;
    if (fseek(file, 0, SEEK_END) == 0 && (size = ftell(file)) >= 0 && fseek(file, 0, SEEK_SET) == 0
        && (data = malloc((size_t)size + 1)) != NULL) {
        *len = fread(data, 1, (size_t)size, file);
        data[*len] = 0;
    }
    fclose(file);
    return data;
}

/* Reads a directory's file. 1: read. */
static inline int read_directory(const char *path, arpki_tls_directory *directory)
{
    size_t len;
    uint8_t *text = read_file(path, &len);
    int done = text != NULL && arpki_tls_read_directory((const char *)text, len, directory);
    free(text);
    return done;
}

#endif
