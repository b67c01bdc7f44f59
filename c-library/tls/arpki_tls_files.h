/* arpki_tls_files.h: the two files that a client of arpki_tls.h is given, as docs/FORMATS.md has them. */
#ifndef ARPKI_TLS_FILES_H
#define ARPKI_TLS_FILES_H

#include <arpki.h>

#ifdef __cplusplus
extern "C" {
#endif

/* A directory: the keys of its logs and authorities, of generation 0, which `keys` lends. Nothing is learnt. */
typedef struct arpki_tls_directory {
    arpki_key logs[16], authorities[16];
    arpki_keys keys;
} arpki_tls_directory;

/* Reads the lines of a directory, from `logs` to the last `key`. 1: read; 0: they are none. The struct must not be moved. */
int arpki_tls_read_directory(const char *text, size_t len, arpki_tls_directory *directory);

/* Reads a schedule. 1: read; 0: it is none. */
int arpki_tls_read_schedule(const char *text, size_t len, uint64_t *zero, uint64_t *length, uint64_t *age);

#ifdef __cplusplus
}
#endif

#endif
