/* The question of examples/check/accepted.in, which is read from the file that a test is called with. */
#ifndef ACCEPTED_H
#define ACCEPTED_H

#include <arpki.h>

#include <stdio.h>
#include <stdlib.h>
#include <string.h>

struct question {
    arpki_key logs[3], authorities[3];
    uint8_t confirmation[8192];
    size_t confirmation_len;
};

/* The bytes of a word of hex, at most so many. */
static inline size_t bytes_of(const char *hex, uint8_t *at, size_t most)
{
    size_t len = 0;
    unsigned value;
    while (len < most && sscanf(hex + 2 * len, "%2x", &value) == 1)
        at[len++] = (uint8_t)value;
    return len;
}

/* Reads the question: six keys, the logs' first, and the confirmation. */
static inline int read_question(const char *path, struct question *question)
{
    static char line[20000];
    int keys = 0;
    FILE *file = fopen(path, "r");
    if (!file)
        return 0;
    question->confirmation_len = 0;
    while (fgets(line, sizeof line, file)) {
        if (strncmp(line, "key ", 4) == 0 && keys < 6) {
            arpki_key *key = keys < 3 ? &question->logs[keys] : &question->authorities[keys - 3];
            bytes_of(line + 4, key->bytes, sizeof key->bytes);
            keys++;
        }
        if (strncmp(line, "confirmation ", 13) == 0)
            question->confirmation_len =
                bytes_of(line + 13, question->confirmation, sizeof question->confirmation);
    }
    fclose(file);
    return keys == 6 && question->confirmation_len != 0;
}

/* What is trusted: the keys of the question, and nothing that was learnt. */
static inline arpki_keys keys_of(const struct question *question)
{
    static const arpki_entry none = {0, 0, 0, {{0}}};
    arpki_keys keys;
    keys.logs = question->logs;
    keys.logs_len = 3;
    keys.authorities = question->authorities;
    keys.authorities_len = 3;
    keys.learnt = &none;
    keys.learnt_len = 0;
    keys.quorum = 3;
    return keys;
}

/* What is asked of it: about a.example, in an epoch, at an age of 4. */
static inline arpki_question asked_in(const struct question *question, uint64_t epoch)
{
    static const uint8_t name[] = {'a', '.', 'e', 'x', 'a', 'm', 'p', 'l', 'e'};
    arpki_question asked;
    asked.name = name;
    asked.name_len = sizeof name;
    asked.confirmation = question->confirmation;
    asked.confirmation_len = question->confirmation_len;
    asked.epoch = epoch;
    asked.age = 4;
    return asked;
}

#endif
