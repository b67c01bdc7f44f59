/* Reads a directory and a schedule (arpki_tls_files.h). */
#include "arpki_tls_files.h"

#include <string.h>

typedef struct text {
    const char *at, *end;
} text;

static int take_word(text *from, const char *word)
{
    size_t len = strlen(word);
    if ((size_t)(from->end - from->at) < len || memcmp(from->at, word, len) != 0)
        return 0;
    from->at += len;
    return 1;
}

/* A number without leading zeros, below 2^53. */
static int take_number(text *from, uint64_t *number)
{
    const char *first = from->at;
    *number = 0;
    while (from->at < from->end && *from->at >= '0' && *from->at <= '9') {
        *number = *number * 10 + (uint64_t)(*from->at++ - '0');
        if (*number >> 53 != 0)
            return 0;
    }
    return from->at > first && (from->at == first + 1 || *first != '0');
}

static int digit(char c)
{
    return c >= '0' && c <= '9' ? c - '0' : c >= 'a' && c <= 'f' ? c - 'a' + 10 : -1;
}

static int take_key(text *from, arpki_key *key)
{
    if (!take_word(from, "key ") || from->end - from->at < 2 * ARPKI_KEY_SIZE)
        return 0;
    for (size_t i = 0; i < ARPKI_KEY_SIZE; i++, from->at += 2) {
        int high = digit(from->at[0]), low = digit(from->at[1]);
        if (high < 0 || low < 0)
            return 0;
        key->bytes[i] = (uint8_t)(high << 4 | low);
    }
    return take_word(from, "\n");
}

static int take_keys(text *from, uint64_t count, arpki_key *keys)
{
    for (uint64_t i = 0; i < count; i++)
        if (!take_key(from, &keys[i]))
            return 0;
    return 1;
}

int arpki_tls_read_directory(const char *at, size_t len, arpki_tls_directory *d)
{
    static const arpki_entry nothing[1];
    text from = {at, at + len};
    uint64_t logs, quorum, authorities;
    memset(d, 0, sizeof *d);
    if (!take_word(&from, "logs ") || !take_number(&from, &logs) || !take_word(&from, " ") || !take_number(&from, &quorum)
        || !take_word(&from, "\n") || logs > 16 || !take_keys(&from, logs, d->logs) || !take_word(&from, "authorities ")
        || !take_number(&from, &authorities) || !take_word(&from, "\n") || authorities > 16
        || !take_keys(&from, authorities, d->authorities))
        return 0;
    d->keys = (arpki_keys){d->logs, (size_t)logs, d->authorities, (size_t)authorities, nothing, 0, (size_t)quorum};
    return from.at == from.end;
}

int arpki_tls_read_schedule(const char *at, size_t len, uint64_t *zero, uint64_t *length, uint64_t *age)
{
    text from = {at, at + len};
    uint64_t grace;
    return take_word(&from, "zero ") && take_number(&from, zero) && take_word(&from, "\nlength ") && take_number(&from, length)
           && take_word(&from, "\ngrace ") && take_number(&from, &grace) && take_word(&from, "\nage ") && take_number(&from, age)
           && take_word(&from, "\n") && from.at == from.end && *length >= 1000 && grace >= 100 && grace + grace / 4 <= *length && *age >= 1;
}
