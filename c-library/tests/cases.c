/* Answers inputs of `arpki sig`, `arpki check` and `arpki follow` through the library, as these commands do, and inputs of
 * `check` with a line `channel` and a line `staple` behind them, which no command reads: `open ..` or `nopossession <k>`.
 *
 * Each word of the command line is COMMAND:FILE. For each it writes what the command answers to the file's bytes, and then
 * a line `=`. It expects inputs that the commands answer (status 0 or 1), and says `malformed` of what it cannot read. What is
 * pinned it keeps as a program does that uses the library: the bytes of a pin beside each name. */
#include <arpki.h>

#include <inttypes.h>
#include <stdio.h>
#include <stdlib.h>
#include <string.h>

enum { MOST_LINE = 1 << 21, MOST_PARTIES = 16, MOST_ROLLS = 64, MOST_PINS = 64, MOST_NAME = 300 };

struct bytes {
    uint8_t *at;
    size_t len;
};

/* The value of a digit, or -1. */
static int digit(char c)
{
    const char *digits = "0123456789abcdef", *at = c ? strchr(digits, c) : NULL;
    return at ? (int)(at - digits) : -1;
}

/* The bytes that hex spells; `at` is a block of its own also where there are none. */
static int unhex(const char *hex, struct bytes *out)
{
    size_t digits = strlen(hex);
    out->len = digits / 2;
    out->at = malloc(out->len + 1);
    if (!out->at || digits % 2)
        return 0;
    for (size_t i = 0; i < out->len; i++) {
        int high = digit(hex[2 * i]), low = digit(hex[2 * i + 1]);
        if (high < 0 || low < 0)
            return 0;
        out->at[i] = (uint8_t)(16 * high + low);
    }
    return 1;
}

static void print_hex(const uint8_t *at, size_t len)
{
    for (size_t i = 0; i < len; i++)
        printf("%02x", at[i]);
}

/* The next line without its newline; a missing line is empty. */
static const char *next_line(FILE *file, char *line)
{
    line[0] = 0;
    if (fgets(line, MOST_LINE, file))
        line[strcspn(line, "\n")] = 0;
    return line;
}

/* What stands behind a word and a space, where the line begins so. */
static const char *behind(const char *line, const char *word)
{
    size_t len = strlen(word);
    return strncmp(line, word, len) == 0 && line[len] == ' ' ? line + len + 1 : NULL;
}

static int key_of(const char *hex, arpki_key *key)
{
    struct bytes bytes;
    int fits = unhex(hex, &bytes) && bytes.len == ARPKI_KEY_SIZE;
    if (fits)
        memcpy(key->bytes, bytes.at, ARPKI_KEY_SIZE);
    free(bytes.at);
    return fits;
}

/* `sig`: three lines of hex. */
static int answer_sig(FILE *file, char *line)
{
    arpki_key key;
    struct bytes message = {NULL, 0}, signature = {NULL, 0};
    int read = key_of(next_line(file, line), &key) && unhex(next_line(file, line), &message)
               && unhex(next_line(file, line), &signature);
    if (read) {
        uint32_t number = arpki_verify(&key, message.at, message.len, signature.at, signature.len);
        if (number == 0)
            puts("valid");
        else
            printf("invalid %" PRIu32 "\n", number);
    }
    free(message.at);
    free(signature.at);
    return read;
}

/* So many lines `key`. */
static int read_keys(FILE *file, char *line, arpki_key *keys, size_t count)
{
    for (size_t i = 0; i < count; i++) {
        const char *hex = behind(next_line(file, line), "key");
        if (!hex || !key_of(hex, &keys[i]))
            return 0;
    }
    return 1;
}

/* Takes what a RollNote teaches behind the entries of `keys`. */
static int learn(const char *hex, arpki_keys *keys, arpki_entry *entries)
{
    struct bytes note;
    arpki_lesson lesson;
    uint32_t outcome = unhex(hex, &note) ? arpki_learn(keys, note.at, note.len, &lesson) : ARPKI_NO_NOTE;
    free(note.at);
    if (outcome == ARPKI_LEARNT && keys->learnt_len < MOST_ROLLS)
        entries[keys->learnt_len++] = lesson.entry;
    return outcome == ARPKI_LEARNT || outcome == ARPKI_KNOWN;
}

/* The word is what is said of a certificate that is accepted. */
static void print_answer(const char *word, const char *name, const arpki_answer *answer)
{
    switch (answer->outcome) {
    case ARPKI_ACCEPTED:
        printf("%s %s serial %" PRIu64 " epoch %" PRIu64 " root ", word, name, answer->serial, answer->epoch);
        print_hex(answer->root, sizeof answer->root);
        printf(" certificate ");
        print_hex(answer->certificate, sizeof answer->certificate);
        puts("");
        break;
    case ARPKI_ABSENT:
        printf("absent %s epoch %" PRIu64 " root ", name, answer->epoch);
        print_hex(answer->root, sizeof answer->root);
        puts("");
        break;
    case ARPKI_REFUSED:
        printf("refused %" PRIu32 "\n", answer->check);
        break;
    case ARPKI_NO_POSSESSION:
        printf("nopossession %" PRIu32 "\n", answer->check);
        break;
    default:
        printf("outcome %" PRIu32 " %" PRIu32 "\n", answer->outcome, answer->check);
    }
}

/* ---- questions */

struct asked {
    char name[MOST_NAME];
    struct bytes links;
    struct bytes confirmation;
    arpki_question question;
};

/* Puts the bytes that hex spells behind others. */
static int append(const char *hex, struct bytes *bytes)
{
    struct bytes more;
    int read = unhex(hex, &more);
    uint8_t *at = read ? realloc(bytes->at, bytes->len + more.len + 1) : NULL;
    if (at) {
        memcpy(at + bytes->len, more.at, more.len);
        bytes->at = at;
        bytes->len += more.len;
    }
    free(more.at);
    return at != NULL;
}

static int read_number(const char *line, const char *word, uint64_t *number)
{
    const char *field = behind(line, word);
    return field && sscanf(field, "%" SCNu64, number) == 1;
}

/* The lines of a question: `name`, which was read before, `now`, `age`, any number of `link`, and `confirmation`. */
static int read_question(FILE *file, char *line, struct asked *asked)
{
    const char *field = behind(line, "name");
    memset(asked, 0, sizeof *asked);
    if (!field || strlen(field) >= MOST_NAME)
        return 0;
    strcpy(asked->name, field);
    if (!read_number(next_line(file, line), "now", &asked->question.epoch)
        || !read_number(next_line(file, line), "age", &asked->question.age) || !append("", &asked->links))
        return 0;
    while ((field = behind(next_line(file, line), "link")))
        if (!append(field, &asked->links))
            return 0;
    field = behind(line, "confirmation");
    if (!field || !unhex(field, &asked->confirmation))
        return 0;
    asked->question.name = (const uint8_t *)asked->name;
    asked->question.name_len = strlen(asked->name);
    asked->question.confirmation = asked->confirmation.at;
    asked->question.confirmation_len = asked->confirmation.len;
    return 1;
}

static void free_question(struct asked *asked)
{
    free(asked->links.at);
    free(asked->confirmation.at);
}

/* ---- `check` */

/* A question behind the directory. */
static int judge(FILE *file, char *line, const arpki_keys *keys)
{
    struct asked asked;
    arpki_answer answer;
    int read = read_question(file, line, &asked);
    if (read) {
        memset(&answer, 0x5a, sizeof answer);
        uint32_t outcome = arpki_judge(keys, &asked.question, &answer);
        if (outcome == answer.outcome)
            print_answer("accepted", asked.name, &answer);
        else
            puts("another outcome");
    }
    free_question(&asked);
    return read;
}

/* ---- staples */

/* A line of a word and hex. */
static int read_hex(FILE *file, char *line, const char *word, struct bytes *bytes)
{
    const char *field = behind(next_line(file, line), word);
    return field && unhex(field, bytes);
}

/* A question, a channel and a staple behind the directory. */
static int judge_staple(FILE *file, char *line, const arpki_keys *keys)
{
    struct asked asked;
    struct bytes channel = {NULL, 0}, staple = {NULL, 0};
    arpki_answer answer;
    int read = read_question(file, line, &asked) && read_hex(file, line, "channel", &channel)
               && channel.len == ARPKI_CHANNEL_SIZE && read_hex(file, line, "staple", &staple);
    if (read) {
        memset(&answer, 0x5a, sizeof answer);
        uint32_t outcome = arpki_staple(keys, &asked.question, channel.at, staple.at, staple.len, &answer);
        if (outcome == answer.outcome)
            print_answer("open", asked.name, &answer);
        else
            puts("another outcome");
    }
    free(channel.at);
    free(staple.at);
    free_question(&asked);
    return read;
}

/* ---- `follow` */

/* What is pinned of a name. */
struct pin {
    char name[MOST_NAME];
    struct bytes bytes;
};

/* The pin of a name: a new one without bytes where the name has none. */
static struct pin *pin_of(struct pin *pins, size_t *count, const char *name)
{
    for (size_t i = 0; i < *count; i++)
        if (strcmp(pins[i].name, name) == 0)
            return &pins[i];
    if (*count == MOST_PINS)
        return NULL;
    struct pin *pin = &pins[(*count)++];
    strcpy(pin->name, name);
    pin->bytes.len = 0;
    pin->bytes.at = malloc(1);
    return pin->bytes.at ? pin : NULL;
}

/* Keeps what is to be kept. */
static int keep(struct bytes *pin, const struct asked *asked, const arpki_followed *followed)
{
    const uint8_t *more = followed->keep == ARPKI_KEEP_FIRST ? followed->first : asked->links.at;
    size_t len = followed->keep == ARPKI_KEEP_FIRST ? followed->first_len : asked->links.len;
    if (followed->keep == ARPKI_KEEP_NOTHING)
        return 1;
    uint8_t *at = realloc(pin->at, pin->len + len + 1);
    if (!at)
        return 0;
    memcpy(at + pin->len, more, len);
    pin->at = at;
    pin->len += len;
    return 1;
}

static void print_accepted(const arpki_followed *followed)
{
    if (followed->keep == ARPKI_KEEP_FIRST)
        puts("first");
    else if (followed->keep == ARPKI_KEEP_LINKS)
        printf("moved %zu\n", followed->links);
    else
        puts("same");
}

static void print_followed(const arpki_followed *followed)
{
    const char *words[] = {NULL, "absent", NULL, NULL, NULL, NULL, "gone", "nolinks", NULL, NULL, "wrongend", "long", "full"};
    const arpki_answer *answer = &followed->answer;
    if (answer->outcome == ARPKI_ACCEPTED)
        print_accepted(followed);
    else if (answer->outcome == ARPKI_REFUSED)
        printf("refused %" PRIu32 "\n", answer->check);
    else if (answer->outcome == ARPKI_BAD_ENDORSEMENT || answer->outcome == ARPKI_BAD_UPDATE)
        printf("link %zu %c %" PRIu32 "\n", followed->links, answer->outcome == ARPKI_BAD_UPDATE ? 'p' : 'e', answer->check);
    else if (answer->outcome < sizeof words / sizeof *words && words[answer->outcome])
        puts(words[answer->outcome]);
    else
        printf("outcome %" PRIu32 " %" PRIu32 "\n", answer->outcome, answer->check);
}

/* Whether an accepted answer is that of arpki_judge, and another one has no key. */
static int is_plain(const arpki_keys *keys, const struct asked *asked, const arpki_followed *followed)
{
    arpki_answer answer;
    memset(&answer, 0x5a, sizeof answer);
    if (followed->answer.outcome == ARPKI_ACCEPTED)
        return arpki_judge(keys, &asked->question, &answer) == ARPKI_ACCEPTED
               && memcmp(&answer, &followed->answer, sizeof answer) == 0;
    memset(&answer, 0, sizeof answer);
    return followed->keep == ARPKI_KEEP_NOTHING
           && memcmp(&answer.subject, &followed->answer.subject, sizeof answer.subject) == 0;
}

/* A group of lines, by what is pinned so far. */
static int follow(FILE *file, char *line, const arpki_keys *keys, struct pin *pins, size_t *count)
{
    struct asked asked;
    arpki_followed followed;
    int read = read_question(file, line, &asked);
    struct pin *pin = read ? pin_of(pins, count, asked.name) : NULL;
    if (pin) {
        memset(&followed, 0x5a, sizeof followed);
        uint32_t outcome = arpki_follow(keys, &asked.question, pin->bytes.at, pin->bytes.len, asked.links.at,
                                        asked.links.len, &followed);
        read = outcome == followed.answer.outcome && is_plain(keys, &asked, &followed) && keep(&pin->bytes, &asked, &followed);
        print_followed(&followed);
    }
    free_question(&asked);
    return read && pin;
}

/* All groups behind the directory. */
static int follow_all(FILE *file, char *line, const arpki_keys *keys)
{
    static struct pin pins[MOST_PINS];
    size_t count = 0;
    int read = 1;
    while (read && *line) {
        read = follow(file, line, keys, pins, &count);
        next_line(file, line);
    }
    while (count > 0)
        free(pins[--count].bytes.at);
    return read;
}

/* `check` and `follow`: a directory, what it learns, and a question or groups of them. */
static int answer_asked(FILE *file, char *line, int (*answer)(FILE *file, char *line, const arpki_keys *keys))
{
    arpki_key logs[MOST_PARTIES], authorities[MOST_PARTIES];
    arpki_entry entries[MOST_ROLLS];
    arpki_keys keys = {logs, 0, authorities, 0, entries, 0, 0};
    if (sscanf(next_line(file, line), "logs %zu %zu", &keys.logs_len, &keys.quorum) != 2
        || keys.logs_len > MOST_PARTIES || !read_keys(file, line, logs, keys.logs_len))
        return 0;
    if (sscanf(next_line(file, line), "authorities %zu", &keys.authorities_len) != 1
        || keys.authorities_len > MOST_PARTIES || !read_keys(file, line, authorities, keys.authorities_len))
        return 0;
    const char *note;
    while ((note = behind(next_line(file, line), "roll")))
        if (!learn(note, &keys, entries))
            return 0;
    return answer(file, line, &keys);
}

/* Answers COMMAND:FILE. */
static int answer(const char *word, char *line)
{
    const char *colon = strchr(word, ':');
    FILE *file = colon ? fopen(colon + 1, "r") : NULL;
    int answered = 0;
    if (!file)
        return 0;
    if (strncmp(word, "sig:", 4) == 0)
        answered = answer_sig(file, line);
    else if (strncmp(word, "check:", 6) == 0)
        answered = answer_asked(file, line, judge);
    else if (strncmp(word, "staple:", 7) == 0)
        answered = answer_asked(file, line, judge_staple);
    else if (strncmp(word, "follow:", 7) == 0)
        answered = answer_asked(file, line, follow_all);
    fclose(file);
    return answered;
}

int main(int argc, char **argv)
{
    char *line = malloc(MOST_LINE);
    if (!line || arpki_abi() != ARPKI_ABI)
        return 1;
    for (int i = 1; i < argc; i++) {
        if (!answer(argv[i], line))
            puts("malformed");
        puts("=");
    }
    free(line);
    return 0;
}
