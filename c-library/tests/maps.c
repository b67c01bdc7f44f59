/* Judges the confirmation of examples/check/accepted.in under the maps of examples/maps.txt, by what is shown there. The words
 * are ACCEPTED MAPS [TIMES]: with TIMES it writes for each map under which it is accepted how many milliseconds of the processor
 * a judgement took, in the fastest of ten parts, and without a map. The last line is 'N passed, M failed'. */
#define _XOPEN_SOURCE 700 /* clock_gettime */

#include "accepted.h"

#include <stddef.h>
#include <time.h>

_Static_assert(sizeof(arpki_map_entry) == 96 && _Alignof(arpki_map_entry) == 4, "arpki_map_entry");
_Static_assert(offsetof(arpki_map_entry, entry) == 32, "entry");
_Static_assert(sizeof(arpki_map) == 56 && _Alignof(arpki_map) == 8, "arpki_map");
_Static_assert(offsetof(arpki_map, learnt_len) == 8, "learnt_len");
_Static_assert(offsetof(arpki_map, root) == 16, "root");
_Static_assert(offsetof(arpki_map, bits) == 48, "bits");

enum { MOST_SHOWN = 4096, NOW = 9 };

static int passed, failed;

static void tell(int holds, const char *what, const char *line)
{
    if (holds)
        passed++;
    else {
        failed++;
        printf("%s: %.60s\n", what, line);
    }
}

static double seconds(void)
{
    struct timespec used;
    clock_gettime(CLOCK_PROCESS_CPUTIME_ID, &used);
    return (double)used.tv_sec + (double)used.tv_nsec / 1e9;
}

static uint32_t judge(const arpki_map *map, const struct question *question, uint64_t epoch, const uint8_t *shown, size_t len,
                      arpki_answer *answer)
{
    arpki_question asked = asked_in(question, epoch);
    memset(answer, 0x5a, sizeof *answer);
    uint32_t outcome = arpki_judge_in(map, &asked, shown, len, answer);
    return outcome == answer->outcome ? outcome : 99;
}

/* What is told of an example, as its word. */
static const char *word_of(uint32_t outcome)
{
    switch (outcome) {
    case ARPKI_ACCEPTED:
        return "judged";
    case ARPKI_NO_DIRECTORY:
        return "no_directory";
    case ARPKI_OTHER_TABLE:
        return "other_table";
    case ARPKI_OTHER_ROOT:
        return "other_root";
    default:
        return "other";
    }
}

/* The milliseconds of a judgement, without a map where there is none. */
static double milliseconds(const arpki_map *map, const struct question *question, const uint8_t *shown, size_t len, int times)
{
    arpki_keys keys = keys_of(question);
    arpki_question asked = asked_in(question, NOW);
    arpki_answer answer;
    double least = 1e9;
    for (int part = 0; part < 10; part++) {
        double before = seconds();
        for (int i = 0; i < times; i++)
            if ((map ? arpki_judge_in(map, &asked, shown, len, &answer) : arpki_judge(&keys, &asked, &answer)) != ARPKI_ACCEPTED)
                return 0;
        double taken = seconds() - before;
        least = taken < least ? taken : least;
    }
    return 1000 * least / times;
}

/* A directory under which it is accepted: what the rule says is told, and of entries the directory's own are taken alone. */
static void try_accepted(arpki_map *map, const struct question *question, const uint8_t *shown, size_t len, const char *line)
{
    arpki_answer answer, without;
    arpki_keys keys = keys_of(question);
    arpki_question asked = asked_in(question, NOW);
    uint32_t plain = arpki_judge(&keys, &asked, &without);
    tell(judge(map, question, NOW, shown, len, &answer) == plain && memcmp(&answer, &without, sizeof answer) == 0, "the answer",
         line);
    tell(judge(map, question, NOW + 1, shown, len, &answer) == ARPKI_REFUSED && answer.check == ARPKI_CHECK_AGE, "the age", line);
    /* An entry of no role makes the keys none, unless it is another directory's. */
    arpki_map_entry entry;
    memset(&entry, 0, sizeof entry);
    tell(arpki_directory(shown, len, entry.directory) == 0, "the digest", line);
    map->learnt = &entry;
    map->learnt_len = 1;
    tell(judge(map, question, NOW, shown, len, &answer) == ARPKI_BAD_KEYS && answer.check == ARPKI_KEYS_ENTRY, "its entry", line);
    entry.directory[31] ^= 1;
    tell(judge(map, question, NOW, shown, len, &answer) == ARPKI_ACCEPTED, "another's entry", line);
    map->bits = 25;
    tell(judge(map, question, NOW, shown, len, &answer) == ARPKI_NO_MAP, "25 bits", line);
}

static void try_line(const struct question *question, const char *line, int times)
{
    static const arpki_map_entry none;
    static uint8_t shown[MOST_SHOWN];
    static const uint8_t zeros[ARPKI_DIGEST_SIZE];
    char root[65], name[16], answered[16];
    unsigned bits;
    int read = 0;
    if (sscanf(line, "shown %u %64s %15s %15s %n", &bits, root, name, answered, &read) != 4 || strcmp(name, "a.example") != 0)
        return;
    size_t len = bytes_of(line + read, shown, sizeof shown);
    arpki_map map = {&none, 0, {0}, (uint8_t)bits};
    bytes_of(root, map.root, sizeof map.root);
    arpki_answer answer;
    uint8_t digest[ARPKI_DIGEST_SIZE];
    uint32_t outcome = judge(&map, question, NOW, shown, len, &answer);
    tell(strcmp(word_of(outcome), answered) == 0, "the outcome", line);
    uint32_t told = arpki_directory(shown, len, digest);
    int is_shown = strcmp(answered, "no_directory") != 0;
    tell(told == (is_shown ? 0 : ARPKI_NO_DIRECTORY) && (memcmp(digest, zeros, sizeof zeros) != 0) == is_shown, "whether it is shown",
         line);
    if (outcome != ARPKI_ACCEPTED)
        return;
    if (times > 0)
        printf("%u bits: %.4f milliseconds a judgement\n", bits, milliseconds(&map, question, shown, len, times));
    try_accepted(&map, question, shown, len, line);
}

int main(int argc, char **argv)
{
    static struct question question;
    static char line[20000];
    int times = argc == 4 ? atoi(argv[3]) : 0;
    FILE *maps = argc >= 3 ? fopen(argv[2], "r") : NULL;
    if (!maps || !read_question(argv[1], &question))
        return 2;
    if (times > 0)
        printf("without a map: %.4f milliseconds a judgement\n", milliseconds(NULL, &question, NULL, 0, times));
    while (fgets(line, sizeof line, maps))
        try_line(&question, line, times);
    fclose(maps);
    printf("%d passed, %d failed\n", passed, failed);
    return failed != 0 || passed == 0;
}
