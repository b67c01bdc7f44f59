/* Tries what the stored examples do not show: the layouts, each allocation failing in turn, four threads with one
 * directory on small stacks, how much stack a call uses, keys that are none, and that nothing stale stays in an answer.
 *
 * It is called with examples/check/accepted.in, the file of an input whose RollNote is learnt, and a file with a pin of 4,096
 * changes of another certificate of a.example; a fourth word, of any kind, leaves out how much stack a call uses, which
 * cannot be seen under valgrind. It is linked with --wrap for malloc,
 * realloc and free. Its last line is 'N passed, N failed'. */
#define _XOPEN_SOURCE 700 /* pthread_attr_setstack */

#include "accepted.h"

#include <pthread.h>

/* ---- layouts, as crates/arpki_c has them */

_Static_assert(sizeof(arpki_key) == 56 && _Alignof(arpki_key) == 1, "arpki_key");
_Static_assert(sizeof(arpki_entry) == 64 && _Alignof(arpki_entry) == 4, "arpki_entry");
_Static_assert(offsetof(arpki_entry, generation) == 0, "generation");
_Static_assert(offsetof(arpki_entry, number) == 4, "number");
_Static_assert(offsetof(arpki_entry, role) == 6, "role");
_Static_assert(offsetof(arpki_entry, key) == 8, "key");
_Static_assert(sizeof(arpki_keys) == 56, "arpki_keys");
_Static_assert(offsetof(arpki_keys, logs_len) == 8, "logs_len");
_Static_assert(offsetof(arpki_keys, authorities) == 16, "authorities");
_Static_assert(offsetof(arpki_keys, learnt) == 32, "learnt");
_Static_assert(offsetof(arpki_keys, quorum) == 48, "quorum");
_Static_assert(sizeof(arpki_answer) == 144 && _Alignof(arpki_answer) == 8, "arpki_answer");
_Static_assert(offsetof(arpki_answer, serial) == 8, "serial");
_Static_assert(offsetof(arpki_answer, subject) == 16, "subject");
_Static_assert(offsetof(arpki_answer, certificate) == 72, "certificate");
_Static_assert(offsetof(arpki_answer, root) == 104, "root");
_Static_assert(offsetof(arpki_answer, outcome) == 136, "outcome");
_Static_assert(offsetof(arpki_answer, check) == 140, "check");
_Static_assert(sizeof(arpki_question) == 48 && _Alignof(arpki_question) == 8, "arpki_question");
_Static_assert(offsetof(arpki_question, name_len) == 8, "name_len");
_Static_assert(offsetof(arpki_question, confirmation) == 16, "confirmation");
_Static_assert(offsetof(arpki_question, confirmation_len) == 24, "confirmation_len");
_Static_assert(offsetof(arpki_question, epoch) == 32, "epoch");
_Static_assert(offsetof(arpki_question, age) == 40, "age");
_Static_assert(sizeof(arpki_followed) == 576 && _Alignof(arpki_followed) == 8, "arpki_followed");
_Static_assert(offsetof(arpki_followed, first_len) == 144, "first_len");
_Static_assert(offsetof(arpki_followed, links) == 152, "links");
_Static_assert(offsetof(arpki_followed, keep) == 160, "keep");
_Static_assert(offsetof(arpki_followed, first) == 164, "first");
_Static_assert(sizeof(arpki_lesson) == 72, "arpki_lesson");
_Static_assert(offsetof(arpki_lesson, outcome) == 64, "lesson outcome");
_Static_assert(offsetof(arpki_lesson, check) == 68, "lesson check");

/* ---- counting */

static int passed, failed;

static void expect(int holds, const char *what)
{
    if (holds) {
        passed++;
    } else {
        failed++;
        printf("calls: %s\n", what);
    }
}

/* ---- memory that fails */

void *__real_malloc(size_t size);
void *__real_realloc(void *at, size_t size);
void __real_free(void *at);
void *__wrap_malloc(size_t size);
void *__wrap_realloc(void *at, size_t size);
void __wrap_free(void *at);

static long blocks;   /* taken and not given back */
static long asked;    /* how often memory was asked for */
static long fails_at; /* which of these fails; 0 none */

void *__wrap_malloc(size_t size)
{
    if (++asked == fails_at)
        return NULL;
    void *at = __real_malloc(size);
    blocks += at != NULL;
    return at;
}

void *__wrap_realloc(void *at, size_t size)
{
    if (++asked == fails_at)
        return NULL;
    void *moved = __real_realloc(at, size);
    blocks += at == NULL && moved != NULL;
    return moved;
}

void __wrap_free(void *at)
{
    blocks -= at != NULL;
    __real_free(at);
}

/* ---- what is called */

static struct question question;
static arpki_keys keys;
static uint8_t note[4096];
static size_t note_len;
static struct question noted; /* the directory that learns from the note */

static uint32_t judge_in(uint64_t now, arpki_answer *answer)
{
    arpki_question asked = asked_in(&question, now);
    return arpki_judge(&keys, &asked, answer);
}

static uint32_t connect_in(uint64_t now, const uint8_t *response, size_t response_len, arpki_answer *answer)
{
    arpki_question asked = asked_in(&question, now);
    uint8_t challenge[ARPKI_CHALLENGE_SIZE] = {1};
    return arpki_connect(&keys, &asked, challenge, response, response_len, answer);
}

static uint32_t staple_in(uint64_t now, const uint8_t *staple, size_t staple_len, arpki_answer *answer)
{
    arpki_question asked = asked_in(&question, now);
    uint8_t channel[ARPKI_CHANNEL_SIZE] = {1};
    return arpki_staple(&keys, &asked, channel, staple, staple_len, answer);
}

static uint32_t follow_in(uint64_t now, const uint8_t *pin, size_t pin_len, const uint8_t *links, size_t links_len,
                          arpki_followed *followed)
{
    arpki_question asked = asked_in(&question, now);
    memset(followed, 0x5a, sizeof *followed);
    return arpki_follow(&keys, &asked, pin, pin_len, links, links_len, followed);
}

/* Whether an answer is this outcome with a number, and nothing else. */
static int is_alone(const arpki_answer *answer, uint32_t outcome, uint32_t check)
{
    arpki_answer alone;
    memset(&alone, 0, sizeof alone);
    alone.outcome = outcome;
    alone.check = check;
    return memcmp(answer, &alone, sizeof alone) == 0;
}

/* ---- the tests */

static void nothing_stale_stays(void)
{
    arpki_answer answer;
    memset(&answer, 0x5a, sizeof answer);
    expect(judge_in(9, &answer) == ARPKI_ACCEPTED && answer.epoch == 5 && answer.check == 0, "accepted");
    expect(judge_in(10, &answer) == ARPKI_REFUSED && is_alone(&answer, 2, ARPKI_CHECK_AGE), "an old answer stays");
    arpki_question asked = asked_in(&question, 9);
    asked.name_len = 8;
    expect(arpki_judge(&keys, &asked, &answer) == ARPKI_REFUSED && is_alone(&answer, 2, ARPKI_CHECK_NAME), "another name");
    asked.confirmation_len = 0;
    expect(arpki_judge(&keys, &asked, &answer) == ARPKI_REFUSED && is_alone(&answer, 2, ARPKI_CHECK_FORM), "no bytes");
}

static void servers_are_judged(void)
{
    arpki_answer answer;
    expect(connect_in(9, note, 0, &answer) == ARPKI_NO_POSSESSION && is_alone(&answer, 5, 1), "a response without bytes");
    expect(connect_in(9, question.confirmation + 196, 1292, &answer) == ARPKI_NO_POSSESSION && is_alone(&answer, 5, 5),
           "a response by another key");
    expect(connect_in(4, note, 0, &answer) == ARPKI_REFUSED && is_alone(&answer, 2, ARPKI_CHECK_FUTURE), "a later epoch");
    expect(staple_in(9, note, 0, &answer) == ARPKI_NO_POSSESSION && is_alone(&answer, 5, 1), "a staple without bytes");
    expect(staple_in(9, question.confirmation + 196, 1292, &answer) == ARPKI_NO_POSSESSION && is_alone(&answer, 5, 5),
           "a log's signature as a staple");
    expect(staple_in(4, note, 0, &answer) == ARPKI_REFUSED && is_alone(&answer, 2, ARPKI_CHECK_FUTURE), "a staple in a later epoch");
}

/* Whether nothing is to be kept, and the answer is this outcome with a number and nothing else. */
static int is_kept_as_before(const arpki_followed *followed, uint32_t outcome, uint32_t check)
{
    arpki_followed nothing;
    memset(&nothing, 0, sizeof nothing);
    nothing.answer.outcome = outcome;
    nothing.answer.check = check;
    return memcmp(followed, &nothing, sizeof nothing) == 0;
}

static void names_are_pinned(void)
{
    arpki_followed followed, again;
    arpki_answer judged;
    expect(judge_in(9, &judged) == ARPKI_ACCEPTED, "it is accepted");
    expect(follow_in(9, note, 0, note, 0, &followed) == ARPKI_ACCEPTED && followed.keep == ARPKI_KEEP_FIRST
               && followed.links == 0 && followed.first_len == 134
               && memcmp(&followed.answer, &judged, sizeof judged) == 0, "the name is pinned");
    for (size_t i = followed.first_len; i < sizeof followed.first; i++)
        expect(followed.first[i] == 0, "zero bytes behind the text");
    const uint8_t *pin = followed.first;
    size_t len = followed.first_len;
    expect(follow_in(9, pin, len, note, 0, &again) == ARPKI_ACCEPTED && again.keep == ARPKI_KEEP_NOTHING
               && again.first_len == 0 && memcmp(&again.answer, &judged, sizeof judged) == 0, "it is the one that is pinned");
    expect(follow_in(10, pin, len, note, 0, &again) == ARPKI_REFUSED && is_kept_as_before(&again, 2, ARPKI_CHECK_AGE),
           "too old a confirmation");
    for (size_t cut = 1; cut < len; cut++)
        expect(follow_in(9, pin, cut, note, 0, &again) == ARPKI_BAD_PIN && is_kept_as_before(&again, 13, ARPKI_PIN_FORM),
               "a pin that is cut");
    expect(follow_in(9, pin, len, pin, len - 1, &again) == ARPKI_BAD_LINKS && is_kept_as_before(&again, 14, 0),
           "links that are cut");
    uint8_t other[2 * ARPKI_FIRST_SIZE];
    memcpy(other, pin, len);
    memcpy(other + len, pin, len);
    expect(follow_in(9, other, 2 * len, note, 0, &again) == ARPKI_BAD_PIN && is_kept_as_before(&again, 13, ARPKI_PIN_CHAIN),
           "one certificate twice");
    other[123] ^= 1;
    expect(follow_in(9, other, len, note, 0, &again) == ARPKI_NO_LINKS && is_kept_as_before(&again, 7, 0), "another is pinned");
    expect(follow_in(9, other, len, pin, len, &again) == ARPKI_BAD_UPDATE
               && is_kept_as_before(&again, 9, ARPKI_CLAUSE_SERIAL), "a link that does not follow");
    other[4] ^= 3;
    expect(follow_in(9, other, len, note, 0, &again) == ARPKI_BAD_PIN && is_kept_as_before(&again, 13, ARPKI_PIN_NAME),
           "the pin of another name");
}

static void long_runs_end(void)
{
    enum { MANY = 4097 };
    arpki_followed followed, again;
    uint8_t *many = malloc((size_t)MANY * ARPKI_FIRST_SIZE);
    if (!many || follow_in(9, note, 0, note, 0, &followed) != ARPKI_ACCEPTED) {
        expect(0, "many links");
        free(many);
        return;
    }
    size_t len = followed.first_len;
    for (size_t i = 0; i < MANY; i++)
        memcpy(many + i * len, followed.first, len);
    many[123] ^= 1; /* so that it is another certificate */
    expect(follow_in(9, many, len, many + len, 65 * len, &again) == ARPKI_LONG && is_kept_as_before(&again, 11, 0), "65 links");
    expect(follow_in(9, many, len, many + len, 4096 * len, &again) == ARPKI_LONG && is_kept_as_before(&again, 11, 0),
           "4,096 links");
    expect(follow_in(9, many, len, many, 4097 * len, &again) == ARPKI_BAD_LINKS && is_kept_as_before(&again, 14, 0),
           "4,097 links");
    expect(follow_in(9, many, 4097 * len, note, 0, &again) == ARPKI_BAD_PIN && is_kept_as_before(&again, 13, ARPKI_PIN_FORM),
           "4,097 changes");
    free(many);
}

/* The outcome of keys that differ in one thing. */
static int is_bad(arpki_keys changed, uint32_t number)
{
    arpki_answer answer;
    arpki_lesson lesson;
    arpki_question asked = asked_in(&question, 9);
    arpki_followed followed;
    uint32_t outcome = arpki_judge(&changed, &asked, &answer);
    uint32_t followed_as = arpki_follow(&changed, &asked, note, 1, note, 1, &followed);
    uint32_t learnt = arpki_learn(&changed, note, note_len, &lesson);
    return outcome == ARPKI_BAD_KEYS && is_alone(&answer, 4, number) && learnt == ARPKI_BAD_KEYS
           && followed_as == ARPKI_BAD_KEYS && is_kept_as_before(&followed, 4, number) && lesson.check == number
           && lesson.entry.role == 0;
}

static void keys_that_are_none(void)
{
    arpki_key unreadable[3];
    arpki_entry entry;
    memset(unreadable, 0, sizeof unreadable);
    memset(&entry, 0, sizeof entry);
    arpki_keys changed = keys;
    changed.logs_len = 2;
    expect(is_bad(changed, ARPKI_KEYS_LOGS), "two logs");
    changed.logs_len = SIZE_MAX / 56 / 2;
    expect(is_bad(changed, ARPKI_KEYS_LOGS), "more logs than there can be");
    changed = keys;
    changed.authorities_len = 17;
    expect(is_bad(changed, ARPKI_KEYS_AUTHORITIES), "17 authorities");
    changed = keys;
    changed.quorum = 2;
    expect(is_bad(changed, ARPKI_KEYS_QUORUM), "a quorum of 2");
    changed.quorum = SIZE_MAX;
    expect(is_bad(changed, ARPKI_KEYS_QUORUM), "a quorum of more than all");
    changed = keys;
    changed.logs = unreadable;
    expect(is_bad(changed, ARPKI_KEYS_LOG_KEY), "the key of a log is none");
    changed = keys;
    changed.authorities = unreadable;
    expect(is_bad(changed, ARPKI_KEYS_AUTHORITY_KEY), "the key of an authority is none");
    changed = keys;
    changed.learnt = &entry;
    changed.learnt_len = 1;
    expect(is_bad(changed, ARPKI_KEYS_ENTRY), "an entry of no role");
    entry.role = ARPKI_LOG;
    expect(is_bad(changed, ARPKI_KEYS_ENTRY), "an entry of no key");
}

static void notes_are_learnt(void)
{
    arpki_keys before = keys_of(&noted);
    arpki_lesson lesson;
    expect(arpki_learn(&before, note, note_len, &lesson) == ARPKI_LEARNT && lesson.outcome == ARPKI_LEARNT
               && lesson.check == 0 && lesson.entry.generation == 0 && memcmp(lesson.entry.key.bytes, note + 8, 56) == 0,
           "the note is learnt");
    arpki_keys after = before;
    arpki_entry kept = lesson.entry;
    after.learnt = &kept;
    after.learnt_len = 1;
    expect(arpki_learn(&after, note, note_len, &lesson) == ARPKI_KNOWN && lesson.entry.role == 0, "it is known then");
    expect(arpki_learn(&before, note, note_len - 1, &lesson) == ARPKI_NO_NOTE, "cut short it is none");
    note[3] ^= 8;
    expect(arpki_learn(&before, note, note_len, &lesson) == ARPKI_UNKNOWN_PARTY, "of a party that is not known");
    note[3] ^= 8;
    note[note_len - 1] ^= 1;
    expect(arpki_learn(&before, note, note_len, &lesson) == ARPKI_BAD_SIGNATURE && lesson.check == 5, "with another bit");
    note[note_len - 1] ^= 1;
    kept.key = before.logs[0];
    expect(arpki_learn(&after, note, note_len, &lesson) == ARPKI_OTHER_KEY, "another key is known");
}

static uint32_t call_judge(void)
{
    arpki_answer answer;
    memset(&answer, 0x5a, sizeof answer);
    uint32_t outcome = judge_in(9, &answer);
    return outcome == ARPKI_NO_MEMORY && !is_alone(&answer, 3, 0) ? 99 : outcome;
}

static uint32_t call_connect(void)
{
    arpki_answer answer;
    memset(&answer, 0x5a, sizeof answer);
    uint32_t outcome = connect_in(9, note, 0, &answer);
    return outcome == ARPKI_NO_MEMORY && !is_alone(&answer, 3, 0) ? 99 : outcome;
}

static uint32_t call_staple(void)
{
    arpki_answer answer;
    memset(&answer, 0x5a, sizeof answer);
    uint32_t outcome = staple_in(9, note, 0, &answer);
    return outcome == ARPKI_NO_MEMORY && !is_alone(&answer, 3, 0) ? 99 : outcome;
}

/* The name is pinned. */
static uint32_t call_follow(void)
{
    arpki_followed followed;
    uint32_t outcome = follow_in(9, note, 0, note, 0, &followed);
    return outcome == ARPKI_NO_MEMORY && !is_kept_as_before(&followed, 3, 0) ? 99 : outcome;
}

static uint8_t longest[1 << 20]; /* a pin of 4,096 changes */
static size_t longest_len;

/* Another certificate is pinned, behind as many as there may be. */
static uint32_t call_follow_longest(void)
{
    arpki_followed followed;
    uint32_t outcome = follow_in(9, longest, longest_len, note, 0, &followed);
    return outcome == ARPKI_NO_LINKS && !is_kept_as_before(&followed, 7, 0) ? 99 : outcome;
}

static uint8_t many[64 * ARPKI_FIRST_SIZE]; /* 64 changes: the first is another certificate than the others */
static size_t many_len;

/* Makes the 64 changes. */
static void make_many(void)
{
    arpki_followed followed;
    if (follow_in(9, note, 0, note, 0, &followed) != ARPKI_ACCEPTED)
        return;
    for (size_t i = 0; i < 64; i++)
        memcpy(many + i * followed.first_len, followed.first, followed.first_len);
    many[123] ^= 1;
    many_len = followed.first_len;
}

/* Another certificate is pinned, and 63 links are given, the first of which does not follow. */
static uint32_t call_follow_links(void)
{
    arpki_followed followed;
    uint32_t outcome = follow_in(9, many, many_len, many + many_len, 63 * many_len, &followed);
    return outcome == ARPKI_NO_MEMORY && !is_kept_as_before(&followed, 3, 0) ? 99 : outcome;
}

static uint32_t call_learn(void)
{
    arpki_keys behind = keys_of(&noted);
    arpki_entry other = {0, 2, ARPKI_AUTHORITY, behind.logs[0]};
    arpki_lesson lesson;
    behind.learnt = &other;
    behind.learnt_len = 1;
    memset(&lesson, 0x5a, sizeof lesson);
    uint32_t outcome = arpki_learn(&behind, note, note_len, &lesson);
    return outcome == ARPKI_NO_MEMORY && (lesson.entry.role || lesson.check) ? 99 : outcome;
}

/* Each allocation of a call fails in turn, until none does: the outcome is 'no memory', and nothing leaks. */
static void each_allocation_fails(uint32_t (*call)(void), uint32_t expected, const char *what)
{
    long before = blocks, turn = 0;
    uint32_t outcome;
    do {
        asked = 0;
        fails_at = ++turn;
        outcome = call();
        fails_at = 0;
        expect(blocks == before, what);
        if (asked >= turn)
            expect(outcome == ARPKI_NO_MEMORY, what);
    } while (asked >= turn && turn < 1000);
    expect(outcome == expected && turn > 1, what);
    printf("calls: %s: %ld allocations\n", what, turn - 1);
}

/* Judges a signature of the confirmation, under the log's key: of another text, so the root is another. */
static uint32_t call_verify(void)
{
    return arpki_verify(&keys.logs[1], note, 9, question.confirmation + 196, 1292);
}

/* Judges behind many next keys of log 0, which did not sign the confirmation. */
static uint32_t call_with_entries(void)
{
    enum { MANY = 5000 };
    static arpki_entry entries[MANY];
    arpki_keys behind = keys;
    arpki_answer answer;
    for (uint32_t i = 0; i < MANY; i++) {
        arpki_entry next = {i, 0, ARPKI_LOG, keys.logs[0]};
        entries[i] = next;
    }
    behind.learnt = entries;
    behind.learnt_len = MANY;
    arpki_question asked = asked_in(&question, 9);
    return arpki_judge(&behind, &asked, &answer);
}

static void signatures_take_no_memory(void)
{
    asked = 0;
    expect(call_verify() == 5 && asked == 0, "arpki_verify takes memory");
}

/* ---- stack */

enum { STACK = 512 * 1024, PAINT = 0xa5 };

struct measured {
    uint32_t (*call)(void);
    uint32_t outcome;
};

static void *call_measured(void *given)
{
    struct measured *measured = given;
    measured->outcome = measured->call();
    return NULL;
}

/* A call on a thread whose stack was painted: how many bytes of it are painted no more, with what the thread itself
 * needs, has to be less than so many. */
static void stack_is_below(size_t most, uint32_t (*call)(void), uint32_t expected, const char *what)
{
    struct measured measured = {call, 99};
    unsigned char *stack = aligned_alloc(4096, STACK);
    size_t painted = 0;
    pthread_t thread;
    pthread_attr_t attributes;
    if (!stack) {
        expect(0, what);
        return;
    }
    memset(stack, PAINT, STACK);
    pthread_attr_init(&attributes);
    pthread_attr_setstack(&attributes, stack, STACK);
    pthread_create(&thread, &attributes, call_measured, &measured);
    pthread_join(thread, NULL);
    pthread_attr_destroy(&attributes);
    while (painted < STACK && stack[painted] == PAINT)
        painted++;
    free(stack);
    expect(measured.outcome == expected && STACK - painted < most, what);
    printf("calls: %s: %zu bytes of stack\n", what, STACK - painted);
}

static void stack_is_enough(uint32_t (*call)(void), uint32_t expected, const char *what)
{
    stack_is_below(32 * 1024, call, expected, what);
}

static void stacks_are_enough(void)
{
    stack_is_enough(call_judge, ARPKI_ACCEPTED, "arpki_judge");
    stack_is_enough(call_with_entries, ARPKI_ACCEPTED, "arpki_judge behind 5,000 entries");
    stack_is_enough(call_connect, ARPKI_NO_POSSESSION, "arpki_connect");
    stack_is_enough(call_staple, ARPKI_NO_POSSESSION, "arpki_staple");
    stack_is_enough(call_follow, ARPKI_ACCEPTED, "arpki_follow");
    stack_is_enough(call_follow_links, ARPKI_BAD_UPDATE, "arpki_follow with 63 links");
    stack_is_below(320 * 1024, call_follow_longest, ARPKI_NO_LINKS, "arpki_follow with a pin of 4,096 changes");
    stack_is_enough(call_learn, ARPKI_LEARNT, "arpki_learn");
    stack_is_enough(call_verify, 5, "arpki_verify");
}

/* ---- threads */

static void *judge_often(void *unused)
{
    arpki_answer answer;
    long good = 0;
    arpki_followed followed;
    for (int i = 0; i < 20; i++) {
        good += judge_in(i % 2 ? 9 : 10, &answer) == (i % 2 ? ARPKI_ACCEPTED : ARPKI_REFUSED);
        good += follow_in(9, many, many_len, note, 0, &followed) == ARPKI_NO_LINKS;
    }
    return good == 40 ? unused : NULL;
}

/* Four threads judge and follow with one directory and one pin, each on a stack of 64 KiB. */
static void four_threads(void)
{
    pthread_t threads[4];
    pthread_attr_t small;
    int good = 0;
    pthread_attr_init(&small);
    pthread_attr_setstacksize(&small, 64 * 1024);
    for (int i = 0; i < 4; i++)
        pthread_create(&threads[i], &small, judge_often, &keys);
    for (int i = 0; i < 4; i++) {
        void *back = NULL;
        pthread_join(threads[i], &back);
        good += back == &keys;
    }
    pthread_attr_destroy(&small);
    expect(good == 4, "four threads");
}

/* Reads the longest pin. */
static int read_longest(const char *path)
{
    FILE *file = fopen(path, "rb");
    if (!file)
        return 0;
    longest_len = fread(longest, 1, sizeof longest, file);
    fclose(file);
    return longest_len != 0;
}

/* Reads the first RollNote of an input. */
static int read_note(const char *path)
{
    static char line[20000];
    FILE *file = fopen(path, "r");
    if (!file)
        return 0;
    while (note_len == 0 && fgets(line, sizeof line, file))
        if (strncmp(line, "roll ", 5) == 0)
            note_len = bytes_of(line + 5, note, sizeof note);
    fclose(file);
    return note_len != 0;
}

int main(int argc, char **argv)
{
    if (argc < 4 || !read_question(argv[1], &question) || !read_question(argv[2], &noted) || !read_note(argv[2])
        || !read_longest(argv[3]))
        return 2;
    keys = keys_of(&question);
    expect(arpki_abi() == ARPKI_ABI, "the number of the header");
    nothing_stale_stays();
    servers_are_judged();
    names_are_pinned();
    long_runs_end();
    make_many();
    expect(call_follow_longest() == ARPKI_NO_LINKS, "a pin of 4,096 changes");
    keys_that_are_none();
    notes_are_learnt();
    each_allocation_fails(call_judge, ARPKI_ACCEPTED, "arpki_judge without memory");
    each_allocation_fails(call_connect, ARPKI_NO_POSSESSION, "arpki_connect without memory");
    each_allocation_fails(call_staple, ARPKI_NO_POSSESSION, "arpki_staple without memory");
    each_allocation_fails(call_follow, ARPKI_ACCEPTED, "arpki_follow without memory");
    each_allocation_fails(call_follow_links, ARPKI_BAD_UPDATE, "arpki_follow with 63 links without memory");
    each_allocation_fails(call_learn, ARPKI_LEARNT, "arpki_learn without memory");
    signatures_take_no_memory();
    if (argc == 4)
        stacks_are_enough();
    four_threads();
    printf("%d passed, %d failed\n", passed, failed);
    return failed != 0;
}
