/* Judges the confirmation of an input of `arpki check` in ten parts, so many times in each, and writes how many
 * milliseconds of the processor a judgement took in the fastest part. The words are FILE NOW TIMES; the name is a.example. */
#define _XOPEN_SOURCE 700 /* clock_gettime */

#include "accepted.h"

#include <time.h>

static double seconds(void)
{
    struct timespec used;
    clock_gettime(CLOCK_PROCESS_CPUTIME_ID, &used);
    return (double)used.tv_sec + (double)used.tv_nsec / 1e9;
}

int main(int argc, char **argv)
{
    static struct question question;
    if (argc != 4 || !read_question(argv[1], &question))
        return 2;
    arpki_keys keys = keys_of(&question);
    arpki_question asked = asked_in(&question, (uint64_t)atoi(argv[2]));
    arpki_answer answer;
    int count = atoi(argv[3]);
    double least = 1e9;
    for (int part = 0; part < 10; part++) {
        double before = seconds();
        for (int i = 0; i < count; i++)
            if (arpki_judge(&keys, &asked, &answer) != ARPKI_ACCEPTED)
                return 1;
        double taken = seconds() - before;
        least = taken < least ? taken : least;
    }
    printf("%.2f milliseconds a judgement\n", 1000 * least / count);
    return 0;
}
