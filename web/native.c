/*
 * The library of the web's program, as it is built for x86-64, called as the module is: for tools/web, which compares the two.
 *
 *     native WORD.. < LIST
 *
 * Each line of LIST is a file's name, whose bytes are the input. For each, it writes the status and the length of the output,
 * as a line, and the output behind that. With the word `times` before the others it writes milliseconds in place of these:
 * those of the fastest of ten calls of each.
 */
#define _POSIX_C_SOURCE 200809L /* clock_gettime */

#include <stdint.h>
#include <stdio.h>
#include <stdlib.h>
#include <string.h>
#include <time.h>

struct word {
    const uint8_t *text;
    size_t len;
};

uint32_t arpki_page(const struct word *words, size_t words_len, const uint8_t *input, size_t input_len,
                    uint8_t *output, size_t output_len, size_t *needed);

enum { ROOM = 1 << 26, INPUT = 1 << 23 };

static double now(void)
{
    struct timespec time;
    clock_gettime(CLOCK_MONOTONIC, &time);
    return (double)time.tv_sec * 1e3 + (double)time.tv_nsec / 1e6;
}

int main(int argc, char **argv)
{
    static struct word words[8];
    static char line[4096];
    uint8_t *input = malloc(INPUT), *output = malloc(ROOM);
    int timed = argc > 1 && strcmp(argv[1], "times") == 0;
    size_t count = 0;
    for (int i = 1 + timed; i < argc && count < 8; i++)
        words[count++] = (struct word){(const uint8_t *)argv[i], strlen(argv[i])};
    while (input && output && fgets(line, sizeof line, stdin)) {
        line[strcspn(line, "\n")] = 0;
        FILE *file = fopen(line, "rb");
        if (!file)
            return 1;
        size_t len = fread(input, 1, INPUT, file), needed;
        fclose(file);
        double least = 1e9;
        uint32_t status = 0;
        for (int i = 0; i < (timed ? 10 : 1); i++) {
            double begun = now();
            status = arpki_page(words, count, input, len, output, ROOM, &needed);
            least = now() - begun < least ? now() - begun : least;
        }
        if (timed)
            printf("%.3f\n", least);
        else {
            printf("%u %zu\n", status, needed);
            fwrite(output, 1, needed, stdout);
        }
    }
    return 0;
}
