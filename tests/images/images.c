/*
 * The golden images through the archives: each call of `answers` is made on the image that its line names, read word by word with wall_image. A line that
 * does not hold is printed with what came; then the exit status is 1.
 *
 *     images FOLDER
 */
#include "wall.h"

#include <inttypes.h>
#include <stdio.h>
#include <stdlib.h>
#include <string.h>

enum { MOST_WORDS = 512, MOST_LINE = 1024 };

#define KEPT UINT64_C(0x5CA1AB1E5CA1AB1E)

/* The wall, and the list of which `lent` words are lent; what each is to be after the call. */
static uint64_t words[MOST_WORDS], expected[MOST_WORDS], list[MOST_WORDS], expected_list[MOST_WORDS];
static size_t length, lent;

static _Noreturn void fail(const char *line, const char *what)
{
    fprintf(stderr, "images: %s: %s", what, line);
    exit(1);
}

static void load(const char *folder, const char *name, const char *line)
{
    char path[MOST_LINE];
    static uint8_t bytes[8 * MOST_WORDS];
    snprintf(path, sizeof path, "%s/%s.image", folder, name);
    FILE *file = fopen(path, "rb");
    if (file == NULL)
        fail(line, "no such image");
    size_t size = fread(bytes, 1, sizeof bytes, file);
    length = size / 8;
    fclose(file);
    if (size % 8 != 0 || size == sizeof bytes)
        fail(line, "not an image's size");
    for (size_t n = 0; n < length; n++) {
        wall_answer word = wall_image(bytes, size, n);
        if (word.number != WALL_DONE)
            fail(line, "a word is not in the image");
        words[n] = expected[n] = word.value;
    }
    if (wall_image(bytes, size, length).number != WALL_NO_WORD)
        fail(line, "a word beyond the image");
}

/* A flow or a floor, and after a comma the words lent for the list. */
static uint64_t lend(const char *argument, const char *line)
{
    char *end;
    uint64_t first = strtoull(argument, &end, 10);
    lent = *end == ',' ? strtoull(end + 1, NULL, 10) : 0;
    if (lent >= MOST_WORDS)
        fail(line, "too long a list");
    for (size_t n = 0; n < MOST_WORDS; n++)
        list[n] = expected_list[n] = KEPT;
    return first;
}

/* Every word that has changed, as index=hex, or every entry of the list, as flow:count. */
static void expect(const char *rest, const char *line)
{
    uint64_t word, count;
    size_t at, entry = 0;
    int read;
    for (; sscanf(rest, " %zu=%" SCNx64 "%n", &at, &word, &read) == 2; rest += read) {
        if (at >= length)
            fail(line, "no such word");
        expected[at] = word;
    }
    for (; sscanf(rest, " %" SCNu64 ":%" SCNu64 "%n", &word, &count, &read) == 2; rest += read, entry += 2) {
        if (entry + 2 > lent)
            fail(line, "more entries than the list holds");
        expected_list[entry] = word;
        expected_list[entry + 1] = count;
    }
    if (*rest != '\n')
        fail(line, "more than a line of answers");
}

static wall_answer made(const char *call, uint64_t argument, const char *line)
{
    if (strcmp(call, "check") == 0)
        return wall_check(words, length);
    if (strcmp(call, "lookup") == 0)
        return wall_lookup(words, length, argument);
    if (strcmp(call, "increment") == 0)
        return wall_increment(words, length, argument);
    if (strcmp(call, "busy") == 0)
        return wall_busy(words, length, argument, lent > 0 ? list : NULL, lent);
    if (strcmp(call, "close") == 0)
        return wall_close(words, length);
    fail(line, "no such call");
}

static void differ(const char *what, const uint64_t *left, const uint64_t *right, size_t count)
{
    for (size_t at = 0; at < count; at++)
        if (left[at] != right[at])
            fprintf(stderr, "images: %s %zu: came %" PRIx64 ", expected %" PRIx64 "\n", what, at, left[at], right[at]);
}

/* Image, call, argument, number, value, and what is expected of the words. */
static int holds(const char *folder, const char *line)
{
    char name[64], call[16], argument[32];
    uint64_t number, value;
    int read;
    if (sscanf(line, "%63s %15s %31s %" SCNu64 " %" SCNu64 "%n", name, call, argument, &number, &value, &read) != 5)
        fail(line, "not a line of answers");
    load(folder, name, line);
    uint64_t first = lend(argument, line);
    expect(line + read, line);
    wall_answer came = made(call, first, line);
    int kept = memcmp(words, expected, length * sizeof *words) == 0 && memcmp(list, expected_list, sizeof list) == 0;
    if (came.number == number && came.value == value && kept)
        return 1;
    fprintf(stderr, "images: came number %" PRIu64 ", value %" PRIu64 "; the line has: %s", came.number, came.value, line);
    differ("word", words, expected, length);
    differ("list's word", list, expected_list, MOST_WORDS);
    return 0;
}

int main(int count, char **argument)
{
    char line[MOST_LINE];
    unsigned long calls = 0, failures = 0;
    if (count != 2)
        fail("images FOLDER\n", "usage");
    snprintf(line, sizeof line, "%s/answers", argument[1]);
    FILE *answers = fopen(line, "r");
    if (answers == NULL)
        fail("answers\n", "no such file");
    while (fgets(line, sizeof line, answers) != NULL)
        if (line[0] != '#' && line[0] != '\n') {
            calls++;
            failures += !holds(argument[1], line);
        }
    fclose(answers);
    printf("images: %lu calls, %lu failed\n", calls, failures);
    return failures > 0 || calls == 0;
}
