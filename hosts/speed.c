/* Answers the sheets of a file again and again, and says what a round takes.
 *
 *     speed events|lines|check|bundle ROUNDS FILE
 *
 * The file holds sheets in frames: a decimal byte count, an LF, and so many bytes. Each sheet is answered once, then all
 * of them ROUNDS times in turn. `lines` gives an event sheet line by line. Prints a checksum of all answers (FNV-1a, 64
 * bits), their bytes, and the nanoseconds of processor time of a round.
 */
#define _POSIX_C_SOURCE 200809L
#include <inttypes.h>
#include <stdio.h>
#include <stdlib.h>
#include <string.h>
#include <time.h>

#include "fenomirask.h"

enum { MOST_SHEETS = 1 << 14, MOST_BYTES = 1 << 25, ROOM = 1 << 20 };

typedef int64_t Answering(const uint8_t *sheet, size_t sheet_bytes, uint8_t *out, size_t out_bytes);

static struct {
    const uint8_t *at;
    size_t bytes;
} sheets[MOST_SHEETS];
static size_t sheet_count;
static uint8_t input[MOST_BYTES];
static uint8_t out[ROOM];
static const char usage[] = "usage: speed events|lines|check|bundle ROUNDS FILE";

static void stop(const char *text)
{
    fprintf(stderr, "%s\n", text);
    exit(2);
}

/* The answer to an accepted event sheet, made by the calls for one line and for the end. */
static int64_t lines(const uint8_t *sheet, size_t sheet_bytes, uint8_t *out, size_t out_bytes)
{
    static FenomiraskState state;
    size_t at = 0, written = 0;
    fenomirask_fresh(&state);
    while (at < sheet_bytes) {
        const uint8_t *feed = memchr(sheet + at, '\n', sheet_bytes - at);
        size_t line_bytes = feed == NULL ? sheet_bytes - at : (size_t)(feed - (sheet + at)) + 1;
        int64_t answer = fenomirask_event(&state, sheet + at, line_bytes, out + written, out_bytes - written);
        if (FENOMIRASK_REFUSED(answer))
            return answer;
        written += (size_t)answer;
        at += line_bytes;
    }
    return (int64_t)written + fenomirask_end(&state, out + written, out_bytes - written);
}

static Answering *answering_of(const char *word)
{
    if (strcmp(word, "events") == 0)
        return fenomirask_events;
    if (strcmp(word, "lines") == 0)
        return lines;
    if (strcmp(word, "check") == 0)
        return fenomirask_check;
    if (strcmp(word, "bundle") == 0)
        return fenomirask_bundle;
    stop(usage);
    return NULL;
}

static void read_sheets(const char *name)
{
    FILE *file = fopen(name, "rb");
    size_t bytes, at = 0;
    if (file == NULL)
        stop("the file cannot be read");
    bytes = fread(input, 1, sizeof input - 1, file); /* so that a number always ends */
    while (at < bytes) {
        char *end;
        size_t count = strtoul((const char *)input + at, &end, 10);
        at = (size_t)((uint8_t *)end - input) + 1;
        if (sheet_count == MOST_SHEETS || *end != '\n' || at + count > bytes)
            stop("the file holds no frames, or too many");
        sheets[sheet_count].at = input + at;
        sheets[sheet_count++].bytes = count;
        at += count;
    }
    fclose(file);
}

static uint64_t processor_time(void)
{
    struct timespec time;
    clock_gettime(CLOCK_PROCESS_CPUTIME_ID, &time);
    return (uint64_t)time.tv_sec * 1000000000 + (uint64_t)time.tv_nsec;
}

int main(int count, char **words)
{
    uint64_t sum = 0xcbf29ce484222325, bytes = 0, start;
    if (count != 4)
        stop(usage);
    Answering *answering = answering_of(words[1]);
    unsigned long rounds = strtoul(words[2], NULL, 10);
    read_sheets(words[3]);
    for (size_t i = 0; i < sheet_count; i++) {
        int64_t answer = answering(sheets[i].at, sheets[i].bytes, out, sizeof out);
        if (FENOMIRASK_REFUSED(answer))
            stop("a sheet is refused");
        for (size_t at = 0; at < (size_t)answer; at++)
            sum = (sum ^ out[at]) * 0x100000001b3;
        bytes += (uint64_t)answer;
    }
    start = processor_time();
    for (unsigned long round = 0; round < rounds; round++)
        for (size_t i = 0; i < sheet_count; i++)
            answering(sheets[i].at, sheets[i].bytes, out, sizeof out);
    printf("%016" PRIx64 " %" PRIu64 " %" PRIu64 "\n", sum, bytes, (processor_time() - start) / (rounds ? rounds : 1));
    return 0;
}
