/*
 * A holding's month: shares a charge over its concessions, to the cent.
 *
 *     holding FILE CENTS [AGENT]
 *
 * FILE holds month files on end, CENTS is the charge (either sign). The file is checked whole before a number is read from
 * it, so that the reading here may be simple: after the check no line can surprise it. For each month the charge is shared over
 * the agents' pb, and the parts total the charge exactly. Writes month,agent,cents; a fault goes to standard error.
 *
 * AGENT, by its position from 1, and the next one are sister concessions that stand on one line in every month, as 2+3. The line
 * receives what the two receive apart, and every other line the same, to the cent. A month that cannot be shared prints no line.
 */
#include <errno.h>
#include <inttypes.h>
#include <stddef.h>
#include <stdint.h>
#include <stdio.h>
#include <stdlib.h>
#include <string.h>

#include "rateio.h"

/* The whole file, with a 0 after it; NULL, with errno, where it cannot be read. */
static char *whole_file(const char *path, size_t *length)
{
    FILE *file = fopen(path, "rb");
    char *text = NULL;
    size_t room = 0, used = 0;

    if (!file)
        return NULL;
    for (;;) {
        if (used + 1 >= room) {
            char *more = realloc(text, room = 2 * room + 4096);

            if (!more)
                break;
            text = more;
        }
        size_t got = fread(text + used, 1, room - used - 1, file);

        used += got;
        if (got == 0 && !ferror(file)) {
            fclose(file);
            text[used] = 0;
            *length = used;
            return text;
        }
        if (got == 0)
            break;
    }
    int why = errno;

    free(text);
    fclose(file);
    errno = why;
    return NULL;
}

/* Where the line after this one begins: every line of a checked text ends in LF. */
static const char *next_line(const char *line)
{
    return strchr(line, '\n') + 1;
}

/* pb, the second value of an agent line. */
static int64_t weight_of(const char *line)
{
    return strtoll(strchr(line, ',') + 1, NULL, 10);
}

/* A refusal in words. */
static const char *refusal(int64_t answer)
{
    switch (answer) {
    case RATEIO_SHARE_BAD_AMOUNT:
        return "the charge lies beyond 10^17 cents";
    case RATEIO_SHARE_BAD_TOTAL:
        return "the concessions' pb do not total 1 to 10^17";
    default:
        return "a concession's pb is negative";
    }
}

/* How many agent lines begin here. */
static long long agents_of(const char *lines)
{
    long long agents = 0;

    for (const char *line = lines; *line != 'u'; line = next_line(line))
        agents++;
    return agents;
}

/* What the pb of these lines total, or the refusal of a negative one, which the sum of two could hide. */
static int64_t total_of(const char *lines)
{
    int64_t total = 0;

    for (const char *line = lines; *line != 'u'; line = next_line(line)) {
        if (weight_of(line) < 0)
            return RATEIO_SHARE_BAD_SUMS;
        /* A total that leaves its limits stays there: the share refuses it. */
        if (total <= RATEIO_SHARE_LIMIT)
            total += weight_of(line);
    }
    return total;
}

/* Shares the charge over these lines, agent `sister` and the next on one line (0 for none); 0 where it cannot. */
static int share_out(int64_t charge, long month, const char *lines, long long sister)
{
    int64_t total = total_of(lines), through = 0;
    /* the whole charge as one part: where the share takes that, it takes every part */
    int64_t whole = total < 0 ? total : rateio_share(charge, 0, total, total);
    long long agent = 0;

    if (RATEIO_SHARE_REFUSED(whole)) {
        fprintf(stderr, "holding: month %ld: %s\n", month, refusal(whole));
        return 0;
    }
    if (sister > 0 && sister >= agents_of(lines)) {
        fprintf(stderr, "holding: month %ld: no agent follows agent %lld\n", month, sister);
        return 0;
    }
    for (const char *line = lines; *line != 'u'; line = next_line(line)) {
        int64_t before = through;
        const char *first = line;

        through += weight_of(line);
        if (++agent == sister) {
            line = next_line(line);
            through += weight_of(line);
        }
        printf("%ld,%.*s", month, (int)strcspn(first, ","), first);
        if (line != first)
            printf("+%.*s", (int)strcspn(line, ","), line);
        printf(",%" PRId64 "\n", rateio_share(charge, before, through, total));
    }
    return 1;
}

/* Every month of a checked text. */
static int each_month(int64_t charge, long long sister, const char *text)
{
    int whole = 1;

    puts("month,agent,cents");
    while (*text) {
        const char *month = next_line(text), *agents = next_line(next_line(month));

        whole &= share_out(charge, strtol(month, NULL, 10), agents, sister);
        for (text = agents; *text && *text != 'm';)
            text = next_line(text);
    }
    return whole;
}

/* A whole argument as a number; 0 where it is none. */
static int number(const char *argument, long long *value)
{
    char *end;

    errno = 0;
    *value = strtoll(argument, &end, 10);
    return !errno && end != argument && !*end;
}

int main(int argc, char **argv)
{
    if (argc != 3 && argc != 4) {
        fprintf(stderr, "usage: holding FILE CENTS [AGENT]\n");
        return 2;
    }
    long long charge, sister = 0;
    if (!number(argv[2], &charge)) {
        fprintf(stderr, "holding: %s is no amount in cents\n", argv[2]);
        return 2;
    }
    if (argc == 4 && (!number(argv[3], &sister) || sister < 1)) {
        fprintf(stderr, "holding: %s is no agent\n", argv[3]);
        return 2;
    }
    size_t length;
    char *text = whole_file(argv[1], &length);
    if (!text) {
        fprintf(stderr, "holding: %s: %s\n", argv[1], strerror(errno));
        return 1;
    }
    int64_t place = rateio_check((const uint8_t *)text, length);
    int whole = place == RATEIO_CHECK_FILES;
    if (whole)
        whole = each_month(charge, sister, text);
    else if (place == RATEIO_CHECK_TOO_LONG)
        fprintf(stderr, "holding: %s is longer than 10^15 bytes\n", argv[1]);
    else
        fprintf(stderr, "holding: %s goes wrong at byte %" PRId64 "\n", argv[1], place);
    free(text);
    if (fflush(stdout) || ferror(stdout)) {
        fprintf(stderr, "holding: the table could not be written\n");
        return 1;
    }
    return !whole;
}
