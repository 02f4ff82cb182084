/* A holding's billing program in small: it shares a charge over weights, and meets each refusal. */
#include <inttypes.h>
#include <stddef.h>
#include <stdint.h>
#include <stdio.h>

#include "rateio.h"

/* Prints the parts of p over the n weights, and their total. */
static void share_out(int64_t p, const int64_t *weights, size_t n)
{
    int64_t w = 0, through = 0, total = 0;

    for (size_t i = 0; i < n; i++)
        w += weights[i];
    printf("%" PRId64 " over", p);
    for (size_t i = 0; i < n; i++)
        printf(" %" PRId64, weights[i]);
    printf(":");
    for (size_t i = 0; i < n; i++) {
        int64_t before = through;

        through += weights[i];
        int64_t part = rateio_share(p, before, through, w);
        if (RATEIO_SHARE_REFUSED(part)) {
            printf(" refused\n");
            return;
        }
        total += part;
        printf(" %" PRId64, part);
    }
    printf(" (total %" PRId64 ")\n", total);
}

/* Prints what one call answers. */
static void ask(int64_t p, int64_t before, int64_t through, int64_t w)
{
    int64_t answer = rateio_share(p, before, through, w);
    const char *said = "a part";

    switch (answer) {
    case RATEIO_SHARE_BAD_AMOUNT:
        said = "refused for the amount";
        break;
    case RATEIO_SHARE_BAD_TOTAL:
        said = "refused for the total";
        break;
    case RATEIO_SHARE_BAD_SUMS:
        said = "refused for the sums";
        break;
    }
    printf("share(%" PRId64 ", %" PRId64 ", %" PRId64 ", %" PRId64 ") = %" PRId64 ", %s\n", p, before, through, w, answer, said);
}

int main(void)
{
    const int64_t limit = RATEIO_SHARE_LIMIT;

    /* paper 01's cases b and c, then a weight of 0 and the largest amount */
    share_out(-1106, (const int64_t[]){1000, 2000}, 2);
    share_out(30, (const int64_t[]){300, 1700}, 2);
    share_out(-100, (const int64_t[]){1, 0, 1, 1}, 4);
    share_out(limit, (const int64_t[]){limit / 3, limit - limit / 3}, 2);
    share_out(1, (const int64_t[]){0, 0}, 2);

    /* each refusal, and the first of several */
    ask(limit + 1, 0, 1, 2);
    ask(-limit - 1, 0, 1, 2);
    ask(7, 0, 0, 0);
    ask(7, 0, 1, limit + 1);
    ask(7, -1, 1, 2);
    ask(7, 2, 1, 2);
    ask(7, 0, 3, 2);
    ask(INT64_MIN, INT64_MIN, INT64_MAX, INT64_MIN);
    ask(7, INT64_MAX, INT64_MIN, INT64_MAX);
    ask(-limit, 0, limit, limit);
    return 0;
}
