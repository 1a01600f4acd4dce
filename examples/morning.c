/*
 * A morning at one lift with two lanes: build an image, check it, list a rectangle of it, scan cards, and sell and withdraw
 * admissions meanwhile.
 * Built and run by examples/run.
 */
#include <stdint.h>
#include <stdio.h>
#include <stdlib.h>
#include <string.h>

#include "lpt.h"

#define HOLDERS 40
#define MORNING 10
#define LIFT 7
#define LANES 2 /* of at most LPT_LANES */

static int by_key(const void *a, const void *b)
{
    const lpt_admission *x = a, *y = b;
    int64_t k = lpt_key(x->holder, x->slot), l = lpt_key(y->holder, y->slot);
    return (k > l) - (k < l);
}

static void say(const char *what, int64_t answer)
{
    if (answer < 0)
        printf("%s: refused %lld\n", what, (long long)-answer);
    else
        printf("%s: %lld\n", what, (long long)answer);
}

/* What lpt_find answers; before the first and past the last there is none. */
static void say_admission(const char *what, int64_t answer)
{
    if (answer < 0)
        say(what, answer);
    else
        printf("%s: holder %lld, slot %lld\n", what, (long long)(answer / 65536), (long long)(answer % 65536));
}

int main(void)
{
    /* Every holder has two mornings and the afternoon between them. */
    static lpt_admission list[3 * HOLDERS];
    size_t n = 0;
    for (uint16_t h = 0; h < HOLDERS; h++)
        for (uint16_t s = 0; s < 3; s++)
            list[n++] = (lpt_admission){ (uint16_t)(1000 + 7 * h), (uint16_t)(MORNING + s) };
    qsort(list, n, sizeof list[0], by_key);

    static uint8_t image[LPT_MOST_BYTES];
    int64_t size = lpt_write(list, n, LIFT, image, sizeof image);
    say("bytes written", size);
    if (size < 0)
        return 1;
    say("admissions", lpt_check(image, (size_t)size));
    say("for lift", lpt_lift(image, (size_t)size));

    /* One flipped bit is refused, always, unless it makes another lift number of bytes 40 and 41. */
    image[200] ^= 4;
    say("with a flipped bit", lpt_check(image, (size_t)size));
    image[200] ^= 4;

    /* Who may come this morning, of the first five holders? */
    static uint32_t keys[3 * HOLDERS];
    int64_t members = lpt_list(image, (size_t)size, 1000, 1028, MORNING, MORNING, keys, sizeof keys / sizeof keys[0]);
    say("members of the rectangle", members);
    say("counted", lpt_count(image, (size_t)size, 1000, 1028, MORNING, MORNING));
    for (int64_t i = 0; i < members; i++) {
        int64_t a = lpt_admission_of(keys[i]);
        printf("  holder %lld, slot %lld, key %lu\n", (long long)(a / 65536), (long long)(a % 65536), (unsigned long)keys[i]);
    }

    /* The keys of a list write the same image as its admissions. */
    static uint32_t all[3 * HOLDERS];
    for (size_t i = 0; i < n; i++)
        all[i] = (uint32_t)lpt_key(list[i].holder, list[i].slot);
    static uint8_t again[LPT_MOST_BYTES];
    int64_t length = lpt_write_keys(all, n, LIFT, again, sizeof again);
    say("bytes written from keys", length);
    printf("%s\n", length == size && memcmp(image, again, (size_t)size) == 0 ? "the same image" : "another image");

    /* Scans in both lanes, with a lockout of ten minutes. It holds in every lane, and for all of the holder's half-days. */
    static uint32_t records[3 * HOLDERS + LPT_LANES];
    size_t places = n + LPT_LANES;
    say("holder 1007 at 1000, lane 1", lpt_scan(image, (size_t)size, records, places, 1007, MORNING, 1000, 600, 1, LIFT));
    say("with the afternoon at 1200, lane 1", lpt_scan(image, (size_t)size, records, places, 1007, MORNING + 1, 1200, 600, 1, LIFT));
    say("again at 1599, lane 2", lpt_scan(image, (size_t)size, records, places, 1007, MORNING, 1599, 600, 2, LIFT));
    say("with the afternoon at 1600, lane 2", lpt_scan(image, (size_t)size, records, places, 1007, MORNING + 1, 1600, 600, 2, LIFT));
    say("at 900, before the holder's last opening", lpt_scan(image, (size_t)size, records, places, 1007, MORNING, 900, 600, 1, LIFT));
    say("holder 1008, who has no admission", lpt_scan(image, (size_t)size, records, places, 1008, MORNING, 1600, 600, 1, LIFT));
    say("holder 1014, lane 1", lpt_scan(image, (size_t)size, records, places, 1014, MORNING, 1600, 600, 1, LIFT));
    say("holder 1021, lane 9, which is not there", lpt_scan(image, (size_t)size, records, places, 1021, MORNING, 1600, 600, 9, LIFT));
    say("at the neighbour's gate", lpt_scan(image, (size_t)size, records, places, 1021, MORNING, 1600, 600, 1, LIFT + 1));
    for (int lane = 1; lane <= LANES; lane++)
        printf("openings in lane %d: %lu\n", lane, (unsigned long)records[n + lane - 1]);

    /* Each opening stands at its own rank. */
    uint32_t found[9];
    for (uint16_t s = MORNING; s < MORNING + 3; s++)
        if (lpt_lookup(image, (size_t)size, 1007, s, found) == 1)
            printf("record of holder 1007, slot %u: %lu\n", (unsigned)s, (unsigned long)records[found[0]]);

    if (lpt_lookup(image, (size_t)size, 1007, MORNING, found) == 1) {
        printf("rank %lu on pages", (unsigned long)found[0]);
        for (int i = 1; i <= 8; i++)
            printf(" %lu", (unsigned long)found[i]);
        printf("\n");
        uint32_t eight[9];
        int same = lpt_lookup8(image, (size_t)size, 1007, MORNING, eight) == 1 && memcmp(found, eight, sizeof eight) == 0;
        printf("the eight pages alone say %s\n", same ? "the same" : "otherwise");
        say_admission("found by rank", lpt_find(image, (size_t)size, found[0]));
    }

    /* An admission that is not sold, between its neighbours. */
    if (lpt_lookup(image, (size_t)size, 1008, MORNING, found) == 0) {
        printf("holder 1008, slot %d is not listed; %lu stand before it\n", MORNING, (unsigned long)found[0]);
        say_admission("the last of them", lpt_find(image, (size_t)size, found[0] - 1));
        say_admission("the next", lpt_find(image, (size_t)size, found[0]));
    }

    /*
     * The window sells holder 1008 an admission, and takes back holder 1000's, while the lift runs: each time into a second
     * image and a second record buffer, with which the gate goes on. No record is lost: holder 1007 opened at 1600, and stays
     * locked out until 2200.
     */
    static uint8_t sold[LPT_MOST_BYTES], left[LPT_MOST_BYTES];
    static uint32_t sold_records[3 * HOLDERS + 1 + LPT_LANES], left_records[3 * HOLDERS + LPT_LANES];
    int64_t sold_size = lpt_add(image, (size_t)size, records, places, 1008, MORNING, sold, sizeof sold, sold_records, places + 1);
    say("bytes after the sale to holder 1008", sold_size);
    if (sold_size < 0)
        return 1;
    say("sold again", lpt_add(sold, (size_t)sold_size, sold_records, places + 1, 1008, MORNING, left, sizeof left, left_records, places));
    say("holder 1008 at 1700, lane 2", lpt_scan(sold, (size_t)sold_size, sold_records, places + 1, 1008, MORNING, 1700, 600, 2, LIFT));
    int64_t left_size = lpt_withdraw(sold, (size_t)sold_size, sold_records, places + 1, 1000, MORNING, left, sizeof left, left_records, places);
    say("bytes after holder 1000's withdrawal", left_size);
    if (left_size < 0)
        return 1;
    say("holder 1000 at 1700", lpt_scan(left, (size_t)left_size, left_records, places, 1000, MORNING, 1700, 600, 1, LIFT));
    say("holder 1007 at 2199, still locked out", lpt_scan(left, (size_t)left_size, left_records, places, 1007, MORNING, 2199, 600, 1, LIFT));
    say("holder 1007 at 2200", lpt_scan(left, (size_t)left_size, left_records, places, 1007, MORNING, 2200, 600, 1, LIFT));
    for (int lane = 1; lane <= LANES; lane++)
        printf("openings in lane %d: %lu\n", lane, (unsigned long)left_records[n + lane - 1]);

    /* A sale that is taken back gives the same bytes. */
    size = lpt_withdraw(sold, (size_t)sold_size, sold_records, places + 1, 1008, MORNING, left, sizeof left, left_records, places);
    printf("the sale taken back: %s\n", size == length && memcmp(left, again, (size_t)length) == 0 ? "the same image" : "another image");
    return 0;
}
