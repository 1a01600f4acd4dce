/*
 * lpt.h: the verified admission image, for C.
 *
 * The library is an archive for x86-64. Two lines build it and a program over it, from the project's root:
 *
 *     (cd crates/capi && rt lib)
 *     cc -Iinclude program.c crates/capi/out/libcapi.a -o program
 *
 * Every function returns an answer of 0 or more, or -n where question n got a no (LPT_NO_* below).
 * On a refusal no lent buffer changes. On an answer only the places named here change.
 *
 * Buffers belong to the caller. Nothing is kept between calls, nothing is allocated, no global state is
 * used: calls on different buffers may run at the same time. Pointers are not null, also where a length
 * is 0, and a buffer that is written must not overlap one that is read.
 *
 * Every function that takes an image checks all of it first, so that there is no need to call lpt_check before, but
 * two: lpt_lookup8 checks the header and the eight pages that it reads, and no more; lpt_repair is for damaged images.
 *
 * Stack, as the older Rattle compiled it, on 4,096 random admissions on x86-64: lpt_add and lpt_withdraw 34,336 bytes (two arrays of 4,096
 * numbers), lpt_write 17,088, lpt_write_keys 16,976, lpt_list 2,872, lpt_count 2,840, lpt_scan 2,192, lpt_find 680,
 * lpt_lookup 672, lpt_lookup8 624, lpt_key 544, lpt_check and lpt_lift 440, lpt_admission_of 88.
 */
#ifndef LPT_H
#define LPT_H

#include <stddef.h>
#include <stdint.h>

#ifdef __cplusplus
extern "C" {
#endif

/*
 * The version of this interface: one more whenever a declaration here changes, one is added, or a function answers
 * otherwise than before. Since 5, lpt_scan asks 25 and 26 of the holder, not of the one admission; since 6 there is
 * lpt_lookup8; since 7 both lookups fill out[0] where they return 0; since 8 there are lpt_add and lpt_withdraw; since
 * 9 there is lpt_repair.
 */
#define LPT_API_VERSION 9

/* An admission: a holder and a half-day slot. */
typedef struct {
    uint16_t holder;
    uint16_t slot;
} lpt_admission;

/* The most admissions that an image can hold. */
#define LPT_MOST_ADMISSIONS 4096

/* The most bytes that an image can have (proved): a buffer of so many has room for any image. */
#define LPT_MOST_BYTES 24640

/* The most lanes of a gate, numbered from 1: a record buffer ends in so many counts, used or not. */
#define LPT_LANES 8

/*
 * An image of version 2 is for one lift, numbered 1 to 999; one of version 1 names no lift, and counts as lift 0.
 * Lift and lane numbers are taken as 32 bits, so that one too large is refused and not cut.
 */

/*
 * Refusals of an image, by every function that takes one, but 8, 12 and 13 not by lpt_lookup8, and none of them by
 * lpt_repair; 35 is asked after 5, and is among 1 to 7 and 1 to 13 below.
 */
#define LPT_NO_HEADER 1       /* fewer than 64 bytes */
#define LPT_NO_MARK 2         /* the first bytes are not 4C 50 54 */
#define LPT_NO_VERSION 3      /* the version is neither 1 nor 2 */
#define LPT_NO_KEY_COUNT 4    /* more than 4,096 keys */
#define LPT_NO_ZERO_BYTES 5   /* a byte that must be zero is not */
#define LPT_NO_LIFT 35        /* version 2, or writing: the lift is not 1 to 999 */
#define LPT_NO_LENGTH 6       /* the length is not 64 x (1 + all page counts) */
#define LPT_NO_BAND_COUNTS 7  /* page and root counts do not fit the key count */
#define LPT_NO_COUNTERS 8     /* T or B of a band's first page is not 0, or a later page's B is wrong */
#define LPT_NO_ROOTS 9        /* a page has not 1 to 60 roots */
#define LPT_NO_NODES 10       /* a page calls for more than 240 nodes, or a node is 00 */
#define LPT_NO_PADDING 11     /* a pair after a page's last node is not 00 */
#define LPT_NO_PACKING 12     /* a page was started before it had to be */
#define LPT_NO_LINKS 13       /* a band's out-links do not fit the band below, or the key count */

/* Refusals of the eight-page lookup, by lpt_lookup8, beside 1 to 7, 9, 10 and 11: they come of damage. */
#define LPT_NO_PAGE 27        /* no page of a band has a T at or below the root's number */
#define LPT_NO_NUMBER 28      /* the number out of a band does not fit the next band's root count, or the key count */

/* Refusals of a list, by lpt_write and lpt_write_keys, after LPT_NO_LIFT. Number 16 is not used. */
#define LPT_NO_MORE 14        /* more than 4,096 admissions; lpt_add: it would be the 4,097th */
#define LPT_NO_ORDER 15       /* the keys do not strictly ascend */
#define LPT_NO_ROOM 17        /* an output buffer is too short: for the image, or by lpt_add or lpt_withdraw the records */

/*
 * Refusal of a sale or a withdrawal, by lpt_add and lpt_withdraw, after LPT_NO_RECORDS and before LPT_NO_MORE and
 * LPT_NO_ROOM.
 */
#define LPT_NO_CHANGE 30      /* lpt_add: the admission is listed already; lpt_withdraw: it is not */

/* Refusal of a repair, by lpt_repair, after LPT_NO_ROOM. */
#define LPT_NO_REPAIR 37      /* no image that lpt_check accepts agrees in the kept bytes */

/* Refusals of a rectangle, by lpt_count and lpt_list. */
#define LPT_NO_RECTANGLE 18   /* a low end is above its high end */
#define LPT_NO_PLACE 19       /* lpt_list: the key buffer has fewer places than there are members */

/* Refusal of a rank, by lpt_find. */
#define LPT_NO_RANK 20        /* the rank is not below the key count */

/* Refusals of a scan, by lpt_scan; LPT_NO_RECORDS of a sale or a withdrawal too. */
#define LPT_NO_GATE 36        /* the image is for another lift than the gate's */
#define LPT_NO_LANE 29        /* the lane is not 1 to LPT_LANES */
#define LPT_NO_RECORDS 21     /* the record buffer's length is not key count + LPT_LANES */
#define LPT_NO_TIME 22        /* the time is 4,294,967,295 */
#define LPT_NO_OPENINGS 23    /* the lane's count is 4,294,967,295 */
#define LPT_NO_ADMISSION 24   /* the admission is not listed */
#define LPT_NO_EARLIER 25     /* the time is before the holder's last opening under any listed slot */
#define LPT_NO_LOCKOUT 26     /* the lockout since the holder's last opening is not over */

/* Returns the key of a holder and a slot, below 2^32: their bits by turns, the holder's first. Refuses nothing. */
int64_t lpt_key(uint16_t holder, uint16_t slot);

/* Returns holder x 65,536 + slot of a key, such as lpt_list fills in. Refuses nothing. */
int64_t lpt_admission_of(uint32_t key);

/*
 * Writes the image of a list for a lift, in version 2. The admissions must be in strictly ascending order of
 * their keys (lpt_key; there is no sorting here). Returns the image's length and fills just that many first bytes
 * of out; LPT_MOST_BYTES are always enough. Refuses with 35, 14, 15 or 17.
 */
int64_t lpt_write(const lpt_admission *list, size_t n, uint32_t lift, uint8_t *out, size_t out_len);

/* The same for a list of keys, strictly ascending. */
int64_t lpt_write_keys(const uint32_t *keys, size_t n, uint32_t lift, uint8_t *out, size_t out_len);

/* Checks an image. Returns its key count. Refuses with 1 to 13. */
int64_t lpt_check(const uint8_t *img, size_t len);

/* Returns the lift that an image is for, 0 for version 1. Refuses with 1 to 13. */
int64_t lpt_lift(const uint8_t *img, size_t len);

/*
 * Looks an admission up. Returns 1 and fills out[0] with its rank and out[1] to out[8] with the numbers of the
 * eight pages on its path. Where it is not listed returns 0 and fills out[0] with the number of listed admissions that
 * have a smaller key, the rank that it would have; out[1] to out[8] stay as they were. Refuses with 1 to 13.
 */
int64_t lpt_lookup(const uint8_t *img, size_t len, uint16_t holder, uint16_t slot, uint32_t out[9]);

/*
 * Looks an admission up in one page a band: it asks 1 to 7 of the header, and then reads T of the pages of each band
 * and eight pages. On an image that lpt_check accepts it answers just as lpt_lookup does, in a fraction of the time.
 * Damage beside its path it does not see, and a wrong B it follows into another branch: call lpt_check once before,
 * when the image is loaded. Returns 1 or 0 and fills out as lpt_lookup does.
 * Refuses with 1 to 7 (35 among them), and in each band with 27, 9, 10, 11, and 28 on leaving it; where the admission is
 * not listed too, in the bands from which the number of smaller keys comes.
 */
int64_t lpt_lookup8(const uint8_t *img, size_t len, uint16_t holder, uint16_t slot, uint32_t out[9]);

/*
 * Counts the admissions with holder h0 to h1 and slot s0 to s1, ends included. Returns their number.
 * Refuses with 1 to 13, 18.
 */
int64_t lpt_count(const uint8_t *img, size_t len, uint16_t h0, uint16_t h1, uint16_t s0, uint16_t s1);

/*
 * Lists them. Returns their number and fills just that many first places of keys with their keys, ascending.
 * Refuses with 1 to 13, 18, 19.
 */
int64_t lpt_list(const uint8_t *img, size_t len, uint16_t h0, uint16_t h1, uint16_t s0, uint16_t s1,
                 uint32_t *keys, size_t places);

/* Finds the admission of a rank. Returns holder x 65,536 + slot. Refuses with 1 to 13, 20. */
int64_t lpt_find(const uint8_t *img, size_t len, uint32_t rank);

/*
 * Scans a card in a lane, 1 to LPT_LANES. rec has key count + LPT_LANES elements, zeros for a new gate: element r
 * is the record of the admission of rank r alone, 0 if no scan of it opened, else the time of the last that did + 1;
 * then each lane's count of openings, lane 1's first, so that lane L's is element key count + L - 1. 25 and 26 look
 * at the holder's record, the largest among the records of all of that holder's listed admissions. lift is the gate's
 * own: any number, and an image of version 1 passes at any gate. An opening returns the rank, writes time + 1 there,
 * adds one to the lane's count and changes no other element. Refuses with 1 to 13, 36, 29, 21 to 26, and then no
 * element changes. Scans that share rec must come one after the other, in different lanes too.
 */
int64_t lpt_scan(const uint8_t *img, size_t len, uint32_t *rec, size_t rec_len, uint16_t holder, uint16_t slot,
                 uint32_t time, uint32_t lockout, uint32_t lane, uint32_t lift);

/*
 * Sells an admission: from an image with its record buffer, as lpt_scan takes it, to those of the list with the
 * admission, in a second image buffer and a second record buffer. The new image is the one that the writer gives, in
 * the image's own version and for its lift. Each other admission's record moves to its new rank, the new one starts at
 * 0, and the lanes' counts come along: rec_len + 1 elements of out_rec are filled. Returns the new image's length and
 * fills just that many first bytes of out; LPT_MOST_BYTES are always enough. img and rec stay as they are: the gate
 * goes on with out and out_rec. Refuses with 1 to 13, 21, 30, 14, 17, and then neither output changes.
 */
int64_t lpt_add(const uint8_t *img, size_t len, const uint32_t *rec, size_t rec_len, uint16_t holder, uint16_t slot,
                uint8_t *out, size_t out_len, uint32_t *out_rec, size_t out_rec_len);

/*
 * Withdraws an admission, in the same way: its record goes with it, and rec_len - 1 elements of out_rec are filled. Sold
 * and then withdrawn gives back the same bytes and records; withdrawn and then sold the same bytes, and the records with
 * that admission's at 0. Refuses with 1 to 13, 21, 30, 17, and then neither output changes.
 */
int64_t lpt_withdraw(const uint8_t *img, size_t len, const uint32_t *rec, size_t rec_len, uint16_t holder,
                     uint16_t slot, uint8_t *out, size_t out_len, uint32_t *out_rec, size_t out_rec_len);

/*
 * Repairs an image whose counters are damaged and whose nodes are sound. Kept are its length, mark, version, lift, zero
 * bytes, page counts and the 60 bytes of nodes of each page; the key count, the root counts and T and B of each page are
 * worked out afresh. There is at most one image that lpt_check accepts and that agrees in the kept bytes: the first len
 * bytes of out are filled with it. Returns how many of these 16-bit numbers it altered, 0 for an image that was sound.
 * Refuses with 17 where out_len is less than len, then with 37, and asks none of 1 to 13.
 */
int64_t lpt_repair(const uint8_t *img, size_t len, uint8_t *out, size_t out_len);

#ifdef __cplusplus
}
#endif

#endif
