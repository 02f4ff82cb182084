/*
 * Rateio for C and C++: link librateio_c.a, which `tools/clib` writes to target/staticlib/ (x86-64 Linux).
 *
 * Every function here is proved to answer what its comment says, for all values of its arguments: none is undefined
 * behaviour. A text is lent as a pointer, not NULL, and the count of bytes there, which nobody writes meanwhile. None
 * keeps state, allocates, writes through a pointer or raises a signal; any number of threads may call them at once.
 */
#ifndef RATEIO_H
#define RATEIO_H

#include <stddef.h>
#include <stdint.h>

#ifdef __cplusplus
extern "C" {
#endif

/* The limit of amounts and of weight totals: 10^17. */
#define RATEIO_SHARE_LIMIT INT64_C(100000000000000000)

/* What rateio_share answers when it refuses: -10^18 less the place. Every part lies within -10^17 .. 10^17. */
#define RATEIO_SHARE_BAD_AMOUNT INT64_C(-1000000000000000001) /* place 1: p */
#define RATEIO_SHARE_BAD_TOTAL  INT64_C(-1000000000000000002) /* place 2: w */
#define RATEIO_SHARE_BAD_SUMS   INT64_C(-1000000000000000003) /* place 3: before, through */

/* Whether an answer is a refusal and no part. */
#define RATEIO_SHARE_REFUSED(answer) ((answer) < -RATEIO_SHARE_LIMIT)

/*
 * The exact part of an amount that falls to one weight of a list.
 *
 *   p        the amount, in whole cents: -10^17 .. 10^17
 *   before   the sum of the weights before this one
 *   through  that sum with this weight added
 *   w        the sum of all weights: 1 .. 10^17
 *
 *   0 <= before <= through <= w
 *
 * Answers floor(p * through / w) - floor(p * before / w), where floor goes towards minus infinity, also for a negative p,
 * and the products are exact. Otherwise it refuses, by the first of these that holds:
 *
 *   RATEIO_SHARE_BAD_AMOUNT   p is out of its limits
 *   RATEIO_SHARE_BAD_TOTAL    w is out of its limits
 *   RATEIO_SHARE_BAD_SUMS     before < 0, through < before, or w < through
 *
 * To share p over weights w1 .. wn, call it for each in turn, `before` being 0 and then the last call's `through`. The last
 * `through` is w, and the parts then total p to the cent: no rounding is left over. So -1106 over 1000 and 2000 is
 * rateio_share(-1106, 0, 1000, 3000) = -369 and rateio_share(-1106, 1000, 3000, 3000) = -737.
 *
 * Neighbours may stand on one line, whose weight is the sum of theirs (before of the first, through of the last): it
 * receives the sum of their parts, and every other line what it received. A weight of 0 receives 0 and may be left out.
 * Both are theorems over every list of weights and every p: share_joined and share_left_out in
 * crates/share/proofs/Joined.antt; of the answers here neighbours_learnt and nothing_learnt in
 * crates/rateio_c/proofs/Learnt.antt.
 */
int64_t rateio_share(int64_t p, int64_t before, int64_t through, int64_t w);

/* The longest text, in bytes, that rateio_check looks at: 10^15. */
#define RATEIO_CHECK_LIMIT INT64_C(1000000000000000)

/* What rateio_check answers but a place, which is 0 or more. */
#define RATEIO_CHECK_FILES    INT64_C(-1) /* one or more month files on end */
#define RATEIO_CHECK_TOO_LONG INT64_C(-2) /* over RATEIO_CHECK_LIMIT bytes: not looked at */

/*
 * Whether a text is one or more month files on end.
 *
 *   text, length   the bytes
 *
 * Answers RATEIO_CHECK_FILES where it is. Otherwise it answers the place of the first byte, from 0, that no text of month
 * files could have there after the bytes before it; where they all could stand at the start of such a text, but it may
 * not end there, the place is the text's length. So 0 for an empty text. RATEIO_CHECK_TOO_LONG for a text over the limit.
 *
 * A month file has four blocks, each a line of names and lines of values: one line of month,ons; then any count of lines
 * of agent,pb,pv,afs,rfs,pa,ret; of user,kind,ret,ong; and of at,tp,tf,dp,df,mp,mf,vp,vf. Values are parted by commas,
 * and every line ends in LF or in CR LF, each for itself. A value is 1 to 18 digits with no leading zero but in 0 itself,
 * after one minus sign if it is negative. Whether values lie in their limits is not looked at. Each byte is looked at
 * once. A file without the column ong, as files were before there were direct charges, comes back at the first byte after
 * user,kind,ret.
 *
 * Where a line may end a CR is in order, so the place of a lone one is the byte after it that is not LF, or the text's
 * length; anywhere else the place is the CR's. If CRs are put before LFs that had none, RATEIO_CHECK_FILES stays, and a
 * place moves by the CRs put before earlier bytes: one put right before the byte at the place stands there now, and is the
 * wrong byte (a text grown over the limit apart).
 */
int64_t rateio_check(const uint8_t *text, size_t length);

#ifdef __cplusplus
}
#endif

#endif
