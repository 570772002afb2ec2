/* Power cuts, if TAHVENNO_CUTS has a seed: each run, fill and event write is given an allowance from 0 up, and now and then what a
 * call that ended has told is lost. TAHVENNO_ONE_IN makes that one call in so many, and leaves the others whole. */
#include "parts.h"

static uint64_t state;

static uint64_t random_below(uint64_t n) { /* xorshift64 */
    state ^= state << 13;
    state ^= state >> 7;
    state ^= state << 17;
    return (state >> 11) % n;
}

static bool cutting(void) {
    static uint64_t one_in = 1;
    const char *seed = getenv("TAHVENNO_CUTS"), *rate = getenv("TAHVENNO_ONE_IN");
    if (!seed) return false;
    if (!state) {
        state = strtoull(seed, NULL, 10) * UINT64_C(0x9E3779B97F4A7C15) | 1;
        if (rate) one_in = MAX(strtoull(rate, NULL, 10), 1);
    }
    return random_below(one_in) == 0;
}

/* Of a call that makes at most so many stores. A run makes few of them as a rule, so small numbers are the ones that cut. */
uint64_t cuts_allowance(uint64_t most) {
    return cutting() ? random_below(MIN(most, 5) + 1) : most;
}

/* Whether power goes after a call's last store and before its answer is read. */
bool cuts_after(void) {
    bool lost = cutting() && random_below(8) == 0;
    watch_count(LOST_ANSWERS, lost);
    return lost;
}
