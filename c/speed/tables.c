/* SPDX-License-Identifier: ISC */
/* The tables, and the limits of ratios. */
#include "speed.h"
#include <stdio.h>

/* The limit of each call's time over that in an earlier library. */
#define EARLIER_LIMIT 1.04

static const char *const COLUMN[PARTIES] = {
    [EARLIER] = "earlier", [OPENSSL] = "OpenSSL", [SODIUM] = "libsodium", [RING] = "ring",
    [RUSTCRYPTO] = "RustCrypto",
};

/* The ratio of two times, or 0 where one wasn't measured. */
static double ratio_of(double time, double base) {
    return time > 0 && base > 0 ? time / base : 0;
}

static double value_of(const ratio *it, int h) {
    return ratio_of(least[it->row][h][it->party],
                    it->factor[h] * least[it->base_row][h][it->base_party]);
}

static void print_cell(double value) {
    if (value > 0) printf(" %.2f |", value);
    else printf(" |");
}

/* Prints the line between a table's head and its rows. */
static void print_rule(int columns) {
    printf("\n|---|");
    for (int i = 0; i < columns; i++) printf("---|");
}

/* Whether the table of libraries has a column of this party. */
static bool has_column(int h, int p) {
    return p == OURS || (COLUMN[p] && least[DIGEST_64][h][p] > 0);
}

/* Prints the head of the table of libraries, and gives its number of columns. */
static int print_head(void) {
    int columns = 0;
    printf("\n| Work |");
    for (int h = 0; h < HASHES; h++)
        for (int p = 0; p < PARTIES; p++) {
            if (!has_column(h, p)) continue;
            if (p == OURS) printf(" %s |", HASH[h].name);
            else printf(" / %s |", COLUMN[p]);
            columns++;
        }
    return columns;
}

void print_libraries(void) {
    print_rule(print_head());
    for (int w = 0; w < CALLED_WORKS && w < work_count; w++) {
        printf("\n| %s |", WORK[w].name);
        for (int h = 0; h < HASHES; h++) {
            const double *times = least[w][h];
            if (times[OURS] < 10000) printf(" %.0f ns |", times[OURS]);
            else printf(" %.0f us |", times[OURS] / 1000);
            for (int p = OURS + 1; p < PARTIES; p++)
                if (has_column(h, p)) print_cell(ratio_of(times[OURS], times[p]));
        }
    }
    puts("");
}

/* The time of several messages in one call over that of as many calls. */
static double over_one_by_one(int h, size_t count, size_t len) {
    int one = len == 16 ? DIGEST_16 : len == 64 ? DIGEST_64 : DIGEST_1K;
    return ratio_of(least[row_of(count, len)][h][OURS], (double)count * least[one][h][OURS]);
}

void print_counts(void) {
    printf("\n| Messages in one call |");
    for (size_t c = 0; c < COUNTS; c++) printf(" %zu |", COUNT[c]);
    print_rule(COUNTS);
    for (int h = 0; h < HASHES; h++)
        for (size_t l = 0; l < LENGTHS; l++) {
            printf("\n| %s, %zu bytes each |", HASH[h].name, LENGTH[l]);
            for (size_t c = 0; c < COUNTS; c++)
                print_cell(over_one_by_one(h, COUNT[c], LENGTH[l]));
        }
    puts("");
}

void print_builds(void) {
    bool has_earlier = least[DIGEST_64][OF_SHA1][EARLIER_V2] > 0;
    printf("\n| Work, the build for x86-64-v2 |");
    for (int h = 0; h < HASHES; h++)
        printf(" %s |%s v3 / v2 |", HASH[h].name, has_earlier ? " / earlier |" : "");
    print_rule((has_earlier ? 3 : 2) * HASHES);
    for (int w = 0; w < CALLED_WORKS; w++) {
        printf("\n| %s |", WORK[w].name);
        for (int h = 0; h < HASHES; h++) {
            const double *times = least[w][h];
            printf(" %.2f us |", times[V2] / 1000);
            if (has_earlier) print_cell(ratio_of(times[V2], times[EARLIER_V2]));
            print_cell(ratio_of(times[V3], times[V2]));
        }
    }
    puts("");
}

/* Prints the ratios of the parties that take part, each with its limit in brackets. */
void print_ratios(void) {
    printf("\n| Ratio, and its limit |");
    for (int h = 0; h < HASHES; h++) printf(" %s |", HASH[h].name);
    print_rule(HASHES);
    for (const ratio *it = RATIO; it < RATIO + RATIOS; it++) {
        if (value_of(it, OF_SHA256) == 0) continue;
        printf("\n| %s |", it->name);
        for (int h = 0; h < HASHES; h++) {
            double value = value_of(it, h);
            if (value > 0 && it->limit[h] > 0) printf(" %.2f (%.2f) |", value, it->limit[h]);
            else print_cell(value);
        }
    }
    puts("");
}

/* A ratio as it is printed. */
static int hundredths(double value) { return (int)(100 * value + 0.5); }

/* Whether a ratio is above its limit, or wasn't measured: it is then printed. */
static bool is_above(const char *name, int h, double value, double limit) {
    if (value > 0 && hundredths(value) <= hundredths(limit)) return false;
    printf("not within its limit: %s, %s: ", name, HASH[h].name);
    if (value > 0) printf("%.2f, and at most %.2f\n", value, limit);
    else puts("it wasn't measured");
    return true;
}

/* Prints the calls that are above their limit over an earlier library, and gives how many; adds to
 * the number of limits. */
static int check_earlier(int ours, int earlier, const char *where, int *limits) {
    int above = 0;
    for (int w = 0; w < CALLED_WORKS; w++)
        for (int h = 0; h < HASHES; h++) {
            double value = ratio_of(least[w][h][ours], least[w][h][earlier]);
            char name[80];
            if (value == 0) continue;
            snprintf(name, sizeof name, "%s / %s", WORK[w].name, where);
            *limits += 1, above += is_above(name, h, value, EARLIER_LIMIT);
        }
    return above;
}

int check_limits(void) {
    int limits = 0, above = 0;
    puts("");
    for (const ratio *it = RATIO; it < RATIO + RATIOS; it++)
        for (int h = 0; h < HASHES; h++) {
            if (it->limit[h] == 0) continue;
            limits++, above += is_above(it->name, h, value_of(it, h), it->limit[h]);
        }
    above += check_earlier(OURS, EARLIER, "earlier", &limits);
    above += check_earlier(V2, EARLIER_V2, "the earlier build for x86-64-v2", &limits);
    printf("%d limits, %d hold\n", limits, limits - above);
    return above;
}
