/* Some of the specification's figures, asked through the C interface:
 *   .ci/build
 *   cc -Wall -Wextra -Iinclude examples/c/figures.c target/staticlib/libexports.a -o figures && ./figures */
#include "petrolyaz.h"
#include <stdio.h>
#include <string.h>

struct table { const uint8_t *bytes; size_t length; };
#define TEXT(s) { (const uint8_t *)(s), sizeof(s) - 1 }
#define NAME(s) (const uint8_t *)(s), sizeof(s) - 1
#define PAIR(t, i) (t)[i].bytes, (t)[i].length
#define ALL(t) PAIR(t, 0), PAIR(t, 1), PAIR(t, 2), PAIR(t, 3), PAIR(t, 4), PAIR(t, 5), PAIR(t, 6), PAIR(t, 7), PAIR(t, 8), PAIR(t, 9), PAIR(t, 10)

static const uint8_t packet[] = {0x08, 0x0A, 0xC0, 0x00, 0x00, 0x07, 0x10, 0x03, 0x19, 0x00, 0xFF, 0x85, 0x12, 0x34};

/* The same with the last sequence count. */
static const uint8_t last[] = {0x08, 0x0A, 0xFF, 0xFF, 0x00, 0x07, 0x10, 0x03, 0x19, 0x00, 0xFF, 0x85, 0x12, 0x34};

/* A curve with three points announced and two there. */
static const struct table counted[11] = {
    TEXT(""), TEXT(""), TEXT(""), TEXT(""), TEXT("C\t\tI\tI\t\t\t3\t\n"), TEXT("C\t0\t0\nC\t10\t5\n"), TEXT(""), TEXT(""), TEXT(""), TEXT(""), TEXT(""),
};

/* 0767 and 0x12F4, 08, a minus alone, and a letter that isn't listed; mcf with an exponent that doesn't go on. */
static const struct table misspelt[11] = {
    TEXT(""), TEXT(""), TEXT(""), TEXT(""), TEXT("C\t\tI\tX\t\t\t2\t\n"), TEXT("C\t0767\t0x12F4\nC\t08\t0\nC\t10\t-\n"),
    TEXT(""), TEXT(""), TEXT(""), TEXT(""), TEXT("Q\t\t1e\t\t\t\t\n"),
};

/* Subtypes 25, 5, 9, which is VALID N, and 17. */
static const struct table packets[11] = {
    TEXT("3\t25\t10\t\t\t7\t\t\t\t\t\t\t\t\t\t\n3\t5\t10\t\t\t8\t\t\t\t\t\t\t\t\t\t\n"
         "3\t9\t10\t\t\t9\t\t\t\t\t\t\tN\t\t\t\n3\t17\t10\t\t\t6\t\t\t\t\t\t\t\t\t\t\n"),
    TEXT(""), TEXT(""), TEXT(""), TEXT(""), TEXT(""), TEXT(""), TEXT(""), TEXT(""), TEXT(""), TEXT(""),
};

static const struct table asked[11] = {
    TEXT("3\t25\t10\t\t\t7\t\t\t\t\t\t\t\t\t\t\n"),
    TEXT(""),
    TEXT("WORD\t7\t12\t0\t\t\t\t\nBYTE\t7\t10\t0\t\t\t\t\nPAST\t7\t13\t0\t\t\t\t\nPART\t7\t12\t0\t\t\t\t\nCURVE\t7\t7\t4\t\t\t\t\nMODE\t7\t9\t0\t\t\t\t\n"
         "POLY\t7\t10\t0\t\t\t\t\nSINGLE\t7\t9\t1\t\t\t\t\nMIL\t7\t10\t0\t\t\t\t\n"),
    TEXT("WORD\t\t\t\t3\t12\t\t\t\tN\tR\t\t\t\t\t\t\t\t\t\t\t\t\n"
         "BYTE\t\t\t\t4\t4\t\t\t\tN\tR\t\t\t\t\t\t\t\t\t\t\t\t\n"
         "PAST\t\t\t\t3\t12\t\t\t\tN\tR\t\t\t\t\t\t\t\t\t\t\t\t\n"
         "PART\t\t\t\t8\t2\t\t\t\tT\tR\t\t\t\t\t\t\t\t\t\t\t\t\n"
         "CURVE\t\t\t\t3\t0\t\t\t\tN\tR\tC\t\t\t\t\t\t\t\t\t\t\t\n"
         "MODE\t\t\t\t3\t4\t\t\t\tS\tR\tM\t\t\t\t\t\t\t\t\t\t\t\n"
         "POLY\t\t\t\t4\t4\t\t\t\tN\tR\tQ\t\t\t\t\t\t\t\t\t\t\t\n"
         "SINGLE\t\t\t\t5\t1\t\t\t\tN\tR\t\t\t\t\t\t\t\t\t\t\t\t\n"
         "MIL\t\t\t\t5\t3\t\t\t\tN\tR\t\t\t\t\t\t\t\t\t\t\t\t\n"),
    TEXT("C\t\tI\tI\t\t\t3\tP\n"),
    TEXT("C\t0\t0\nC\t10\t-5\nC\t20\t100\n"),
    TEXT("M\t\tU\t1\n"),
    TEXT("M\t0\t0\tOFF\n"),
    TEXT("WORD\t2\t2\tU\tI\nPAST\t1\t1\tU\tI\n"),
    TEXT("WORD\t0\tS\t0\t4000\t\t\nWORD\t1\tH\t0\t5000\t\t\nPAST\t0\tS\t0\t9\t\t\n"),
    TEXT("Q\t\t0.25\t-1.5e0\t1E-1\t\t\n"),
};

static int64_t answer[8];
static int wrong;

static void expect(const char *what, uint64_t result, unsigned number, uint32_t place, int n, const int64_t *values)
{
    int ok = petrolyaz_number(result) == number && petrolyaz_place(result) == place;
    for (int i = 0; i < 8; i++)
        ok = ok && answer[i] == (i < n ? values[i] : 77);
    printf("%s: %s\n", what, ok ? "ok" : "WRONG");
    wrong += !ok;
    for (int i = 0; i < 8; i++)
        answer[i] = 77;
}

static void expect_words(const char *what, const uint16_t *answered, const uint16_t *expected)
{
    int ok = memcmp(answered, expected, 6 * sizeof *answered) == 0;
    printf("%s: %s\n", what, ok ? "ok" : "WRONG");
    wrong += !ok;
}

static void expect_double(const char *what, double answered, double expected)
{
    int ok = memcmp(&answered, &expected, sizeof answered) == 0;
    printf("%s: %s\n", what, ok ? "ok" : "WRONG");
    wrong += !ok;
}

#define VALUES(...) sizeof((int64_t[]){__VA_ARGS__}) / 8, (const int64_t[]){__VA_ARGS__}
#define NOTHING 0, answer
#define INDEX(count) petrolyaz_index(ALL(packets), rows, count, answer)
#define SEARCH(tables, count) petrolyaz_search(ALL(tables), packet, 14, rows, count, answer)
#define EXTRACT(name) petrolyaz_extract(ALL(asked), packet, 14, NAME(name), 0, answer)
#define ENGINEER(name) petrolyaz_engineer(ALL(asked), packet, 14, NAME(name), 0, answer)
#define STEP(packet, name, ...) petrolyaz_limit_step(ALL(asked), packet, 14, NAME(name), (const int64_t[5]){__VA_ARGS__}, answer)

int main(void)
{
    uint16_t cells[6] = {9, 9, 9, 9, 9, 9}, positions[6] = {9, 9, 9, 9, 9, 9};
    const uint16_t untouched[6] = {9, 9, 9, 9, 9, 9};
    const uint16_t judged[6] = {2567, 2817, 2817, 9, 9, 9}, nowhere[6] = {0, 0, 0, 9, 9, 9};
    const uint16_t faults[6] = {3588, 2817, 3330, 1539, 3331, 9}, places[6] = {0, 0, 2, 2, 3, 9};
    uint16_t rows[6] = {9, 9, 9, 9, 9, 9};
    const uint16_t rising[6] = {2, 4, 1, 9, 9, 9};
    uint64_t result;

    memset(answer, 0, sizeof answer);
    expect("eight places", 0, 0, 0, VALUES(0, 0, 0, 0, 0, 0, 0, 0));
    expect("two cells are too few", petrolyaz_import(ALL(counted), cells, 2, positions, 3, answer), 3, 0, NOTHING);
    expect("two positions are too few", petrolyaz_import(ALL(counted), cells, 6, positions, 2, answer), 3, 0, NOTHING);
    expect_words("no cell touched", cells, untouched);
    expect_words("no position touched", positions, untouched);
    expect("three rows, none good", petrolyaz_import(ALL(counted), cells, 6, positions, 3, answer), 0, 0, VALUES(3, 0));
    expect_words("their cells", cells, judged);
    expect_words("their positions", positions, nowhere);
    expect("five rows, 08 among them", petrolyaz_import(ALL(misspelt), cells, 5, positions, 6, answer), 0, 0, VALUES(5, 0));
    expect_words("08 is 13, and - is 6", cells, faults);
    expect_words("08 goes wrong at 2", positions, places);
    expect("APID 10, type 3, subtype 25", petrolyaz_identify(ALL(asked), packet, 14, answer), 0, 0, VALUES(1, 7, 10, 3, 25, 0, 0));
    expect("packet of six bytes", petrolyaz_identify(ALL(asked), packet, 6, answer), 20, 0, NOTHING);
    expect("two entries are too few", INDEX(2), 3, 0, NOTHING);
    expect_words("no entry touched", rows, untouched);
    expect("an index of three rows", INDEX(6), 0, 0, VALUES(3));
    expect_words("subtypes 5, 17 and 25", rows, rising);
    expect("the second entry compared, and the third", SEARCH(packets, 3), 0, 0, VALUES(1, 7, 10, 3, 25, 0, 0, 2));
    expect("an entry missing", SEARCH(packets, 2), 40, 0, NOTHING);
    expect("an entry too many", SEARCH(packets, 4), 40, 0, NOTHING);
    expect("no rows, and nothing to compare", SEARCH(counted, 0), 25, 0, VALUES(0));
    expect("unsigned 16 at byte 12", EXTRACT("WORD"), 0, 0, VALUES(0, 4660, 1));
    expect("signed 8 at byte 10", EXTRACT("BYTE"), 0, 0, VALUES(0, -1, 1));
    expect("16 bits at byte 13", EXTRACT("PAST"), 28, 13, NOTHING);
    expect("two bytes at byte 12", EXTRACT("PART"), 0, 0, VALUES(1, 12, 2, 1));
    expect("3 on the curve", ENGINEER("CURVE"), 0, 0, VALUES(0, -2));
    expect("text of 0", ENGINEER("MODE"), 0, 0, VALUES(2, 1, 6, 3));
    expect("two bytes of text", ENGINEER("PART"), 0, 0, VALUES(1, 12, 2));
    result = ENGINEER("POLY");
    expect_double("0.25 - 1.5 x + 0.1 x x at -1", petrolyaz_double(answer[1]), 1.85);
    expect("its bits", result, 0, 0, VALUES(PETROLYAZ_DOUBLE, 0x3FFD99999999999A));
    expect("a single at byte 9, bit 1", EXTRACT("SINGLE"), 0, 0, VALUES(PETROLYAZ_RAW_REAL, 0x01FF0A24, 32, 1));
    result = ENGINEER("MIL");
    expect_double("-31,470 * 2 ^ (52 - 23)", petrolyaz_real(answer[1], answer[2]), -31470.0 * 536870912.0);
    expect("its bits", result, 0, 0, VALUES(PETROLYAZ_REAL, -0x3D51448000000000, 64));
    expect("no such name", ENGINEER("NONE"), 26, 0, NOTHING);
    expect("count 16,383, a first value above 4,000", STEP(last, "WORD", 1, 0, 0, 0, 0), 0, 0, VALUES(0, 10, 16383, 1, 0));
    expect("next count 0: newer, and soft", STEP(packet, "WORD", 0, 10, 16383, 1, 0), 0, 0, VALUES(0, 10, 0, 2, 1));
    expect("the same count again", STEP(packet, "WORD", 0, 10, 0, 2, 1), 35, 0, NOTHING);
    expect("another APID", STEP(packet, "WORD", 0, 11, 16383, 1, 0), 36, 0, NOTHING);
    expect("a fresh state with a run", STEP(packet, "WORD", 1, 0, 0, 1, 0), 34, 0, NOTHING);
    expect("an APID of 65,546, which is 10 in 16 bits", STEP(packet, "WORD", 0, 65546, 16383, 1, 0), 34, 0, NOTHING);
    expect("a run of -1", STEP(packet, "WORD", 0, 10, 16383, -1, 0), 34, 0, NOTHING);
    expect("no limits", STEP(packet, "BYTE", 1, 0, 0, 0, 0), 33, 0, NOTHING);
    expect("limits outside", STEP(packet, "PAST", 1, 0, 0, 0, 0), 28, 13, NOTHING);
    return wrong != 0;
}
