/* Petrolyaz for C: the import of eleven SCOS-2000 tables, and questions and limit steps of packets by them.
 *
 * Link with target/staticlib/libexports.a, which `rt staticlib exports` makes, for x86-64 Linux (64-bit size_t).
 *
 * Tables, packets and names are bytes, each a pointer and a length in bytes. The tables stand in the order
 * pid, pic, plf, pcf, caf, cap, txf, txp, ocf, ocp, mcf; an empty table has length 0. They are read only, need no
 * alignment and no end mark, and may overlap each other. No pointer is null, not even where the length is 0.
 * `cells`, `positions`, `rows` and `index` (2-byte aligned), `state` (5 numbers) and `answer` (8 numbers, both 8-byte
 * aligned) overlap nothing else that is passed: the state of the next step is copied out of the answer of the last.
 * The functions keep nothing between calls, call nothing but memcpy and memset, and may run in several threads at
 * once. Each needs up to 2 MiB of stack.
 *
 * The result is 0 for an answer, whose values then stand in the first places of `answer`; further places stay as they
 * were. Else it is refused: the number of the refusal * 2^32 + its place, and nothing is written, neither to `answer`
 * (but for 25 of petrolyaz_search) nor to `cells`, `positions` and `rows`. petrolyaz_number and petrolyaz_place take a
 * result apart. The place is, for 1 and 2, the first such table, 1 to 11; for 24, 28 and 29 the byte of the packet,
 * from 0, in which the first such field starts; else 0.
 * The least number decides, but petrolyaz_search seeks refusals in the order 1, 2, 40, 20 to 25, and a limit step in
 * the order 1, 2, 34, 20 to 25, 33, 26, 36, 35, 28, 30, 31.
 */
#ifndef PETROLYAZ_H
#define PETROLYAZ_H

#include <stddef.h>
#include <stdint.h>
#include <string.h>

#ifdef __cplusplus
extern "C" {
#endif

/* Raised with each change of a signature or an answer: a library whose petrolyaz_version() is PETROLYAZ_VERSION is
 * what this header declares. */
#define PETROLYAZ_VERSION 5

uint32_t petrolyaz_version(void);

/* The most rows that eleven tables have, 1,024 each: so many cells and positions are enough for any tables. */
#define PETROLYAZ_MOST_CELLS 11264

/* The most entries of an index: the rows of a table. */
#define PETROLYAZ_MOST_ENTRIES 1024

/* The tables, by the number that is the place of refusals 1 and 2. */
enum petrolyaz_table {
    PETROLYAZ_PID = 1,
    PETROLYAZ_PIC = 2,
    PETROLYAZ_PLF = 3,
    PETROLYAZ_PCF = 4,
    PETROLYAZ_CAF = 5,
    PETROLYAZ_CAP = 6,
    PETROLYAZ_TXF = 7,
    PETROLYAZ_TXP = 8,
    PETROLYAZ_OCF = 9,
    PETROLYAZ_OCP = 10,
    PETROLYAZ_MCF = 11
};

/* Why a row is not good, in the order in which reasons are sought: 13 and 14 come where 6 does, and 12 before 11. A row
 * has the first that is found; 4 to 7, 13 and 14 are sought column by column, from the left. The column, from 1, is the
 * one that the reason speaks of; column 0 is the whole row, of which 1, 2, 3 and 9 speak. */
enum petrolyaz_reason {
    PETROLYAZ_GOOD = 0,
    PETROLYAZ_LINE = 1,           /* the line is over 512 bytes long, or no line feed ends it */
    PETROLYAZ_FOREIGN_BYTE = 2,   /* a byte is neither TAB nor from 0x20 to 0x7E */
    PETROLYAZ_COLUMN_COUNT = 3,   /* the table has another number of columns */
    PETROLYAZ_EMPTY = 4,          /* the column is mandatory, and empty */
    PETROLYAZ_TOO_WIDE = 5,       /* the column is too wide */
    PETROLYAZ_NO_DIGITS = 6,      /* no digits: "-", and where no coefficient is asked "0x" and "0X"; with a position */
    PETROLYAZ_WRONG_DIGIT = 13,   /* a wrong digit: any other text that is no number or coefficient; with a position */
    PETROLYAZ_WRONG_LETTER = 14,  /* a letter that isn't listed */
    PETROLYAZ_OUT_OF_RANGE = 7,   /* the number, or a coefficient's power of ten, is out of range */
    PETROLYAZ_CONTRADICTION = 8,  /* this contradicts another column, or is not carried; the lowest such column */
    PETROLYAZ_KEY_SHARED = 9,     /* another row holds the same key (caf and mcf share theirs): so have all holders */
    PETROLYAZ_COUNT_DIFFERS = 10, /* the rows that this column counts are another number */
    PETROLYAZ_CIRCLE = 12,        /* the VALID chain returns to this row */
    PETROLYAZ_NOT_NAMED = 11      /* no good row of the kind asked has this name; the lowest such column */
};

/* Why a call is refused. */
enum petrolyaz_refusal {
    PETROLYAZ_TABLE_TOO_LONG = 1,        /* a table over 65,536 bytes */
    PETROLYAZ_TOO_MANY_ROWS = 2,         /* a table over 1,024 rows */
    PETROLYAZ_TOO_FEW_CELLS = 3,         /* import: fewer cells or positions than rows; index: too short a list */
    PETROLYAZ_PACKET_LENGTH = 20,        /* packet under 7 or over 8,192 bytes */
    PETROLYAZ_PACKET_VERSION = 21,       /* version not 0, or the type bit set */
    PETROLYAZ_LENGTH_FIELD = 22,         /* length field plus 7 isn't the packet's length */
    PETROLYAZ_DATA_FIELD = 23,           /* data field header flagged, under 9 bytes */
    PETROLYAZ_IDENTIFICATION_LEAVES = 24, /* an identification field leaves the packet */
    PETROLYAZ_NO_PID_ROW = 25,           /* no good VALID Y pid row */
    PETROLYAZ_NO_PLF_ROW = 26,           /* no good plf row for name and SPID */
    PETROLYAZ_NO_OCCURRENCE = 27,        /* occurrence not below NBOCC */
    PETROLYAZ_FIELD_LEAVES = 28,         /* a bit of the field lies outside */
    PETROLYAZ_STRING_OFF_BYTE = 29,      /* a string not on a byte */
    PETROLYAZ_OFF_CURVE = 30,            /* raw value off an F curve */
    PETROLYAZ_CURVE_RESULT = 31,         /* result of a caf curve outside -2,147,483,648 to 2,147,483,647 */
    PETROLYAZ_NO_TEXT = 32,              /* no text */
    PETROLYAZ_NO_LIMITS = 33,            /* no good ocf row */
    PETROLYAZ_NO_STATE = 34,             /* no such state: see petrolyaz_limit_step */
    PETROLYAZ_NOT_NEWER = 35,            /* packet not newer */
    PETROLYAZ_OTHER_APID = 36,           /* packet of another APID */
    PETROLYAZ_NO_INDEX = 40              /* search: the list isn't the index of these tables */
};

/* What an answer of petrolyaz_extract and petrolyaz_engineer is; its first place says it. */
enum petrolyaz_kind {
    PETROLYAZ_INTEGER = 0,
    PETROLYAZ_STRING = 1,   /* a part of the packet */
    PETROLYAZ_RAW_REAL = 2, /* the bits of a real number; of petrolyaz_extract alone */
    PETROLYAZ_TEXT = 2,     /* a part of the table txp; of petrolyaz_engineer alone */
    PETROLYAZ_DOUBLE = 3,   /* the value of a polynomial; of petrolyaz_engineer alone */
    PETROLYAZ_REAL = 4      /* the bits of a real number; of petrolyaz_engineer alone */
};

/* What is announced of a parameter. */
enum petrolyaz_announced {
    PETROLYAZ_WITHIN = 0,
    PETROLYAZ_SOFT = 1,
    PETROLYAZ_HARD = 2
};

/* The tables, as each function takes them. */
#define PETROLYAZ_TABLES \
    const uint8_t *pid, size_t pid_bytes, const uint8_t *pic, size_t pic_bytes, \
    const uint8_t *plf, size_t plf_bytes, const uint8_t *pcf, size_t pcf_bytes, \
    const uint8_t *caf, size_t caf_bytes, const uint8_t *cap, size_t cap_bytes, \
    const uint8_t *txf, size_t txf_bytes, const uint8_t *txp, size_t txp_bytes, \
    const uint8_t *ocf, size_t ocf_bytes, const uint8_t *ocp, size_t ocp_bytes, \
    const uint8_t *mcf, size_t mcf_bytes

/* A packet, and the name of a parameter. */
#define PETROLYAZ_PACKET const uint8_t *packet, size_t packet_bytes
#define PETROLYAZ_NAME const uint8_t *name, size_t name_bytes

/* At least so many numbers, which C can say and C++ can't. */
#ifdef __cplusplus
#define PETROLYAZ_STATE const int64_t *state
#define PETROLYAZ_ANSWER int64_t *answer
#else
#define PETROLYAZ_STATE const int64_t state[static 5]
#define PETROLYAZ_ANSWER int64_t answer[static 8]
#endif

/* Judges all rows: one cell for each, in table order, reason * 256 + column, 0 where the row is good, and one position
 * for each. For reasons 6 and 13 the position is that of the first character of the column, from 1, at which no number
 * can go on (of mcf: no coefficient), or one past the column's end where more would have to follow: 2 for "08" and for
 * "-", 3 for "0x", 1 for "+1". It goes by the spelling alone, whatever the range. For every other row it is 0.
 * Further cells and positions stay as they were. `cells_count` and `positions_count` count cells and positions, not
 * bytes; either may be the greater. answer: the number of rows, the number of good rows. */
uint64_t petrolyaz_import(PETROLYAZ_TABLES, uint16_t *cells, size_t cells_count, uint16_t *positions,
                          size_t positions_count, PETROLYAZ_ANSWER);

/* Which packet it is. answer: the number of the pid row, from 1; SPID; APID; type; subtype; PI1; PI2.
 * PI1 and PI2 are stored as 64 bits: one above 2^63 - 1 would stand there as itself less 2^64. Fields of 32 bits never
 * are. */
uint64_t petrolyaz_identify(PETROLYAZ_TABLES, PETROLYAZ_PACKET, PETROLYAZ_ANSWER);

/* Makes the index of the tables: the numbers, from 1, of the good VALID Y pid rows, rising by TYPE, STYPE, APID,
 * PI1_VAL and PI2_VAL. It has at most PETROLYAZ_MOST_ENTRIES; `rows_count` counts entries, not bytes. Further entries
 * stay as they were; refused by 3, where the list is too short, all do. answer: the number of entries. */
uint64_t petrolyaz_index(PETROLYAZ_TABLES, uint16_t *rows, size_t rows_count, PETROLYAZ_ANSWER);

/* Which packet it is, as petrolyaz_identify tells, by a search of the index: of n entries the one at n / 2 is compared,
 * from 0, then those before it or after it. Refused by 40, next after 1 and 2, unless the list is exactly the one that
 * petrolyaz_index makes for these tables. answer: the seven values of petrolyaz_identify, and how many entries were
 * compared, at most 11. Refused by 25, that number is answer[0] and nothing else is written: it is the one refusal that
 * tells more than its number and place. */
uint64_t petrolyaz_search(PETROLYAZ_TABLES, PETROLYAZ_PACKET, const uint16_t *index, size_t index_count,
                          PETROLYAZ_ANSWER);

/* The raw value of a parameter in a packet, occurrences from 0.
 * answer: 0, the value, valid (1) or not (0);
 *      or 1, the first byte of the string in the packet, from 0, its length in bytes, valid (1) or not (0);
 *      or 2, the bits of a real number (PTC 5), how many they are, 32 or 64, valid (1) or not (0). Fields of PFC 1 and
 *         2 are answered bit for bit, 32 and 64, a NaN too; those of PFC 3 and 4 as the 64 bits of the double that the
 *         MIL-STD-1750A number is exactly. petrolyaz_single and petrolyaz_real hand back the number. */
uint64_t petrolyaz_extract(PETROLYAZ_TABLES, PETROLYAZ_PACKET, PETROLYAZ_NAME, size_t occurrence, PETROLYAZ_ANSWER);

/* Its engineering value, valid or not.
 * answer: 0, the value;
 *      or 1, the first byte of the string in the packet, from 0, its length in bytes;
 *      or 2, the number of the txp row, from 1, the first byte of its text in txp, from 0, its length in bytes;
 *      or 3, the 64 bits of a double (IEEE 754 binary64), which petrolyaz_double hands back: the value of a polynomial,
 *         worked out from POL5 down, multiply then add, each rounded once to nearest even. The processor's rounding is
 *         as a program starts with it, to nearest: one that changes it (fesetround) sets it back before it asks;
 *      or 4, the bits of a real number and how many they are, as petrolyaz_extract answers them. */
uint64_t petrolyaz_engineer(PETROLYAZ_TABLES, PETROLYAZ_PACKET, PETROLYAZ_NAME, size_t occurrence, PETROLYAZ_ANSWER);

/* The limit state of a parameter after a packet, by its state before. A state is five numbers: fresh (1) or not (0),
 * APID, sequence count, run, and what is announced. A fresh state, which has seen no packet, is 1, 0, 0, 0, 0.
 * Five numbers are no state (34) if fresh is neither 0 nor 1, APID over 2,047, count over 16,383, run over 99 or
 * announced over 2, if one is negative, or if fresh is 1 and another isn't 0.
 * answer: the state after the packet in the same order; fresh is 0 from then on. After a refusal the state is as
 * before. */
uint64_t petrolyaz_limit_step(PETROLYAZ_TABLES, PETROLYAZ_PACKET, PETROLYAZ_NAME, PETROLYAZ_STATE, PETROLYAZ_ANSWER);

/* The number and the place of a refusal; both are 0 for an answer. */
static inline unsigned petrolyaz_number(uint64_t result) { return (unsigned)(result >> 32); }
static inline uint32_t petrolyaz_place(uint64_t result) { return (uint32_t)result; }

/* The double of a number in which its bits stand: of answer[1], where answer[0] is PETROLYAZ_DOUBLE. */
static inline double petrolyaz_double(int64_t bits)
{
    double value;
    memcpy(&value, &bits, sizeof value);
    return value;
}

/* The float of a real of 32 bits, which stand in answer[1] where answer[0] is PETROLYAZ_RAW_REAL or PETROLYAZ_REAL. */
static inline float petrolyaz_single(int64_t bits)
{
    uint32_t low = (uint32_t)bits;
    float value;
    memcpy(&value, &low, sizeof value);
    return value;
}

/* The double of a real of either width, its bits and width being answer[1] and answer[2]; 32 bits are widened. */
static inline double petrolyaz_real(int64_t bits, int64_t width)
{
    return width == 32 ? (double)petrolyaz_single(bits) : petrolyaz_double(bits);
}

/* The reason and the column of a cell; both are 0 for a good row. */
static inline unsigned petrolyaz_reason_of(uint16_t cell) { return cell / 256u; }
static inline unsigned petrolyaz_column_of(uint16_t cell) { return cell % 256u; }

#ifdef __cplusplus
}
#endif

#endif
