/* Zaminuk for C and C++: units of purely cubic function fields.

   Lists. A list or slice is a pointer and a length. Coefficients stand lowest power first. A field is p, G, H. G and H may have zeros above
   their coefficients, up to 32 entries: such a list stands for the one without them, and every function answers as for that one. In the bytes
   of a book they have none. A record of a sheet has its lists in itself, with room for 32 entries each.
   Refusals. Every call answers: 0, or the number of a refusal from 1 to 15, the first that applies (enum zaminuk_number). Nothing has to be
   checked beforehand. What is refused of one record of a sheet stands in the state of that record.
   Outputs. What is handed over without const is written. Single numbers (degree, steps, sum, period, regulator, same, start, size) and all
   five of `said` are written in every case; beside a refusal the numbers are 0. Arrays and slices (rows, r, w, scratch, out, records) are
   as they were after a refusal, every byte of them, except that a walk refused with 10 leaves the basis reached, and tells steps and sum.
   With 0 only what a function says is changed in them; of `out` that is the front, as long as the result says; of a record it is basis,
   steps, sum and state, and its padding bytes mean nothing.
   Memory. A pointer must be aligned for its type and valid for as many items as its length or array says: to be read, and without const to
   be written. What is written may overlap nothing else that is handed over in the same call, neither an input nor another output: so the
   body that zaminuk_book_add adds may not lie in the slice of the book, also not behind the book. Inputs may be the same or overlap. With
   length 0 a pointer is not followed and may be NULL; a pointer that has no length is never NULL. Nothing else is asked of the caller.
   Stack. No call allocates. What it needs of the stack, by the frames in the machine code of this version: zaminuk_book_attest 176 KiB;
   zaminuk_book_write_rows 100 KiB; zaminuk_rescale 64 KiB; zaminuk_book_check, .._ask, .._add and zaminuk_body_.. 34 KiB; zaminuk_unit,
   zaminuk_unit_scaled and zaminuk_sheet 18 KiB; zaminuk_refusal 2 KiB; all others 14 KiB.
   Threads. Nothing is kept between calls and nothing is shared, so calls may run at the same time as long as none writes what another has.
   Platform. The library is x86-64 code for Linux (System V calling convention), and needs only memcpy and memset of the C library.

   The contracts behind the functions, and that each fixes its outcome, are in crates/capi/specs and crates/capi/proofs/Once.antt. */
#ifndef ZAMINUK_H
#define ZAMINUK_H
#include <stddef.h>
#include <stdint.h>

#ifdef __cplusplus
extern "C" {
#endif

#define ZAMINUK_VERSION_MAJOR 1
#define ZAMINUK_VERSION_MINOR 3
#define ZAMINUK_VERSION_PATCH 0
#define ZAMINUK_VERSION "1.3.0"

/* The limits. */
#define ZAMINUK_P_MIN 5             /* p is a prime from here .. */
#define ZAMINUK_P_MAX 65535         /* .. to here, with p mod 3 = 2 */
#define ZAMINUK_LIST_MAX 13         /* the most coefficients of G, and of H .. */
#define ZAMINUK_ENTRIES_MAX 32      /* .. and the most entries of the list that gives them, zeros above the coefficients included */
#define ZAMINUK_DEGREES_MAX 16      /* the most that deg G + deg H may be */
#define ZAMINUK_ROW 17              /* the coefficients of a row of a basis */
#define ZAMINUK_RECORD 119          /* a basis: M0, M1, M2, N0, N1, N2, U, 17 coefficients each */
#define ZAMINUK_BUDGET_MAX 1000000  /* the largest budget, and period of a body */
#define ZAMINUK_SHEET_MAX 64        /* the most records of a sheet */
#define ZAMINUK_STEPS_MAX 1000000000 /* the most steps of a record that is to be walked on */
#define ZAMINUK_LONG_MAX 4096       /* the most coefficients of a series, of a row of a unit, of a list E0, E1, E2 */
#define ZAMINUK_BOOK_MIN 6          /* the bytes of a book that has no bodies .. */
#define ZAMINUK_BOOK_MAX 65536      /* .. and the most that a book may have */
#define ZAMINUK_SAID 5              /* the numbers that are said of a book */

/* The refusals. */
enum zaminuk_number {
    ZAMINUK_OK = 0,
    ZAMINUK_NO_PRIME = 1,           /* p < 5, p > 65,535 or p not prime */
    ZAMINUK_ONE_MOD_THREE = 2,      /* p mod 3 = 1 */
    ZAMINUK_NO_LIST = 3,            /* G, then H: empty or of zeros only, over 32 entries, over 13 without the zeros at its end, a coefficient
                                       not below p; in the bytes of a book also over 13 long, the last one 0 */
    ZAMINUK_CONSTANTS = 4,          /* G and H both constant */
    ZAMINUK_DEGREES = 5,            /* deg G + deg H > 16 */
    ZAMINUK_NOT_THREEFOLD = 6,      /* deg G - deg H not a multiple of 3 */
    ZAMINUK_SQUARE = 7,             /* G or H has a square factor */
    ZAMINUK_SHARED = 8,             /* G and H share a factor */
    ZAMINUK_NO_BASIS = 9,           /* rows are not the scaled reduced basis of a reduced ideal of this field */
    ZAMINUK_SPENT = 10,             /* no closing within the budget */
    ZAMINUK_NO_ROOM = 11,           /* too little room */
    ZAMINUK_NO_LINE = 12,           /* of the lister alone: text line malformed */
    ZAMINUK_MALFORMED = 13,         /* book or body malformed, with a reason */
    ZAMINUK_OUT_OF_RULE = 14,       /* lent lengths or budget out of their rule, no such entry, list or convention, pairs not of one field,
                                       rows that are not a unit of positive degree so scaled with its inverse; over 64 records; of a
                                       record: its state not known, over 1,000,000,000 steps, a sum above 16 times the steps */
    ZAMINUK_KNOWN = 15              /* field already in the book: an entry is of one field with the body */
};

/* The conventions: how a unit is scaled. Under each a unit of positive degree has exactly one scaling. */
enum zaminuk_convention {
    ZAMINUK_E0_MONIC = 1,           /* E0 is monic */
    ZAMINUK_NORM_ONE = 2            /* the norm is 1 */
};

/* The states of a record. A state from 1 to 9, or 14, is the refusal of that number; any other than these is unknown. */
enum zaminuk_state {
    ZAMINUK_OPEN = 0,               /* it is to be walked on */
    ZAMINUK_CLOSED = 100            /* its walk has come back */
};

/* The reasons of refusal 13. */
enum zaminuk_reason {
    ZAMINUK_REASON_MARK = 1,        /* not 6 to 65,536 bytes that begin with PCF1 */
    ZAMINUK_REASON_CONTENTS = 2,    /* the contents do not name the bodies without gaps and in order to the book's end */
    ZAMINUK_REASON_BODY = 3,        /* an entry breaks the body rule */
    ZAMINUK_REASON_FIELD = 4,       /* the field of an entry is refused; the other number is that refusal */
    ZAMINUK_REASON_TWICE = 5        /* two entries are of one field; the other number is the earlier entry */
};

/* The places of what is said of a book: said[ZAMINUK_SAID_RESULT] and so on. */
enum zaminuk_said {
    ZAMINUK_SAID_NUMBER = 0,        /* the refusal, 0 for none */
    ZAMINUK_SAID_REASON = 1,        /* with 13 the reason, else 0 */
    ZAMINUK_SAID_ENTRY = 2,         /* with reasons 3, 4 and 5 the entry, else 0 */
    ZAMINUK_SAID_OTHER = 3,         /* with reasons 4 and 5 the other number, else 0 */
    ZAMINUK_SAID_RESULT = 4         /* the result, 0 beside a refusal */
};

/* A number of steps, and a number of half degrees: two types, so that one does not pass for the other. */
typedef struct zaminuk_period { uint64_t steps; } zaminuk_period;
typedef struct zaminuk_regulator { uint64_t half_degrees; } zaminuk_regulator;

/* A walk that is under way: its field, the basis that it has reached, the steps taken so far and the sum of their degrees, its state. G is
   the first ng entries of g, H the first nh of h; those above are not read and stay. A count over 32 is refused as a list of over 32
   entries: 3. Compare two records member by member: bytes that belong to no member mean nothing. */
typedef struct zaminuk_walk_record {
    uint64_t p;
    uint64_t g[ZAMINUK_ENTRIES_MAX];
    size_t ng;
    uint64_t h[ZAMINUK_ENTRIES_MAX];
    size_t nh;
    uint16_t basis[ZAMINUK_RECORD];
    uint64_t steps;
    uint64_t sum;
    uint32_t state;                 /* enum zaminuk_state, or the number of a refusal */
} zaminuk_walk_record;

/* The layout that the library knows, where the language can say it: C from C11 on, C++ from C++11 on. */
#if defined(__cplusplus) && __cplusplus >= 201103L
#define ZAMINUK_HOLDS(fact) static_assert(fact, #fact)
#elif !defined(__cplusplus) && defined(__STDC_VERSION__) && __STDC_VERSION__ >= 201112L
#define ZAMINUK_HOLDS(fact) _Static_assert(fact, #fact)
#endif
#ifdef ZAMINUK_HOLDS
ZAMINUK_HOLDS(offsetof(zaminuk_walk_record, p) == 0);
ZAMINUK_HOLDS(offsetof(zaminuk_walk_record, g) == 8);
ZAMINUK_HOLDS(offsetof(zaminuk_walk_record, ng) == 264);
ZAMINUK_HOLDS(offsetof(zaminuk_walk_record, h) == 272);
ZAMINUK_HOLDS(offsetof(zaminuk_walk_record, nh) == 528);
ZAMINUK_HOLDS(offsetof(zaminuk_walk_record, basis) == 536);
ZAMINUK_HOLDS(offsetof(zaminuk_walk_record, steps) == 776);
ZAMINUK_HOLDS(offsetof(zaminuk_walk_record, sum) == 784);
ZAMINUK_HOLDS(offsetof(zaminuk_walk_record, state) == 792);
ZAMINUK_HOLDS(sizeof(zaminuk_walk_record) == 800);
#undef ZAMINUK_HOLDS
#endif

/* ---- fields ---- */

/* The first refusal of the field p, G, H: 1 to 8, or 0. The other functions of a field begin with the same refusals. */
uint32_t zaminuk_refusal(uint64_t p, const uint64_t *g, size_t gn, const uint64_t *h, size_t hn);

/* The first rn = wn coefficients of r and w, highest power first. 14 where rn is not wn or over 4,096. */
uint32_t zaminuk_series(uint64_t p, const uint64_t *g, size_t gn, const uint64_t *h, size_t hn,
                        uint16_t *r, size_t rn, uint16_t *w, size_t wn);

/* The basis of the order. */
uint32_t zaminuk_order(uint64_t p, const uint64_t *g, size_t gn, const uint64_t *h, size_t hn,
                       uint16_t rows[ZAMINUK_RECORD]);

/* Whether the rows are the scaled reduced basis of a reduced ideal: 0, or the refusal; 9 where they are not. */
uint32_t zaminuk_check(uint64_t p, const uint64_t *g, size_t gn, const uint64_t *h, size_t hn,
                       const uint16_t rows[ZAMINUK_RECORD]);

/* One step in place; the degree of the m divided by. 9 as zaminuk_check. */
uint32_t zaminuk_step(uint64_t p, const uint64_t *g, size_t gn, const uint64_t *h, size_t hn,
                      uint16_t rows[ZAMINUK_RECORD], uint64_t *degree);

/* At most `budget` steps in place; steps taken and the sum of their degrees. 14 for a budget over 1,000,000, then 9, then 10 where the walk
   does not come back within the budget: rows then hold the basis reached. */
uint32_t zaminuk_walk(uint64_t p, const uint64_t *g, size_t gn, const uint64_t *h, size_t hn, uint64_t budget,
                      uint16_t rows[ZAMINUK_RECORD], uint64_t *steps, uint64_t *sum);

/* A sheet: each of the records, in list order, walked on by at most `budget` steps. 14 for over 64 records or a budget over 1,000,000, with
   nothing changed; else 0, and every record becomes what it would become in a sheet of its own:
   - Where its state is ZAMINUK_CLOSED or a refusal (1 to 9, 14), it stays as it is, whatever else it holds.
   - Else it may be bad: 1 to 8 for its field; then 14 for an unknown state, over 1,000,000,000 steps or a sum above 16 times the steps; then
     9 as zaminuk_check. The number of the first is put into its state, and nothing else of it changes. A budget of 0 marks it too.
   - Else it is walked on as by zaminuk_walk: the basis is the one reached, the steps taken and their degrees are added to steps and sum. The
     state is ZAMINUK_CLOSED where the walk came back, else it stays ZAMINUK_OPEN, and a later sheet goes on from there.
   A record begins with the basis of zaminuk_order, steps 0 and sum 0. Once such a record is closed, its steps are the period and its sum is
   twice the regulator. */
uint32_t zaminuk_sheet(zaminuk_walk_record *records, size_t count, uint64_t budget);

/* Period and regulator, by at most `budget` steps from the order. Twice the regulator is the least positive degree of a unit; with
   refusal 10 no unit has a degree from 1 to the budget. */
uint32_t zaminuk_from_order(uint64_t p, const uint64_t *g, size_t gn, const uint64_t *h, size_t hn, uint64_t budget,
                            zaminuk_period *period, zaminuk_regulator *regulator);

/* The fundamental unit, the smallest of positive degree with E0 monic (convention 1), and its inverse: E0, E1, E2, F0, F1, F2 into rows,
   c = rn/6 coefficients each, zeros above a row's degree; scratch has the same length and holds zeros afterwards. 14 where rn is not 6c with
   c at most 4,096, sn is not rn, or the budget is over 1,000,000; then 10; then 11 where c is not above twice the regulator. */
uint32_t zaminuk_unit(uint64_t p, const uint64_t *g, size_t gn, const uint64_t *h, size_t hn, uint64_t budget,
                      uint16_t *rows, size_t rn, uint16_t *scratch, size_t sn, zaminuk_period *period, zaminuk_regulator *regulator);

/* The same unit scaled by the named convention; with ZAMINUK_E0_MONIC it is zaminuk_unit. 14 also for a convention but these two. */
uint32_t zaminuk_unit_scaled(uint64_t p, const uint64_t *g, size_t gn, const uint64_t *h, size_t hn, uint64_t budget, uint32_t convention,
                             uint16_t *rows, size_t rn, uint16_t *scratch, size_t sn, zaminuk_period *period,
                             zaminuk_regulator *regulator);

/* The rows of a unit of positive degree, fundamental or not, and of its inverse, as zaminuk_unit writes them, scaled by the convention
   `from`, become those of the same unit scaled by `to`, in place: E times a constant, F over it. There and back gives the same rows; where
   from is to, nothing changes. 14 for a convention but these two, where rn is not 6c with c at most 4,096, and where the rows are not such a
   unit with its inverse, any number of p or more included. The time grows with the square of the rows' length. */
uint32_t zaminuk_rescale(uint64_t p, const uint64_t *g, size_t gn, const uint64_t *h, size_t hn, uint32_t from, uint32_t to,
                         uint16_t *rows, size_t rn);

/* Whether the pairs G, H and G2, H2 over one p are of one field, that is, agree after all lists are made monic, in either order: same is
   1 or 0. Refusals 1 to 8 of the first pair, then of the second; same is 0 then. */
uint32_t zaminuk_one_field(uint64_t p, const uint64_t *g, size_t gn, const uint64_t *h, size_t hn,
                           const uint64_t *g2, size_t g2n, const uint64_t *h2, size_t h2n, uint64_t *same);

/* The rows of a unit and its inverse for G, H, as zaminuk_unit writes them, become those for G2, H2, a pair of the same field, in place:
   E0 and F0 stay, the others take constant factors, and change places where the pair is exchanged; so the convention stays too. Refusals
   1 to 8 of the first pair, then of the second, then 14 where the pairs are not of one field or rn is not 6c with c at most 4,096. */
uint32_t zaminuk_transfer(uint64_t p, const uint64_t *g, size_t gn, const uint64_t *h, size_t hn,
                          const uint64_t *g2, size_t g2n, const uint64_t *h2, size_t h2n, uint16_t *rows, size_t rn);

/* ---- books: PCF1, at most 65,536 bytes ---- */

/* Begins a book, one with no bodies, at the front of out; the result is its length, 6. 11 where n is less. */
void zaminuk_book_begin(uint8_t *out, size_t n, uint64_t said[ZAMINUK_SAID]);

/* A body into the front of out; the result is its length. Refusals 1 to 8; 13 with reason 3, entry 0, where period and lists break the body
   rule: they must be without zeros at their end; 11 where n is less than the length. */
void zaminuk_book_write(uint64_t p, const uint64_t *g, size_t gn, const uint64_t *h, size_t hn, zaminuk_period period,
                        const uint64_t *e0, size_t n0, const uint64_t *e1, size_t n1, const uint64_t *e2, size_t n2,
                        uint8_t *out, size_t n, uint64_t said[ZAMINUK_SAID]);

/* The same from the rows that zaminuk_unit writes: E0, E1, E2 are the first three of the six, without the zeros at their end. A book keeps
   convention 1: rows of another are turned before. Refusals 1 to 8; 14 where rn is not 6c with c at most 4,096; then as
   zaminuk_book_write. */
void zaminuk_book_write_rows(uint64_t p, const uint64_t *g, size_t gn, const uint64_t *h, size_t hn, zaminuk_period period,
                             const uint16_t *rows, size_t rn, uint8_t *out, size_t n, uint64_t said[ZAMINUK_SAID]);

/* A body added to the book of the given length at the front of out; the result is the new length. 14 where length is over n; 13 for the
   book, then for the body, whose entry is the number of bodies; 15 where an entry is of one field with the body; 11 where the new book does
   not fit n or 65,536. The body may not lie in out. The whole book is checked each time: the cost of an addition is that of a check, and
   grows with the square of the number of bodies. */
void zaminuk_book_add(uint8_t *out, size_t n, size_t length, const uint8_t *body, size_t bn, uint64_t said[ZAMINUK_SAID]);

/* Checks a book: 0, or 13. */
void zaminuk_book_check(const uint8_t *book, size_t n, uint64_t said[ZAMINUK_SAID]);

/* The number of bodies that the bytes 4 and 5 say. Nothing is checked; a byte that is not there counts 0. */
size_t zaminuk_book_bodies(const uint8_t *book, size_t n);

/* Where entry i's part of the book starts, and its length. 13, then 14 where there is no such entry. */
void zaminuk_book_ask(const uint8_t *book, size_t n, size_t i, size_t *start, size_t *size, uint64_t said[ZAMINUK_SAID]);

/* Whether entry i's E has a non-zero constant norm: the result is 1 for yes. Refused as zaminuk_book_ask. */
void zaminuk_book_attest(const uint8_t *book, size_t n, size_t i, uint64_t said[ZAMINUK_SAID]);

/* The parts of a body, which is checked first: 13 with reason 3 or 4, entry 0, where it is not formed or its field is refused. The results:
   the prime; the period; the length of list k (0 to 4 for G, H, E0, E1, E2), which stands in the front of out. 14 for another k, 11 where
   on is less than the length. */
void zaminuk_body_prime(const uint8_t *body, size_t n, uint64_t said[ZAMINUK_SAID]);
void zaminuk_body_period(const uint8_t *body, size_t n, uint64_t said[ZAMINUK_SAID]);
void zaminuk_body_list(const uint8_t *body, size_t n, size_t k, uint64_t *out, size_t on, uint64_t said[ZAMINUK_SAID]);

#ifdef __cplusplus
}
#endif
#endif
