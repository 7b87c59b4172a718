/* The whole way in C: a field's order, walk, period, regulator and unit, by both conventions; a sheet of fields walked side by side; a body; a
   book begun, added to, checked and attested; and the parts of a body read back. Every buffer has a pattern before and behind it, which is
   looked at in the end.

       cc -I include examples/whole_way.c target/staticlib/libcapi.a && ./a.out

   writes examples/whole_way.out. C99, and C++ as well. */
#include "zaminuk.h"
#include <stdio.h>
#include <string.h>

#define LENGTH 16 /* coefficients of a row of the unit: more than twice the regulator */
#define EDGE 64
#define GUARDED(type, name, n) static struct { unsigned char low[EDGE]; type at[n]; unsigned char high[EDGE]; } name

GUARDED(uint16_t, basis, ZAMINUK_RECORD);
GUARDED(uint16_t, rows, 6 * LENGTH);
GUARDED(uint16_t, scratch, 6 * LENGTH);
GUARDED(uint16_t, r, 8);
GUARDED(uint16_t, w, 8);
GUARDED(zaminuk_walk_record, sheet, 3);
GUARDED(uint64_t, list, LENGTH);
GUARDED(uint64_t, said, ZAMINUK_SAID);
GUARDED(uint8_t, body, 200);
GUARDED(uint8_t, again, 200);
GUARDED(uint8_t, book, 400);

static size_t length; /* of the book */

typedef struct field { uint64_t p; const uint64_t *g; size_t gn; const uint64_t *h; size_t hn; } field;

static int intact(const unsigned char *edge) {
    size_t i;
    for (i = 0; i < EDGE; i++)
        if (edge[i] != 0xA5) return 0;
    return 1;
}

/* Fills the edges of every buffer, or looks whether they are as they were filled. */
static int edges(int fill) {
    unsigned char *const all[] = {basis.low, basis.high, rows.low, rows.high, scratch.low, scratch.high, r.low, r.high, w.low, w.high,
                                  sheet.low, sheet.high, list.low, list.high, said.low, said.high, body.low, body.high,
                                  again.low, again.high, book.low, book.high};
    size_t i;
    int good = 1;
    for (i = 0; i < sizeof all / sizeof *all; i++) {
        if (fill) memset(all[i], 0xA5, EDGE);
        good = good && intact(all[i]);
    }
    return good;
}

static void row(const char *name, const uint16_t *c, size_t n) {
    size_t i;
    printf("%s", name);
    for (i = 0; i < n; i++) printf(" %u", (unsigned)c[i]);
    printf("\n");
}

static void told(const char *what) {
    printf("%s: refusal %u", what, (unsigned)said.at[ZAMINUK_SAID_NUMBER]);
    if (said.at[ZAMINUK_SAID_NUMBER] == ZAMINUK_MALFORMED)
        printf(" reason %u entry %u other %u", (unsigned)said.at[ZAMINUK_SAID_REASON], (unsigned)said.at[ZAMINUK_SAID_ENTRY],
               (unsigned)said.at[ZAMINUK_SAID_OTHER]);
    printf(" result %u\n", (unsigned)said.at[ZAMINUK_SAID_RESULT]);
}

/* The row of the unit at a place as a list of its own: without the zeros at its end. */
static size_t trimmed(size_t at, uint64_t *to) {
    size_t n = LENGTH, i;
    while (n > 0 && rows.at[at + n - 1] == 0) n--;
    for (i = 0; i < n; i++) to[i] = rows.at[at + i];
    return n;
}

/* Series, order, walk, period, regulator. */
static void walk(field x) {
    uint64_t steps, sum, degree;
    zaminuk_period period;
    zaminuk_regulator regulator;
    uint32_t no = zaminuk_series(x.p, x.g, x.gn, x.h, x.hn, r.at, 8, w.at, 8);
    printf("series: refusal %u\n", (unsigned)no);
    row("  r", r.at, 8);
    row("  w", w.at, 8);
    no = zaminuk_order(x.p, x.g, x.gn, x.h, x.hn, basis.at);
    printf("order: refusal %u, ", (unsigned)no);
    no = zaminuk_check(x.p, x.g, x.gn, x.h, x.hn, basis.at);
    printf("checked: refusal %u, ", (unsigned)no);
    no = zaminuk_step(x.p, x.g, x.gn, x.h, x.hn, basis.at, &degree);
    printf("a step: refusal %u degree %u\n", (unsigned)no, (unsigned)degree);
    zaminuk_order(x.p, x.g, x.gn, x.h, x.hn, basis.at);
    no = zaminuk_walk(x.p, x.g, x.gn, x.h, x.hn, 1000, basis.at, &steps, &sum);
    printf("walk: refusal %u steps %u sum %u\n", (unsigned)no, (unsigned)steps, (unsigned)sum);
    no = zaminuk_from_order(x.p, x.g, x.gn, x.h, x.hn, 1000, &period, &regulator);
    printf("from the order: refusal %u period %u regulator %u\n", (unsigned)no, (unsigned)period.steps, (unsigned)regulator.half_degrees);
}

/* A record that stands at the order of a field; where that is refused, the refusal is its state. */
static void start(zaminuk_walk_record *to, field x) {
    size_t i;
    to->p = x.p;
    to->ng = x.gn;
    to->nh = x.hn;
    for (i = 0; i < x.gn; i++) to->g[i] = x.g[i];
    for (i = 0; i < x.hn; i++) to->h[i] = x.h[i];
    to->steps = to->sum = 0;
    to->state = zaminuk_order(x.p, x.g, x.gn, x.h, x.hn, to->basis);
}

static void sheet_walked(uint64_t budget) {
    size_t i;
    uint32_t no = zaminuk_sheet(sheet.at, 3, budget);
    printf("sheet: refusal %u\n", (unsigned)no);
    for (i = 0; i < 3; i++)
        printf("  state %u steps %u sum %u\n", (unsigned)sheet.at[i].state, (unsigned)sheet.at[i].steps, (unsigned)sheet.at[i].sum);
}

/* Two fields walked side by side, a step a sheet; the record between them is of no field, and is marked. A budget out of its rule changes
   not a byte. */
static void side_by_side(field x, field y) {
    static zaminuk_walk_record before[3];
    uint32_t no;
    start(&sheet.at[0], x);
    start(&sheet.at[1], x);
    start(&sheet.at[2], y);
    sheet.at[1].p = 6;
    sheet_walked(1);
    sheet_walked(1);
    memcpy(before, sheet.at, sizeof before);
    no = zaminuk_sheet(sheet.at, 3, ZAMINUK_BUDGET_MAX + 1);
    printf("too large a budget: refusal %u, %s\n", (unsigned)no, memcmp(before, sheet.at, sizeof before) == 0 ? "nothing changed" : "CHANGED");
}

/* The unit, its body written in two ways, and the body added to the book. */
static void shelve(field x) {
    uint64_t e0[LENGTH], e1[LENGTH], e2[LENGTH];
    size_t n, n0, n1, n2;
    zaminuk_period period;
    zaminuk_regulator regulator;
    uint32_t no =
        zaminuk_unit(x.p, x.g, x.gn, x.h, x.hn, 1000, rows.at, 6 * LENGTH, scratch.at, 6 * LENGTH, &period, &regulator);
    printf("unit: refusal %u period %u regulator %u\n", (unsigned)no, (unsigned)period.steps, (unsigned)regulator.half_degrees);
    n0 = trimmed(0, e0);
    n1 = trimmed(LENGTH, e1);
    n2 = trimmed(2 * LENGTH, e2);
    row("  E0", rows.at, n0);
    row("  E1", rows.at + LENGTH, n1);
    row("  E2", rows.at + 2 * LENGTH, n2);
    zaminuk_book_write_rows(x.p, x.g, x.gn, x.h, x.hn, period, rows.at, 6 * LENGTH, body.at, sizeof body.at, said.at);
    told("body from the rows");
    n = (size_t)said.at[ZAMINUK_SAID_RESULT];
    zaminuk_book_write(x.p, x.g, x.gn, x.h, x.hn, period, e0, n0, e1, n1, e2, n2, again.at, sizeof again.at, said.at);
    printf("  %s\n", said.at[ZAMINUK_SAID_RESULT] == n && memcmp(body.at, again.at, n) == 0 ? "the same from the lists" : "DIFFERS");
    zaminuk_book_add(book.at, sizeof book.at, length, body.at, n, said.at);
    told("added");
    if (said.at[ZAMINUK_SAID_NUMBER] == ZAMINUK_OK) length = (size_t)said.at[ZAMINUK_SAID_RESULT];
}

static void unit_rows(void) {
    row("  E0", rows.at, 5);
    row("  E1", rows.at + LENGTH, 5);
    row("  E2", rows.at + 2 * LENGTH, 5);
    row("  F1", rows.at + 4 * LENGTH, 5);
}

/* The unit scaled so that its norm is 1, and turned: E0 is monic then. Turned once more it is refused, since it is of norm 1 no longer. */
static void of_norm_one(field x) {
    zaminuk_period period;
    zaminuk_regulator regulator;
    uint32_t no = zaminuk_unit_scaled(x.p, x.g, x.gn, x.h, x.hn, 1000, ZAMINUK_NORM_ONE, rows.at, 6 * LENGTH, scratch.at, 6 * LENGTH,
                                      &period, &regulator);
    printf("unit of norm one: refusal %u period %u regulator %u\n", (unsigned)no, (unsigned)period.steps, (unsigned)regulator.half_degrees);
    unit_rows();
    no = zaminuk_rescale(x.p, x.g, x.gn, x.h, x.hn, ZAMINUK_NORM_ONE, ZAMINUK_E0_MONIC, rows.at, 6 * LENGTH);
    printf("turned: refusal %u\n", (unsigned)no);
    unit_rows();
    no = zaminuk_rescale(x.p, x.g, x.gn, x.h, x.hn, ZAMINUK_NORM_ONE, ZAMINUK_E0_MONIC, rows.at, 6 * LENGTH);
    printf("turned once more: refusal %u\n", (unsigned)no);
}

/* An entry of the book: its place, its parts, and whether it is attested. */
static void show(size_t i) {
    size_t start, size, k, j, n;
    zaminuk_book_ask(book.at, length, i, &start, &size, said.at);
    told("asked");
    printf("entry %u: start %u length %u\n", (unsigned)i, (unsigned)start, (unsigned)size);
    zaminuk_body_prime(book.at + start, size, said.at);
    printf("  p %u", (unsigned)said.at[ZAMINUK_SAID_RESULT]);
    zaminuk_body_period(book.at + start, size, said.at);
    printf(" period %u", (unsigned)said.at[ZAMINUK_SAID_RESULT]);
    for (k = 0; k < 5; k++) {
        zaminuk_body_list(book.at + start, size, k, list.at, LENGTH, said.at);
        n = (size_t)said.at[ZAMINUK_SAID_RESULT];
        printf(";");
        for (j = 0; j < n; j++) printf(" %u", (unsigned)list.at[j]);
    }
    printf("\n");
    zaminuk_book_attest(book.at, length, i, said.at);
    told("  attested");
}

/* The same field under another pair: one field, rows carried over, and a body that the book has already. */
static void again_in_other_words(field x, field y) {
    uint64_t same;
    uint32_t no = zaminuk_one_field(x.p, x.g, x.gn, x.h, x.hn, y.g, y.gn, y.h, y.hn, &same);
    printf("one field: refusal %u same %u\n", (unsigned)no, (unsigned)same);
    no = zaminuk_transfer(x.p, x.g, x.gn, x.h, x.hn, y.g, y.gn, y.h, y.hn, rows.at, 6 * LENGTH);
    printf("carried over: refusal %u\n", (unsigned)no);
    row("  E1", rows.at + LENGTH, 5);
    shelve(y);
}

/* Nothing, as NULL with length 0: each call answers. */
static void nothing(field x) {
    zaminuk_period period;
    zaminuk_regulator regulator;
    uint32_t no = zaminuk_refusal(5, NULL, 0, NULL, 0);
    printf("of nothing: %u", (unsigned)no);
    no = zaminuk_series(x.p, x.g, x.gn, x.h, x.hn, NULL, 0, NULL, 0);
    printf(" %u", (unsigned)no);
    no = zaminuk_unit(x.p, x.g, x.gn, x.h, x.hn, 1000, NULL, 0, NULL, 0, &period, &regulator);
    printf(" %u", (unsigned)no);
    no = zaminuk_transfer(x.p, x.g, x.gn, x.h, x.hn, x.g, x.gn, x.h, x.hn, NULL, 0);
    printf(" %u bodies %u\n", (unsigned)no, (unsigned)zaminuk_book_bodies(NULL, 0));
    no = zaminuk_unit_scaled(x.p, x.g, x.gn, x.h, x.hn, 1000, ZAMINUK_NORM_ONE, NULL, 0, NULL, 0, &period, &regulator);
    printf("  of norm one: %u", (unsigned)no);
    no = zaminuk_rescale(x.p, x.g, x.gn, x.h, x.hn, ZAMINUK_NORM_ONE, ZAMINUK_E0_MONIC, NULL, 0);
    printf(" turned: %u\n", (unsigned)no);
    no = zaminuk_sheet(NULL, 0, 1);
    printf("  sheet: %u", (unsigned)no);
    no = zaminuk_sheet(NULL, 0, ZAMINUK_BUDGET_MAX + 1);
    printf(" %u\n", (unsigned)no);
    zaminuk_book_begin(NULL, 0, said.at);
    told("  begun");
    zaminuk_book_check(NULL, 0, said.at);
    told("  checked");
    zaminuk_book_add(NULL, 0, 0, NULL, 0, said.at);
    told("  added");
    zaminuk_body_prime(NULL, 0, said.at);
    told("  prime");
    zaminuk_body_list(body.at, 50, 0, NULL, 0, said.at);
    told("  list");
    zaminuk_book_write_rows(x.p, x.g, x.gn, x.h, x.hn, period, NULL, 0, NULL, 0, said.at);
    told("  body");
}

int main(void) {
    static const uint64_t a[] = {0, 1, 0, 1}, one[] = {1}, b[] = {4, 0, 0, 1}, c[] = {0, 2, 0, 2};
    const field first = {5, a, 4, one, 1}, second = {5, b, 4, one, 1}, other = {5, one, 1, c, 4};
    size_t i;
    edges(1);
    zaminuk_book_begin(book.at, sizeof book.at, said.at);
    told("begun");
    length = (size_t)said.at[ZAMINUK_SAID_RESULT];
    walk(second);
    shelve(second);
    walk(first);
    shelve(first);
    side_by_side(first, second);
    of_norm_one(first);
    again_in_other_words(first, other);
    zaminuk_book_check(book.at, length, said.at);
    told("checked");
    printf("bodies %u\n", (unsigned)zaminuk_book_bodies(book.at, length));
    for (i = 0; i < 2; i++) show(i);
    zaminuk_book_attest(book.at, length, 2, said.at);
    told("no such entry");
    zaminuk_book_begin(book.at + length, 5, said.at);
    told("too little room");
    book.at[length - 1] ^= 1;
    zaminuk_book_check(book.at, length, said.at);
    told("damaged");
    nothing(first);
    printf("edges %s\n", edges(0) ? "untouched" : "WRITTEN");
    return edges(0) ? 0 : 1;
}
