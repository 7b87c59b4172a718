/* What each function of the library needs of the stack: it is painted below a call, and looked at afterwards. The numbers are those of
   zaminuk.h, in KiB; they come from the frames along the deepest path, so what is measured here must be below them. */
#include "zaminuk.h"
#include <stdio.h>

enum { DEPTH = 400 * 1024, ROOM = 6 * 64 };

/* The compiler has to think that the array is read and written here. */
#define SEEN(all) __asm__ volatile("" : : "r"(all) : "memory")

__attribute__((noinline)) static void paint(void) {
    volatile unsigned char all[DEPTH];
    size_t i;
    for (i = 0; i < DEPTH; i++) all[i] = 0xA5;
    SEEN(all);
}

/* From the low end on, the first byte that is not paint. */
__attribute__((noinline)) static size_t used(void) {
    volatile unsigned char all[DEPTH];
    size_t i = 0;
    SEEN(all);
    while (i < DEPTH && all[i] == 0xA5) i++;
    return DEPTH - i;
}

static int failed;

static void compare(const char *name, size_t kib, size_t n) {
    if (n > kib * 1024) failed++;
    printf("%s %u KiB of %u%s\n", name, (unsigned)((n + 1023) / 1024), (unsigned)kib, n > kib * 1024 ? ": MORE THAN TOLD" : "");
}

/* Twice, so that the dynamic linker's own work is done before. */
#define MEASURE(name, kib, call) do { call; paint(); call; compare(name, kib, used()); } while (0)

static uint16_t basis[ZAMINUK_RECORD], rows[ROOM], scratch[ROOM], r[64], w[64];
static uint64_t said[ZAMINUK_SAID], list[64], number, other;
static uint8_t book[4096], body[512];
static zaminuk_walk_record sheet[2];

/* A record that is walked, and one whose field is refused. */
static void fill(const uint64_t *g, size_t gn, const uint64_t *h, size_t hn) {
    size_t i;
    for (i = 0; i < gn; i++) sheet[0].g[i] = g[i];
    for (i = 0; i < hn; i++) sheet[0].h[i] = h[i];
    sheet[0].p = 83;
    sheet[0].ng = gn;
    sheet[0].nh = hn;
    zaminuk_order(83, g, gn, h, hn, sheet[0].basis);
}

int main(void) {
    static const uint64_t g8[] = {58115, 44382, 38112, 29353, 59437, 36205, 42366, 2060, 1};
    static const uint64_t h8[] = {44639, 59791, 18589, 12270, 25091, 42666, 58812, 32478, 1};
    static const uint64_t g[] = {1, 3, 0, 2, 5, 1, 7, 1}, h[] = {2, 1}, a[] = {0, 1, 0, 1}, one[] = {1}, c[] = {0, 2, 0, 2};
    zaminuk_period period;
    zaminuk_regulator regulator;
    size_t n, start, size, length;
    uint32_t turned;
    MEASURE("zaminuk_refusal", 2, zaminuk_refusal(65519, g8, 9, h8, 9));
    MEASURE("zaminuk_series", 14, zaminuk_series(83, g, 8, h, 2, r, 64, w, 64));
    MEASURE("zaminuk_order", 14, zaminuk_order(83, g, 8, h, 2, basis));
    MEASURE("zaminuk_check", 14, zaminuk_check(83, g, 8, h, 2, basis));
    MEASURE("zaminuk_step", 14, zaminuk_step(83, g, 8, h, 2, basis, &number));
    MEASURE("zaminuk_walk", 14, zaminuk_walk(83, g, 8, h, 2, 20, basis, &number, &other));
    /* It is opened each time: closed it would be passed over. */
    fill(g, 8, h, 2);
    MEASURE("zaminuk_sheet", 18, (sheet[0].state = sheet[1].state = ZAMINUK_OPEN, zaminuk_sheet(sheet, 2, 20)));
    if (sheet[0].steps == 0 || sheet[1].state != ZAMINUK_NO_PRIME) failed++;
    MEASURE("zaminuk_from_order", 14, zaminuk_from_order(83, g, 8, h, 2, 20, &period, &regulator));
    MEASURE("zaminuk_unit_scaled", 18,
            zaminuk_unit_scaled(5, a, 4, one, 1, 20, ZAMINUK_NORM_ONE, rows, ROOM, scratch, ROOM, &period, &regulator));
    MEASURE("zaminuk_unit", 18, zaminuk_unit(5, a, 4, one, 1, 20, rows, ROOM, scratch, ROOM, &period, &regulator));
    /* There and back, so that each time it is a unit so scaled. */
    MEASURE("zaminuk_rescale", 64, (turned = zaminuk_rescale(5, a, 4, one, 1, ZAMINUK_E0_MONIC, ZAMINUK_NORM_ONE, rows, ROOM),
                                    turned += zaminuk_rescale(5, a, 4, one, 1, ZAMINUK_NORM_ONE, ZAMINUK_E0_MONIC, rows, ROOM)));
    if (turned != 0) failed++;
    MEASURE("zaminuk_one_field", 14, zaminuk_one_field(5, a, 4, one, 1, one, 1, c, 4, &number));
    MEASURE("zaminuk_book_write_rows", 100, zaminuk_book_write_rows(5, a, 4, one, 1, period, rows, ROOM, body, sizeof body, said));
    n = (size_t)said[ZAMINUK_SAID_RESULT];
    MEASURE("zaminuk_transfer", 14, zaminuk_transfer(5, a, 4, one, 1, one, 1, c, 4, rows, ROOM));
    MEASURE("zaminuk_book_write", 14, zaminuk_book_write(5, a, 4, one, 1, period, a, 4, a, 4, a, 4, book, sizeof book, said));
    MEASURE("zaminuk_book_begin", 14, zaminuk_book_begin(book, sizeof book, said));
    MEASURE("zaminuk_book_add", 34, (zaminuk_book_begin(book, sizeof book, said), zaminuk_book_add(book, sizeof book, 6, body, n, said)));
    length = (size_t)said[ZAMINUK_SAID_RESULT];
    MEASURE("zaminuk_book_bodies", 14, (void)zaminuk_book_bodies(book, length));
    MEASURE("zaminuk_book_check", 34, zaminuk_book_check(book, length, said));
    MEASURE("zaminuk_book_ask", 34, zaminuk_book_ask(book, length, 0, &start, &size, said));
    MEASURE("zaminuk_body_prime", 34, zaminuk_body_prime(book + start, size, said));
    MEASURE("zaminuk_body_period", 34, zaminuk_body_period(book + start, size, said));
    MEASURE("zaminuk_body_list", 34, zaminuk_body_list(book + start, size, 2, list, 64, said));
    MEASURE("zaminuk_book_attest", 176, zaminuk_book_attest(book, length, 0, said));
    if (said[ZAMINUK_SAID_RESULT] != 1) failed++;
    printf("%d failed\n", failed);
    return failed != 0;
}
