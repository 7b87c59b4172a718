/* The library as a process, for machines that cannot link its x86-64 code: remote.rs and python/zaminuk.py call it through standard input and
   output.

   A request is a row of 64-bit words: how many words follow, the place of the entry in the table below, how many arguments, and for
   each argument two words: 0 and a number, or 1 and the length of a block of bytes. A block stands right there, and at least one byte
   after it, up to a whole word, is not part of it; so an empty block has an address of its own too. The answer is all words of the
   request but the first, as they are after the call, with the result in the place of the entry.

   No header of the C library is needed. */
typedef unsigned long word;
long read(int from, void *to, word n);
long write(int to, const void *from, word n);

/* Every parameter of an entry is a number of 64 or 32 bits or a pointer. By the calling convention of x86-64 Linux the caller lays out such
   arguments one by one, a word each, and clears them away, so an entry with fewer parameters never sees the others, and one with a
   parameter of 32 bits sees the low half of its word. A result of 32 bits, or none, leaves the rest of the word undefined. */
typedef word entry(word, word, word, word, word, word, word, word, word, word, word, word, word, word, word, word);
entry zaminuk_refusal, zaminuk_series, zaminuk_order, zaminuk_check, zaminuk_step, zaminuk_walk, zaminuk_from_order, zaminuk_unit,
    zaminuk_one_field, zaminuk_transfer, zaminuk_book_check, zaminuk_book_bodies, zaminuk_book_ask, zaminuk_book_attest,
    zaminuk_book_write, zaminuk_book_add, zaminuk_body_prime, zaminuk_body_period, zaminuk_body_list, zaminuk_book_begin,
    zaminuk_book_write_rows, zaminuk_unit_scaled, zaminuk_rescale, zaminuk_sheet;

/* Places of this table are names: new entries come last. */
static entry *const entries[] = {
    zaminuk_refusal, zaminuk_series, zaminuk_order, zaminuk_check, zaminuk_step, zaminuk_walk, zaminuk_from_order, zaminuk_unit,
    zaminuk_one_field, zaminuk_transfer, zaminuk_book_check, zaminuk_book_bodies, zaminuk_book_ask, zaminuk_book_attest,
    zaminuk_book_write, zaminuk_book_add, zaminuk_body_prime, zaminuk_body_period, zaminuk_body_list, zaminuk_book_begin,
    zaminuk_book_write_rows, zaminuk_unit_scaled, zaminuk_rescale, zaminuk_sheet,
};

enum { ENTRIES = sizeof entries / sizeof *entries, MOST = 16, ROOM = 1 << 21 };
static word words[ROOM]; /* 16 MB */

/* Reads n bytes, fewer only where the input ends; how many. */
static word take(void *to, word n) {
    word got = 0;
    for (long k; got < n && (k = read(0, (char *)to + got, n - got)) > 0; got += k);
    return got;
}

/* Writes n bytes, fewer only where nobody reads; how many. */
static word give(const void *from, word n) {
    word put = 0;
    for (long k; put < n && (k = write(1, (const char *)from + put, n - put)) > 0; put += k);
    return put;
}

/* The arguments of the request in the first n words; 0 if it is not well formed. */
static int arguments(word n, word *a) {
    word at = 2;
    if (words[0] >= ENTRIES || words[1] > MOST) return 0;
    for (word i = 0; i < words[1]; i++) {
        if (n - at < 2) return 0;
        word block = words[at], value = words[at + 1];
        at += 2;
        a[i] = block ? (word)(words + at) : value;
        if (block && value / 8 >= n - at) return 0;
        if (block) at += value / 8 + 1;
    }
    return at == n;
}

static int fail(const char *why) {
    word n = 0;
    while (why[n]) n++;
    write(2, why, n);
    return 2;
}

int main(void) {
    word n, got;
    while ((got = take(&n, sizeof n)) == sizeof n) {
        word a[MOST] = {0};
        if (n > ROOM) return fail("serve: a request is too long\n");
        if (take(words, 8 * n) < 8 * n) return fail("serve: a request is cut off\n");
        if (n < 2 || !arguments(n, a)) return fail("serve: a request is not well formed\n");
        words[0] = entries[words[0]](a[0], a[1], a[2], a[3], a[4], a[5], a[6], a[7], a[8], a[9], a[10], a[11], a[12], a[13], a[14], a[15]);
        if (give(words, 8 * n) < 8 * n) return fail("serve: an answer is not read\n");
    }
    return got ? fail("serve: a request is cut off\n") : 0;
}
