/* The proved number functions held to a second implementation of document 01's number rules. The rules here follow the
 * document's words, in another manner than the crate: a text is split at its point and the two parts are read as whole numbers;
 * a number is printed in full by the C library and then cut; whether it is writable is looked up among all that texts gave.
 * The first difference ends the run. Built and run by the script beside this file. */
#include <stdint.h>
#include <stdio.h>
#include <stdlib.h>
#include <string.h>

/* crates/test_numbers_c/src/lib.rt. Nothing checks these against it: a slice is a pointer and then a length. */
uint64_t test_read(const uint8_t *s, size_t n);
uint32_t test_read_one(const uint8_t *s, size_t n);
uint32_t test_read_two(const uint8_t *s, size_t n);
uint32_t test_read_tenths(const uint8_t *s, size_t n);
uint32_t test_is_writable(uint32_t x);
size_t test_print(uint32_t x, uint8_t *out, size_t n);
size_t test_print_two(uint8_t n, uint8_t *out, size_t size);
size_t test_print_tenths(uint8_t n, uint8_t *out, size_t size);

#define DIGITS "0123456789"
#define NO_NUMBER UINT64_C(4294967296)
#define NO_DIGITS UINT64_C(256)
#define TEN_THOUSAND 10000000u /* in thousandths: the first number that has five digits before the point */
#define LONGEST 6              /* no number has more than four digits and a point, so every number is among texts this long */

static uint64_t compared;

static void differ(const char *what, const char *input, const char *proved, const char *expected)
{
    fflush(stdout);
    fprintf(stderr, "decimal: %s of %s: the proved function gives %s, the document's rule %s\n", what, input, proved, expected);
    exit(1);
}

/* ---- the document's rules. A text has a zero byte behind its n bytes, so that strspn ends there. */

static size_t digits_at(const uint8_t *s)
{
    return strspn((const char *)s, DIGITS);
}

static uint64_t whole_number(const uint8_t *s)
{
    return strtoul((const char *)s, NULL, 10);
}

/* one to four digits, at most one point, at most three digits after it; in thousandths */
static uint64_t rule_read(const uint8_t *s, size_t n)
{
    static const uint64_t worth[] = {1000, 100, 10, 1};
    const uint8_t *point = memchr(s, '.', n);
    size_t before = point ? (size_t)(point - s) : n;
    size_t behind = point ? n - before - 1 : 0;

    if (before + behind < 1 || before + behind > 4 || behind > 3)
        return NO_NUMBER;
    if (digits_at(s) != before || (point && digits_at(point + 1) != behind))
        return NO_NUMBER;
    uint64_t number = before ? whole_number(s) * 1000 : 0;
    return behind ? number + whole_number(point + 1) * worth[behind] : number;
}

/* exactly one digit */
static uint64_t rule_read_one(const uint8_t *s, size_t n)
{
    return n == 1 && digits_at(s) == 1 ? whole_number(s) : NO_DIGITS;
}

/* one or two digits */
static uint64_t rule_read_two(const uint8_t *s, size_t n)
{
    return n >= 1 && n <= 2 && digits_at(s) == n ? whole_number(s) : NO_DIGITS;
}

/* digit, point, digit: of the numbers, those of three characters with the point in the middle */
static uint64_t rule_read_tenths(const uint8_t *s, size_t n)
{
    if (n != 3 || s[1] != '.' || rule_read(s, n) == NO_NUMBER)
        return NO_DIGITS;
    return rule_read(s, n) / 100;
}

/* d.ddd, dd.dd, ddd.d, dddd. : the number with all its decimals, of which five characters are kept. The document has no number
 * from 10,000 on; there the crate keeps the last four digits before the point, and so does this. */
static void rule_print(uint32_t x, char out[6])
{
    char full[16];
    if (x < TEN_THOUSAND)
        snprintf(full, sizeof full, "%u.%03u", x / 1000, x % 1000);
    else
        snprintf(full, sizeof full, "%04u.%03u", x / 1000 % 10000, x % 1000);
    memcpy(out, full, 5);
    out[5] = 0;
}

/* What the printed text is to read as: the number with what is behind its fourth digit cut off. */
static uint32_t rule_cut(uint32_t x)
{
    uint32_t least = 1;
    for (uint32_t bound = 10000; x >= bound && bound < TEN_THOUSAND; bound *= 10)
        least *= 10;
    return (x - x % least) % TEN_THOUSAND;
}

/* ---- the numbers that some text gave: a bit for each */

static uint8_t given[TEN_THOUSAND / 8 + 1];

static void mark_given(uint64_t x)
{
    if (x == NO_NUMBER)
        return;
    if (x >= TEN_THOUSAND) {
        fprintf(stderr, "decimal: a text gives %llu thousandths, which is more than 9999\n", (unsigned long long)x);
        exit(1);
    }
    given[x / 8] |= (uint8_t)(1u << x % 8);
}

static uint32_t rule_writable(uint32_t x)
{
    return x < TEN_THOUSAND ? given[x / 8] >> x % 8 & 1u : 0;
}

/* ---- reading: every text over an alphabet, up to a length */

typedef uint64_t reader(const uint8_t *s, size_t n);

static uint64_t proved_one(const uint8_t *s, size_t n) { return test_read_one(s, n); }
static uint64_t proved_two(const uint8_t *s, size_t n) { return test_read_two(s, n); }
static uint64_t proved_tenths(const uint8_t *s, size_t n) { return test_read_tenths(s, n); }

static const struct { const char *name; reader *proved; reader *rule; } readers[] = {
    {"read", test_read, rule_read},
    {"read_two", proved_two, rule_read_two},
    {"read_one", proved_one, rule_read_one},
    {"read_tenths", proved_tenths, rule_read_tenths},
};
#define READERS (sizeof readers / sizeof readers[0])

static void spell(char out[24], uint64_t x)
{
    if (x == NO_NUMBER || x == NO_DIGITS)
        snprintf(out, 24, "none (%llu)", (unsigned long long)x);
    else
        snprintf(out, 24, "%llu", (unsigned long long)x);
}

static void compare_readers(const uint8_t *s, size_t n)
{
    for (size_t k = 0; k < READERS; k++) {
        uint64_t proved = readers[k].proved(s, n), rule = readers[k].rule(s, n);
        if (proved != rule) {
            char input[64] = "the bytes", a[24], b[24];
            for (size_t i = 0; i < n; i++)
                snprintf(input + strlen(input), sizeof input - strlen(input), " %02x", s[i]);
            spell(a, proved);
            spell(b, rule);
            differ(readers[k].name, input, a, b);
        }
    }
}

/* Counts through the texts of n characters as through numbers of n places: the last character changes fastest. */
static uint64_t compare_texts(const uint8_t *alphabet, size_t size, size_t n, int mark)
{
    size_t place[LONGEST] = {0};
    uint8_t s[LONGEST + 1] = {0};
    uint64_t count = 0;

    for (size_t i = 0; i < n; i++)
        s[i] = alphabet[0];
    for (;;) {
        compare_readers(s, n);
        count++;
        if (mark)
            mark_given(rule_read(s, n));
        size_t i = n;
        while (i > 0 && place[i - 1] == size - 1) {
            i--;
            place[i] = 0;
            s[i] = alphabet[0];
        }
        if (i == 0)
            return count;
        s[i - 1] = alphabet[++place[i - 1]];
    }
}

static void compare_reading(const char *name, const uint8_t *alphabet, size_t size, size_t longest, int mark)
{
    uint64_t count = 0;
    for (size_t n = 0; n <= longest; n++)
        count += compare_texts(alphabet, size, n, mark);
    for (size_t k = 0; k < READERS; k++)
        printf("%-12s %10llu texts of 0 to %zu %s\n", readers[k].name, (unsigned long long)count, longest, name);
    compared += count * READERS;
}

/* ---- printing: into buffers of every length up to a byte behind the longest text, with a byte on each side that must stay */

#define ROOM 8
#define UNTOUCHED '#'

typedef size_t printer(uint32_t x, uint8_t *out, size_t size);

static size_t proved_print_two(uint32_t x, uint8_t *out, size_t size) { return test_print_two((uint8_t)x, out, size); }
static size_t proved_print_tenths(uint32_t x, uint8_t *out, size_t size) { return test_print_tenths((uint8_t)x, out, size); }

static void compare_print(const char *name, printer *print, uint32_t x, const char *expected, size_t size)
{
    uint8_t wanted[ROOM + 2], buffer[ROOM + 2];
    size_t length = strlen(expected), fits = length <= size;

    memset(buffer, UNTOUCHED, sizeof buffer);
    memset(wanted, UNTOUCHED, sizeof wanted);
    if (fits)
        memcpy(wanted + 1, expected, length);
    size_t count = print(x, buffer + 1, size);
    if (count == (fits ? length : 0) && memcmp(buffer, wanted, sizeof buffer) == 0)
        return;

    char input[64], proved[64], rule[64];
    snprintf(input, sizeof input, "%u into %zu bytes", x, size);
    snprintf(proved, sizeof proved, "%zu bytes, \"%.*s\"", count, ROOM, buffer + 1);
    snprintf(rule, sizeof rule, "%zu bytes, \"%s\"", fits ? length : 0, fits ? expected : "");
    differ(name, input, proved, rule);
}

static void expect_number(const char *what, uint32_t x, uint64_t found, uint64_t expected)
{
    char input[24], a[24], b[24];
    if (found == expected)
        return;
    snprintf(input, sizeof input, "%u", x);
    snprintf(a, sizeof a, "%llu", (unsigned long long)found);
    snprintf(b, sizeof b, "%llu", (unsigned long long)expected);
    differ(what, input, a, b);
}

static void compare_value(uint32_t x)
{
    char text[6];
    rule_print(x, text);
    compare_print("print", test_print, x, text, 5);
    expect_number("print, read back,", x, rule_read((const uint8_t *)text, 5), rule_cut(x));
    expect_number("is_writable", x, test_is_writable(x), rule_writable(x));
}

static void count_values(uint64_t count, const char *which)
{
    static const char *const names[] = {"print", "read back", "is_writable"};
    for (size_t k = 0; k < sizeof names / sizeof names[0]; k++) {
        printf("%-12s %10llu %s\n", names[k], (unsigned long long)count, which);
        compared += count;
    }
}

static void compare_values(void)
{
    uint64_t count = 0;
    for (uint32_t x = 0; x <= TEN_THOUSAND; x++, count++)
        compare_value(x);
    count_values(count, "values from 0 to 10000000");

    count = 0;
    for (int k = 0; k < 32; k++, count += 2) {
        compare_value(UINT32_C(1) << k);
        compare_value(UINT32_MAX >> k);
    }
    count_values(count, "powers of two, and numbers one below such a power");
}

/* Every u8 in every size of buffer. The document has no phase or count above 99 and no tenths above 9.9; there the crate keeps
 * the last two digits, and so does this. */
static void compare_short_printing(void)
{
    uint64_t count = 0;
    for (uint32_t n = 0; n <= UINT8_MAX; n++)
        for (size_t size = 0; size <= ROOM; size++, count++) {
            char two[8], tenths[8];
            snprintf(two, sizeof two, "%02u", n % 100);
            snprintf(tenths, sizeof tenths, "%u.%u", n % 100 / 10, n % 10);
            compare_print("print_two", proved_print_two, n, two, size);
            compare_print("print_tenths", proved_print_tenths, n, tenths, size);
        }
    printf("%-12s %10llu values and sizes of buffer\n", "print_two", (unsigned long long)count);
    printf("%-12s %10llu values and sizes of buffer\n", "print_tenths", (unsigned long long)count);
    compared += 2 * count;
}

/* One number of each of the four ranges in every size of buffer. */
static void compare_buffers(void)
{
    static const uint32_t values[] = {0, 9999, 54321, 987654, 1234567};
    uint64_t count = 0;
    for (size_t k = 0; k < sizeof values / sizeof values[0]; k++)
        for (size_t size = 0; size <= ROOM; size++, count++) {
            char text[6];
            rule_print(values[k], text);
            compare_print("print", test_print, values[k], text, size);
        }
    printf("%-12s %10llu values and sizes of buffer\n", "print", (unsigned long long)count);
    compared += count;
}

int main(void)
{
    uint8_t bytes[256];
    for (size_t i = 0; i < sizeof bytes; i++)
        bytes[i] = (uint8_t)i;
    compare_reading("digits and points", (const uint8_t *)DIGITS ".", 11, LONGEST, 1);
    compare_reading("bytes", bytes, sizeof bytes, 3, 0);
    compare_values();
    compare_buffers();
    compare_short_printing();
    printf("decimal: %llu comparisons, 0 differences\n", (unsigned long long)compared);
    return 0;
}
