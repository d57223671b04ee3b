/* Sealing and opening with all secrets marked as undefined for memcheck, which then
 * reports every branch and every address that depends on one. For each call this prints
 * how often it reported; secrets.rs compiles this, runs it under valgrind and compares.
 * Undefined are the key, the text, the sealed string and the bytes of the header's
 * strings; lengths, the stretch and the header's count are not. With a stretch the header
 * is the usual one, whose blocks and the stretch's make five; without one it has a fifth
 * string, and the blocks make nineteen: sixteen together and three by themselves. */

#include <stdio.h>
#include <string.h>
#include <valgrind/memcheck.h>

#include "aez.h"

enum { LONGEST = 4096, STRETCH = 16, FIFTH = 224 };

static const uint8_t plain_header[] = {4, 0, 1, 1, 0, 2, 'n', '7', 0, 0, 0, 2, 'd', 'e'};

/* A string of n bytes, each known to memcheck as a secret. */
static void fill(uint8_t *secret, size_t n)
{
    size_t i;

    for (i = 0; i < n; i++)
        secret[i] = (uint8_t)(7 * i + 1);
    (void)VALGRIND_MAKE_MEM_UNDEFINED(secret, n);
}

static void hide(uint8_t *secret, size_t n)
{
    (void)VALGRIND_MAKE_MEM_UNDEFINED(secret, n);
}

static void show(void *anything, size_t n)
{
    (void)VALGRIND_MAKE_MEM_DEFINED(anything, n);
}

/* One line: the call, the text's length, the stretch, the answer and what was reported
 * since `before`. */
static void tell(const char *call, size_t length, uint64_t stretch, uint32_t answer, unsigned before)
{
    unsigned reported = (unsigned)VALGRIND_COUNT_ERRORS - before;

    show(&answer, sizeof answer);
    printf("%s %u + %u: answer %u, %u reported\n", call, (unsigned)length, (unsigned)stretch,
           (unsigned)answer, reported);
}

/* A text of n bytes is sealed, opened, and opened with its last bit damaged. */
static void round_trip(size_t n, uint64_t stretch)
{
    static uint8_t key[48], header[sizeof plain_header + 2 + FIFTH], text[LONGEST];
    static uint8_t sealed[LONGEST + STRETCH], opened[LONGEST + STRETCH];
    size_t length = n + (size_t)stretch, header_len = sizeof plain_header;
    unsigned before;
    uint32_t answer;

    fill(key, sizeof key);
    fill(text, n);
    memcpy(header, plain_header, header_len);
    if (stretch == 0) {
        header[0] = 5;
        header[header_len] = 0;
        header[header_len + 1] = FIFTH;
        fill(header + header_len + 2, FIFTH);
        header_len += 2 + FIFTH;
    }
    hide(header + 3, 1);
    hide(header + 6, 2);
    hide(header + 12, 2);

    before = (unsigned)VALGRIND_COUNT_ERRORS;
    answer = aez_seal(key, sizeof key, header, header_len, stretch, text, n, sealed, length);
    tell("seal", n, stretch, answer, before);

    hide(sealed, length);
    before = (unsigned)VALGRIND_COUNT_ERRORS;
    answer = aez_open(key, sizeof key, header, header_len, stretch, sealed, length, opened, length);
    tell("open", n, stretch, answer, before);

    if (length == 0)
        return;
    sealed[length - 1] ^= 1;
    before = (unsigned)VALGRIND_COUNT_ERRORS;
    answer = aez_open(key, sizeof key, header, header_len, stretch, sealed, length, opened, length);
    tell("open damaged", n, stretch, answer, before);
}

/* What the calls must not do, so that it is seen to be reported. */
static void control(void)
{
    static const uint8_t table[256] = {1, 2, 3};
    static uint8_t secret[1];
    volatile uint8_t out;
    unsigned before;

    fill(secret, sizeof secret);
    before = (unsigned)VALGRIND_COUNT_ERRORS;
    out = table[secret[0]];
    printf("table: %u reported\n", (unsigned)VALGRIND_COUNT_ERRORS - before);

    before = (unsigned)VALGRIND_COUNT_ERRORS;
    if (secret[0] == 1)
        out = 0;
    printf("branch: %u reported\n", (unsigned)VALGRIND_COUNT_ERRORS - before);
    (void)out;
}

int main(void)
{
    static const size_t lengths[] = {0, 1, 5, 15, 16, 31, 32, 33, 48, 64, 200, LONGEST};
    size_t i;

    if (!RUNNING_ON_VALGRIND)
        return 2;
    for (i = 0; i < sizeof lengths / sizeof lengths[0]; i++) {
        round_trip(lengths[i], STRETCH);
        round_trip(lengths[i], 0);
    }
    control();
    return 0;
}
