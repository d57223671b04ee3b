/* Each exported function called from C, through include/aez.h; c_header.rs
 * compiles this, links the library and compares what it prints. */

#include <stdio.h>

#include "aez.h"

static void print(const char *call, uint32_t answer, const uint8_t *bytes, size_t length)
{
    size_t i;

    printf("%s %u ", call, (unsigned)answer);
    for (i = 0; i < length; i++)
        printf("%02x", bytes[i]);
    printf("\n");
}

static void print_place(const char *call, uint32_t answer, uint64_t place)
{
    printf("%s %u at %u\n", call, (unsigned)answer, (unsigned)place);
}

/* A day file of two records, written, read, listed and opened. */
static void day(const uint8_t *key)
{
    static const uint8_t headers[] = {1, 0, 0, 1, 0, 1, 7};
    static const uint64_t header_lengths[] = {3, 4};
    static const uint64_t record_headers[] = {1, 0}, record_stretches[] = {4, 0};
    static const uint64_t record_lengths[] = {9, 0}, wrong_lengths[] = {10, UINT64_MAX};
    uint8_t sealed[9], file[60], opened[9];
    uint64_t places[12], size = 99, in_file = 99, records = 99;
    uint32_t answer;
    size_t i;

    aez_seal(key, 48, headers + 3, 4, 4, (const uint8_t *)"hello", 5, sealed, 9);
    answer = aez_day_write(header_lengths, 2, headers, 7, record_headers, 2, record_stretches, 2,
                           record_lengths, 2, sealed, 9, file, sizeof file, &size);
    print("day_write", answer, file, (size_t)size);
    answer = aez_day_records(file, (size_t)size, &records);
    printf("day_records %u: %u\n", (unsigned)answer, (unsigned)records);
    answer = aez_day_list(file, (size_t)size, places, 12, &in_file, &records);
    printf("day_list %u: %u %u:", (unsigned)answer, (unsigned)in_file, (unsigned)records);
    for (i = 0; i < 12; i++)
        printf(" %u", (unsigned)places[i]);
    printf("\n");
    answer = aez_day_list(file, (size_t)size, places, 11, &in_file, &records);
    printf("day_list %u: %u %u\n", (unsigned)answer, (unsigned)in_file, (unsigned)records);
    answer = aez_day_open(key, 48, file, (size_t)size, 0, opened, 9, &records);
    print("day_open", answer, opened, 9);
    printf("%u bytes\n", (unsigned)records);
    answer = aez_day_open(key, 48, file, (size_t)size, 2, opened, 9, &records);
    printf("day_open %u: %u bytes\n", (unsigned)answer, (unsigned)records);
    records = 99;
    answer = aez_day_records(file, (size_t)size - 1, &records);
    printf("day_records %u: %u\n", answer == AEZ_DAY_UNREADABLE ? (unsigned)answer : 99,
           (unsigned)records);
    answer = aez_day_write(header_lengths, 2, headers, 7, record_headers, 2, record_stretches, 2,
                           wrong_lengths, 2, sealed, 9, file, sizeof file, &size);
    printf("day_write %u: %u bytes\n", (unsigned)answer, (unsigned)size);
}

/* A day of two records grown from none and cleared in one buffer. */
static void edits(const uint8_t *key)
{
    static const uint8_t one[] = {1, 0, 0}, other[] = {1, 0, 1, 7};
    static const uint64_t first[] = {0}, twice[] = {0, 0};
    uint8_t sealed[9], opened[9], buffer[60] = {0};
    uint64_t size = 12, new_size = 99;
    uint32_t answer;

    buffer[59] = 0xa5;
    aez_seal(key, 48, other, 4, 4, (const uint8_t *)"hello", 5, sealed, 9);
    answer = aez_day_append(buffer, sizeof buffer, size, 0, one, 3, 0, sealed, 0, &size);
    print("day_append", answer, buffer, (size_t)size);
    answer = aez_day_append(buffer, sizeof buffer, size, 1, other, 4, 4, sealed, 9, &size);
    print("day_append", answer, buffer, (size_t)size);
    answer = aez_day_append(buffer, sizeof buffer, size, 0, other, 0, 0, sealed, 0, &new_size);
    printf("day_append %u: %u bytes\n", (unsigned)answer, (unsigned)new_size);
    new_size = 99;
    answer = aez_day_append(buffer, sizeof buffer, size, 3, other, 4, 0, sealed, 0, &new_size);
    printf("day_append %u: %u bytes\n", (unsigned)answer, (unsigned)new_size);
    new_size = 99;
    answer = aez_day_clear(buffer, sizeof buffer, size, twice, 2, &new_size);
    printf("day_clear %u: %u bytes\n", answer == AEZ_WRONG_LIST ? (unsigned)answer : 99,
           (unsigned)new_size);
    new_size = 99;
    answer = aez_day_clear(buffer, sizeof buffer, 61, first, 1, &new_size);
    printf("day_clear %u: %u bytes\n", (unsigned)answer, (unsigned)new_size);
    answer = aez_day_clear(buffer, sizeof buffer, size, first, 1, &new_size);
    print("day_clear", answer, buffer, sizeof buffer);
    printf("%u bytes\n", (unsigned)new_size);
    answer = aez_day_open(key, 48, buffer, (size_t)new_size, 0, opened, 9, &size);
    print("day_open", answer, opened, (size_t)size);
}

/* A pause by itself, and a day of two, one of them refused. */
static void pauses(const uint8_t *key)
{
    static const uint8_t de[] = {4, 0, 1, 1, 0, 2, 'n', '7', 0, 0, 0, 2, 'd', 'e'};
    static const uint8_t en[] = {4, 0, 1, 1, 0, 2, 'n', '7', 0, 0, 0, 2, 'e', 'n'};
    static const uint64_t header_lengths[] = {14, 14}, record_headers[] = {0, 1};
    static const uint64_t record_stretches[] = {4, 4}, record_lengths[] = {11, 11};
    const uint8_t *text = (const uint8_t *)"1,204 s";
    uint8_t headers[28], sealed[22], file[90], line[71];
    uint64_t figures[6], size = 99, microseconds = 99;
    uint32_t answer;
    size_t i;

    answer = aez_pause(de, sizeof de, text, 7, &microseconds);
    printf("pause %u: %u\n", (unsigned)answer, (unsigned)microseconds);
    answer = aez_pause(en, sizeof en, text, 7, &microseconds);
    printf("pause %u: %u\n", answer == AEZ_NOT_A_PAUSE ? (unsigned)answer : 99,
           (unsigned)microseconds);
    microseconds = 99;
    answer = aez_pause(de, 0, text, 7, &microseconds);
    printf("pause %u: %u\n", (unsigned)answer, (unsigned)microseconds);

    for (i = 0; i < sizeof de; i++) {
        headers[i] = de[i];
        headers[sizeof de + i] = en[i];
    }
    aez_seal(key, 48, de, sizeof de, 4, text, 7, sealed, 11);
    aez_seal(key, 48, en, sizeof en, 4, text, 7, sealed + 11, 11);
    aez_day_write(header_lengths, 2, headers, sizeof headers, record_headers, 2, record_stretches, 2,
                  record_lengths, 2, sealed, sizeof sealed, file, sizeof file, &size);
    answer = aez_report(key, 48, file, (size_t)size, line, sizeof line, &microseconds);
    printf("report %u: %.*s", (unsigned)answer, (int)microseconds, (const char *)line);
    answer = aez_report(key, 48, file, (size_t)size, line, 29, &microseconds);
    printf("report %u: %u\n", (unsigned)answer, (unsigned)microseconds);
    answer = aez_report_figures(key, 48, file, (size_t)size, figures, 6);
    printf("report_figures %u:", (unsigned)answer);
    for (i = 0; i < 6; i++)
        printf(" %u", (unsigned)figures[i]);
    answer = aez_report_figures(key, 48, file, (size_t)size, figures, 5);
    printf("\nreport_figures %u\n", (unsigned)answer);
}

int main(void)
{
    static const uint8_t header[] = {4, 0, 1, 1, 0, 2, 'n', '7', 0, 0, 0, 2, 'd', 'e'};
    static const uint8_t text[] = {'h', 'e', 'l', 'l', 'o'};
    static const uint8_t nonce[] = {1}, host[] = {'n', '7'}, locale[] = {'d', 'e'};
    static const uint8_t none[1] = {0};
    uint8_t key[48], sealed[21], opened[21], built[14];
    uint64_t strings = 99, place = 99;
    uint32_t answer;
    size_t i;

    for (i = 0; i < sizeof key; i++)
        key[i] = (uint8_t)i;

    answer = aez_seal(key, 48, header, sizeof header, 0, text, 5, sealed, 5);
    print("seal", answer, sealed, 5);
    answer = aez_seal(key, 48, header, sizeof header, 16, text, 5, sealed, 21);
    print("seal", answer, sealed, 21);
    answer = aez_open(key, 48, header, sizeof header, 16, sealed, 21, opened, 21);
    print("open", answer, opened, 21);
    answer = aez_log_header(nonce, 1, host, 2, none, 0, locale, 2, built, 14);
    print("log_header", answer, built, 14);
    answer = aez_log_header(nonce, 1, host, 2, locale, 2, none, 0, built, 14);
    print("log_header", answer, built, 14);

    answer = aez_seal_at(key, 48, header, sizeof header, 16, text, 5, sealed, 21, &place);
    print("seal_at", answer, sealed, 21);
    print_place("seal_at", answer, place);
    place = 99;
    answer = aez_open_at(key, 48, header, sizeof header, 16, sealed, 21, opened, 21, &place);
    print("open_at", answer, opened, 21);
    print_place("open_at", answer, place);
    answer = aez_seal_at(key, 48, header, 7, 16, text, 5, opened, 21, &place);
    print_place("seal_at", answer == AEZ_HEADER_UNREADABLE ? answer : 99, place);
    answer = aez_open_at(key, 48, header, sizeof header - 1, 16, sealed, 21, opened, 21, &place);
    print_place("open_at", answer == AEZ_HEADER_UNREADABLE ? answer : 99, place);
    answer = aez_header_read(header, sizeof header, &strings, &place);
    print_place("header_read", answer, place);
    printf("%u strings\n", (unsigned)strings);
    answer = aez_header_read(header, sizeof header - 3, &strings, &place);
    print_place("header_read", answer, place);
    printf("%u strings\n", (unsigned)strings);

    sealed[0] ^= 1;
    answer = aez_open(key, 48, header, sizeof header, 16, sealed, 21, opened, 21);
    print("open", answer == AEZ_CHECK_FAILS ? answer : 99, opened, 21);
    answer = aez_seal(key, 48, header, sizeof header, ((uint64_t)1 << 32) + 4, text, 5, opened, 21);
    print("seal", answer == AEZ_STRETCH_TOO_LONG ? answer : 99, opened, 0);
    answer = aez_log_header(nonce, 1, host, 2, none, 0, locale, 2, built, 13);
    print("log_header", answer == AEZ_OUTPUT_TOO_SHORT ? answer : 99, built, 0);
    day(key);
    edits(key);
    pauses(key);
    return 0;
}
