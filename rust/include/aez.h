/*
 * Seals and opens log records with AEZ: the functions of libaez.a, which
 * `cargo build` has rt prove and build (target/staticlib/libaez.a, for x86-64).
 * `rt lib` in crates/aez_c writes the same library as out/libaez_c.a.
 *
 * A slice is a pointer and then its length in bytes, or, where it points at
 * uint64_t, in numbers. Of the caller is asked:
 *
 *   - No pointer is null, also where the length is 0. With a length of 0 it may
 *     point anywhere else: nothing is read or written there. One to uint64_t is
 *     aligned for it, also then.
 *   - As many bytes, or numbers, as the length says can be read there, and written
 *     at `out`, at `buffer`, at `places` and at `figures`.
 *   - No input shares a byte with `out`, `buffer`, `places` or `figures`. Inputs may
 *     share bytes among themselves.
 *   - Nothing else writes the inputs, or touches `out`, `buffer`, `places` or `figures`,
 *     before the call returns.
 *   - A pointer to a number that a call sets (`place`, `strings`, `size`, `new_size`,
 *     `microseconds`, and `headers` or `records` as a uint64_t *) points at a uint64_t,
 *     which shares no byte with anything else that is passed.
 *
 * Everything else a call answers itself, by the numbers below, whatever the
 * bytes, the lengths and the stretch are. No call reads or writes outside its
 * slices and the numbers that it sets, allocates, or keeps a pointer.
 *
 * Key: 48 bytes. Header: a count from 1 to 16 in one byte, then that many
 * strings of at most 1,024 bytes, each after its length in two bytes, high byte
 * first; the first is the nonce. Stretch: 0 to 64, the bytes that a sealed string
 * is longer than its text. A sealed string has at most 65,536 bytes.
 *
 * Day file: at most 65,536 bytes, in three sections, each after its count in four
 * bytes; every number in it has its high byte first. The headers, each after its
 * length in two bytes. The records, each as the number of its header, from 0, in two
 * bytes, its stretch in one, the length of its sealed string in four, and the sealed
 * string. The index, for each record the place of its first byte, counted from the
 * start of the file, in four bytes. Nothing follows.
 *
 * Pause: 1 to 9 ASCII digits, a decimal mark and 1 to 3 digits or neither, one space,
 * and "ms" or "s"; that is the whole text. The mark is a comma where the locale is "de",
 * "fr" or "it", and a point where it is "en". The locale is the last of exactly four
 * strings of the header. There are no thousands marks: no text is a pause under two
 * locales and means different things there.
 *
 * The AEZ paper limits the use of one key to 2^48 bytes. No call counts them.
 */
#ifndef AEZ_H
#define AEZ_H

#include <stddef.h>
#include <stdint.h>

#ifdef __cplusplus
extern "C" {
#endif

/*
 * The answers, in the order in which they are tested, but for the log header
 * builder, which tests 8 and then 6, and for the calls on a day file, which test 9
 * before all others. After answers 1 to 6, 8, 9 and 17 all of `out`, `buffer`, `places`
 * or `figures` is unchanged. After every answer so is what stands behind that which is
 * written.
 */
enum {
    AEZ_DONE = 0,
    AEZ_KEY_LENGTH = 1,           /* the key is not 48 bytes long */
    AEZ_STRETCH_TOO_LONG = 2,     /* the stretch is above 64 bytes */
    AEZ_HEADER_UNREADABLE = 3,    /* the header does not read */
    AEZ_TOO_LONG = 4,             /* sealed string or day file: it is, or would be, above 65,536 bytes */
    AEZ_SHORTER_THAN_STRETCH = 5, /* opening: the sealed string is shorter than the stretch */
    AEZ_OUTPUT_TOO_SHORT = 6,     /* `out`, `places` or `figures` is too short, or `buffer` for an append */
    AEZ_CHECK_FAILS = 7,          /* opening: nothing seals to this string */
    AEZ_ITEM_TOO_LONG = 8,        /* log header: an item is above 1,024 bytes */
    AEZ_DAY_UNREADABLE = 9,       /* the day file does not read, lacks the record, or can't be written */
    AEZ_LOCALE_UNKNOWN = 15,      /* pause: the locale is unknown, or the header has not four items */
    AEZ_NOT_A_PAUSE = 16,         /* pause: the text is none as its locale writes one */
    AEZ_WRONG_LIST = 17           /* clearing: the list is not strictly rising, or names no record */
};

/*
 * Puts the sealed string, text_len + stretch bytes, first in `out`.
 * Answers 0, 1, 2, 3, 4, 6.
 */
uint32_t aez_seal(const uint8_t *key, size_t key_len,
                  const uint8_t *header, size_t header_len,
                  uint64_t stretch,
                  const uint8_t *text, size_t text_len,
                  uint8_t *out, size_t out_len);

/*
 * Puts the text, sealed_len - stretch bytes, first in `out`, and as many zero
 * bytes as the stretch after it. `out` has room for the sealed string. After
 * answer 7 its first sealed_len bytes are zero.
 * Answers 0, 1, 2, 3, 4, 5, 6, 7.
 */
uint32_t aez_open(const uint8_t *key, size_t key_len,
                  const uint8_t *header, size_t header_len,
                  uint64_t stretch,
                  const uint8_t *sealed, size_t sealed_len,
                  uint8_t *out, size_t out_len);

/*
 * aez_seal and aez_open, which also say what is bad in a header: the same answers
 * and the same bytes in `out`, from the same inputs. *place is set at every return.
 * Beside answer 3 it is the number of the entry at which the header does not read,
 * the first if there are several:
 *     0        the count itself: there are no bytes, or it is 0 or above 16
 *     1 to 16  the string of this number: its two length bytes are missing, name
 *              more than 1,024 bytes, or name more than are left
 *     17       bytes are left over after the last string
 * Beside every other answer it is 0.
 */
uint32_t aez_seal_at(const uint8_t *key, size_t key_len,
                     const uint8_t *header, size_t header_len,
                     uint64_t stretch,
                     const uint8_t *text, size_t text_len,
                     uint8_t *out, size_t out_len,
                     uint64_t *place);

uint32_t aez_open_at(const uint8_t *key, size_t key_len,
                     const uint8_t *header, size_t header_len,
                     uint64_t stretch,
                     const uint8_t *sealed, size_t sealed_len,
                     uint8_t *out, size_t out_len,
                     uint64_t *place);

/*
 * Reads a header by itself. After answer 0 *strings is the number of its strings,
 * 1 to 16, and *place is 0. After answer 3 *strings is 0, and *place the number of
 * the bad entry, as above.
 * Answers 0, 3.
 */
uint32_t aez_header_read(const uint8_t *header, size_t header_len,
                         uint64_t *strings, uint64_t *place);

/*
 * Puts the header of a log first in `out`: nonce, host, collector and locale, one
 * of length 0 as a string of length 0. It is
 *     1 + (2 + nonce_len) + (2 + host_len) + (2 + collector_len) + (2 + locale_len)
 * bytes long. Two headers are equal only if all four items are.
 * Answers 0, 8, 6.
 */
uint32_t aez_log_header(const uint8_t *nonce, size_t nonce_len,
                        const uint8_t *host, size_t host_len,
                        const uint8_t *collector, size_t collector_len,
                        const uint8_t *locale, size_t locale_len,
                        uint8_t *out, size_t out_len);

/*
 * Puts a day file first in `out`. `headers` are the headers joined, and
 * `header_lengths` the length of each. `sealed` are the sealed strings joined, and
 * `record_lengths` the length of each; beside them, for each record,
 * `record_headers` is the number of its header, from 0, and `record_stretches` its
 * stretch. Answer 9: a header does not read; a stretch is above 64; a header's number
 * is above 65,535, or there is no such header; the three lists for the records
 * differ in length; the lengths do not sum to the joined bytes. The numbers may be
 * any: no sum of them wraps. Then 4, the file would be above 65,536 bytes, and 6.
 * After answer 0 *size is the length of the file, and after every other 0.
 * Answers 0, 9, 4, 6.
 */
uint32_t aez_day_write(const uint64_t *header_lengths, size_t header_lengths_len,
                       const uint8_t *headers, size_t headers_len,
                       const uint64_t *record_headers, size_t record_headers_len,
                       const uint64_t *record_stretches, size_t record_stretches_len,
                       const uint64_t *record_lengths, size_t record_lengths_len,
                       const uint8_t *sealed, size_t sealed_len,
                       uint8_t *out, size_t out_len,
                       uint64_t *size);

/*
 * Reads a day file. After answer 0 *records is the number of its records, and after
 * answer 9 it is 0. The file reads only if it is exactly as above: each header
 * reads, each record names a header that is there and has a stretch of at most 64,
 * and each entry of the index is the place of its record. A sealed string may be
 * shorter than its stretch.
 * Answers 0, 9.
 */
uint32_t aez_day_records(const uint8_t *file, size_t file_len,
                         uint64_t *records);

/*
 * Opens the record of this number, from 0. Answer 9: the file does not read, or has
 * no such record. Then it is aez_open with the record's header, stretch and sealed
 * string: the same answer and the same bytes in `out`. After answer 0 *size is the
 * length of the text, and after every other 0.
 * Answers 0, 9, 1, 5, 6, 7. In a file that reads no record has a stretch above 64, a
 * header that does not read, or a sealed string above 65,536 bytes.
 */
uint32_t aez_day_open(const uint8_t *key, size_t key_len,
                      const uint8_t *file, size_t file_len,
                      uint64_t record,
                      uint8_t *out, size_t out_len,
                      uint64_t *size);

/*
 * Reads a day file once, and says where everything stands in it. With H headers and
 * R records `places` has at least 2 * H + 4 * R numbers, or the answer is 6; file_len
 * / 2 are always enough. After answer 0 *headers is H, *records is R, and first in
 * `places` stand
 *     for header n, at 2 * n:          its start in the file, and its end
 *     for record k, at 2 * H + 4 * k:  the number of its header, its stretch, the
 *                                      start of its sealed string, and its end
 * An end is the place behind the last byte. After 9 and 6 *headers and *records are 0.
 * Answers 0, 9, 6.
 */
uint32_t aez_day_list(const uint8_t *file, size_t file_len,
                      uint64_t *places, size_t places_len,
                      uint64_t *headers, uint64_t *records);

/*
 * The two calls that change a day file where it stands: the first `size` bytes of
 * `buffer`. Answer 9: `size` is above buffer_len, or these bytes do not read as a day
 * file. After answer 0 the file is the first *new_size bytes of `buffer`, and after every
 * other *new_size is 0 and no byte of `buffer` is changed.
 */

/*
 * Clears out the records of these numbers. Then 17: `dropped` is not strictly rising, or
 * has a number that is not that of a record. It may be empty. The records that are kept
 * stand in the order that they had, each with the header, the stretch and the sealed
 * string that it had, and are numbered anew; headers that none of them names go, also
 * those that no record named before; the index is built anew. The bytes from *new_size to
 * `size` are zero, and those from `size` on unchanged.
 * Answers 0, 9, 17.
 */
uint32_t aez_day_clear(uint8_t *buffer, size_t buffer_len,
                       uint64_t size,
                       const uint64_t *dropped, size_t dropped_len,
                       uint64_t *new_size);

/*
 * Appends a record, which is the last then. `number` is that of a header of the file,
 * and then `header` is not looked at; or the next number, the count of the file's
 * headers, and then `header` is put last among them. Answer 9 also: `number` is larger, or
 * is the next and `header` does not read, or the stretch is above 64. Then 6: the file
 * would be above buffer_len or above 65,536 bytes. Its length is then
 *     size + 11 + sealed_len, and 2 + header_len more with a new header.
 * The bytes from *new_size on are unchanged.
 * Answers 0, 9, 6.
 */
uint32_t aez_day_append(uint8_t *buffer, size_t buffer_len,
                        uint64_t size,
                        uint64_t number,
                        const uint8_t *header, size_t header_len,
                        uint64_t stretch,
                        const uint8_t *sealed, size_t sealed_len,
                        uint64_t *new_size);

/*
 * Reads an opened text as a pause under its header. After answer 0 *microseconds is
 * exactly what the text says, at most 999,999,999,999,000, and after every other 0:
 * under "de" the text "1,204 s" is 1204000, and under "en" it is answer 16.
 * Answers 0, 3, 15, 16.
 */
uint32_t aez_pause(const uint8_t *header, size_t header_len,
                   const uint8_t *text, size_t text_len,
                   uint64_t *microseconds);

/*
 * Opens and reads every record of a day file, and puts one line on them first in `out`:
 * the records read, the records refused, the sum of the pauses read, the longest, and
 * their mean as a fraction in lowest terms. All are decimals without leading zeros, in
 * microseconds, with one space between them, then a line feed; "0 0 0 0 0/1" where
 * there is no record. A record that does not open, or for which aez_pause answers 15 or
 * 16, is refused and counts in no other figure. The sum never wraps. A line has at most
 * 71 bytes. After answer 0 *size is its length, and after every other 0.
 * Answers 0, 9, 1, 6.
 */
uint32_t aez_report(const uint8_t *key, size_t key_len,
                    const uint8_t *file, size_t file_len,
                    uint8_t *out, size_t out_len,
                    uint64_t *size);

/*
 * The same report as numbers, first in `figures`: read, refused, sum, longest, and the
 * mean's numerator and denominator. Answer 6: `figures` has fewer than six numbers.
 * Answers 0, 9, 1, 6.
 */
uint32_t aez_report_figures(const uint8_t *key, size_t key_len,
                            const uint8_t *file, size_t file_len,
                            uint64_t *figures, size_t figures_len);

#ifdef __cplusplus
}
#endif

#endif
