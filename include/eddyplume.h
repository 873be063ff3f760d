/*
 * Eddyplume: whether the signed part of a DICOM data set is still what was signed (DICOM PS3.3, C.12.1.1.3).
 *
 * Data sets are in Explicit VR Little Endian, at most 1,048,576 bytes, without the file's preamble and group 0002.
 *
 * Every function answers every input: a bad data set, list or signature is refused by a number and a position. No function keeps a
 * pointer, allocates, locks, or has state; each may be called from any thread at any time.
 *
 * The caller's one duty: each pointer is valid for its length or array (and aligned for its type), and no two buffers overlap, except
 * that buffers which are only read may. A pointer with length 0 is not followed and may be null.
 *
 * Link with libeddyplume.a (it calls memcpy and nothing else).
 */
#ifndef EDDYPLUME_H
#define EDDYPLUME_H

#include <stdbool.h>
#include <stddef.h>
#include <stdint.h>

#ifdef __cplusplus
extern "C" {
#endif

/*
 * The answer, alike in every call: answer[0] the number, answer[1] the position, answer[2] the length.
 *
 * Number 0: accepted; the position is 0, and the length is that of the stream (0 where none is written or measured). Any other number is a
 * refusal: its length is 0, and no byte of an output, work buffer or digest is written.
 *
 *    1  data set over 1,048,576 bytes
 *    2  too few bytes for a header, or a value past the part that holds it
 *    3  a tag of group FFFE in an element's place; in an item's place any tag but an item's or the closing delimiter's, or a delimiter of
 *       another length
 *    4  a tag not above the one before it
 *    5  unknown VR
 *    6  reserved bytes not zero
 *    7  odd length, or an undefined length where none is allowed
 *    8  sequences nested deeper than 16 levels
 *    9  expected digest not 32 bytes (checks only)
 *   10  list empty, over 1,024 tags, or not a multiple of 4 bytes
 *   11  a tag of the list not above the one before it
 *   12  a tag that may not be listed
 *   13  listed tag absent at the top level
 *   14  listed element has VR UN
 *   15  listed sequence holds an element of VR UN
 *   16  output or work buffer shorter than the stream (the data set's length is always enough)
 *   17  (not used)
 *   18  no such signature
 *   19  the signature has no MAC ID Number
 *   20  no MAC parameters with that number
 *   21  MAC Calculation Transfer Syntax UID missing, forbidden, or not the caller's
 *   22  MAC Algorithm missing or not SHA256
 *   23  Data Elements Signed missing
 *   24  (the stream program's: bad frame)
 *   25  running digest not a possible one, or more than 2^61 - 1 bytes
 *
 * Position: for 2 to 8 an offset in the data set (data_len where a header is missing at its end); for 11 to 15 an index into the list,
 * from 0; otherwise 0.
 * docs/NUMBERS.md has a sentence for the help desk beside each.
 */

/*
 * List mode: the stream of a list of tags. A tag of the list has four bytes, as in a data set: group and element number, low byte first.
 *
 * list, list_len    the list, 1 to 1,024 tags, ascending
 * data, data_len    the data set
 * out, out_len      where the stream is written; bytes behind it stay as they are
 * answer            see above
 */
void eddyplume_list_stream(const uint8_t *list, size_t list_len, const uint8_t *data, size_t data_len,
                           uint8_t *out, size_t out_len, uint64_t answer[3]);

/*
 * List mode: the answer of eddyplume_list_stream with room enough, so that the length of the stream is known before there is an output;
 * 16 does not come. list, data and answer as there; nothing else is written.
 */
void eddyplume_list_measure(const uint8_t *list, size_t list_len, const uint8_t *data, size_t data_len, uint64_t answer[3]);

/*
 * List mode: whether the SHA-256 digest of the stream is the expected one.
 *
 * expected, expected_len   the expected digest, 32 bytes
 * work, work_len           a work buffer; where the number is 0 it holds the stream, as an output does
 * verdict                  verdict[0]: 0 neither (refused), 1 same, 2 differs
 */
void eddyplume_list_check(const uint8_t *list, size_t list_len, const uint8_t *data, size_t data_len,
                          const uint8_t *expected, size_t expected_len,
                          uint8_t *work, size_t work_len, uint64_t answer[3], uint8_t verdict[1]);

/*
 * Signature mode: the stream of a digital signature in the data set. The list is the signature's own.
 *
 * uid, uid_len      the UID of the data set's transfer syntax, without padding
 * numbered, number  which item of the Digital Signatures Sequence (FFFA,FFFA), counted from 0; not numbered means 0
 * data, out, answer as in list mode
 */
void eddyplume_signature_stream(const uint8_t *uid, size_t uid_len, bool numbered, uint64_t number,
                                const uint8_t *data, size_t data_len, uint8_t *out, size_t out_len, uint64_t answer[3]);

/* Signature mode: the answer of eddyplume_signature_stream with room enough. uid, numbered, number, data and answer as there; nothing else is written. */
void eddyplume_signature_measure(const uint8_t *uid, size_t uid_len, bool numbered, uint64_t number,
                                 const uint8_t *data, size_t data_len, uint64_t answer[3]);

/* Signature mode: whether the SHA-256 digest of the stream is the expected one. expected, work and verdict as in list mode. */
void eddyplume_signature_check(const uint8_t *uid, size_t uid_len, bool numbered, uint64_t number,
                               const uint8_t *data, size_t data_len, const uint8_t *expected, size_t expected_len,
                               uint8_t *work, size_t work_len, uint64_t answer[3], uint8_t verdict[1]);

/*
 * Where the value of a top-level tag lies, without a closing sequence delimiter. The whole data set is read: in a refused one the tag
 * is not present.
 *
 * tag     group * 65,536 + element number
 * answer  of the reading: 0, or 1 to 8
 * part    part[0]: 1 present, 0 not; part[1], part[2]: start and length of the value in data (data_len and 0 where it is not present)
 */
void eddyplume_lookup(const uint8_t *data, size_t data_len, uint32_t tag, uint64_t answer[3], uint64_t part[3]);

/*
 * The SHA-256 digest of a message, into digest. answer: 0, or 25. Where 25 is answered no byte of digest is written, not even zeros: it keeps
 * what stood there.
 */
void eddyplume_sha256(const uint8_t *message, size_t message_len, uint8_t digest[32], uint64_t answer[3]);

/*
 * The running digest, which the caller keeps: eight words, the bytes that wait for the rest of their block, and
 * counts[0] their count, counts[1] the total of all bytes.
 *
 * start   the running digest of no bytes
 * feed    feeds bytes; 25 leaves the running digest as it is
 * finish  the digest of all bytes so far; the running digest stays as it is and can be fed on; where 25 is answered no byte of digest is
 *         written, as for eddyplume_sha256
 */
void eddyplume_digest_start(uint32_t words[8], uint8_t waiting[64], uint64_t counts[2]);
void eddyplume_digest_feed(uint32_t words[8], uint8_t waiting[64], uint64_t counts[2],
                           const uint8_t *bytes, size_t bytes_len, uint64_t answer[3]);
void eddyplume_digest_finish(const uint32_t words[8], const uint8_t waiting[64], const uint64_t counts[2],
                             uint8_t digest[32], uint64_t answer[3]);

#ifdef __cplusplus
}
#endif

#endif
