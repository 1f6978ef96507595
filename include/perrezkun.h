/*
 * The C boundary of the proved gauges: the simulated text gauge (Thyracont V1 and V2) and the simulated OPG (INFICON OPG550), the readers and
 * writers of requests, and the OPG's CRC. `rt lib` in crates/c_interface writes the archive out/libc_interface.a there.
 *
 * Every slice is a pointer and the number of its elements (not of its bytes). Every function takes any lengths and any contents, allocates
 * nothing, keeps nothing between calls and always returns. The caller sees to this much: each pointer is aligned, not null and valid for so many
 * elements; what is written to (memory, numbers, lens, out, len) overlaps nothing else that is passed; and nothing else writes or reads it
 * during the call. Where a length is 0 the pointer may be any that is aligned and not null.
 *
 * Answer numbers are those of document 01: for the text gauge 0 accepted, 1 to 13 refused, 15 a bench setting refused; for the OPG 20 accepted,
 * 21 to 23 silent, 1000 + e the error byte e, 15 a bench setting refused.
 */
#ifndef PERREZKUN_H
#define PERREZKUN_H

#include <stddef.h>
#include <stdint.h>

#ifdef __cplusplus
extern "C" {
#endif

/*
 * Plays a script of calls on one text gauge, of the third profile, and one OPG, which start at factory settings: the text gauge with the bench's
 * start and locked, the OPG with the pressure 0. Returns how many calls were made.
 *
 * script   read. Calls one after another; a number of two or four bytes has its high byte first:
 *            0, bytes lent (2), bytes of the request (2), the request   a request to the text gauge
 *            1, bytes lent (2)                         the text gauge's stream line
 *            2, which, code, sign, digits (4), up, down a bench setting of the text gauge, 10 bytes. which: 0 a value, 1 under range, 2 over
 *                                                      range, 3 a fault, 4 FS. code: the source, its digit or 8 for T2 and 9 for T6; for FS
 *                                                      its value. The value is digits * 10^up / 10^down, below zero where sign is not 0.
 *                                                      Bytes that a setting does not need may be anything.
 *            3, bytes lent (2), bytes of the request (2), the request   a request to the OPG
 *            4, which, bits (4)                        a bench setting of the OPG, 6 bytes. which: 0 a pressure in mbar, by the 32 bits of
 *                                                      an f32; 1 unavailable, whatever the bits.
 *          Anything else ends the play, and so does a call that is cut off.
 * memory   written. Each call is lent the next part of it, as long as the call says; a bench setting is lent none. A reply stands at the front
 *          of its part; all other bytes stay as they were. A call for which too little is left ends the play.
 * numbers  written: the answer's number of each call made, in order; later places stay as they were.
 * lens     written: the reply's length of each call made, 0 where there is none; later places stay as they were.
 *          The play also ends where numbers or lens has no place left.
 */
size_t perrezkun_play(const uint8_t *script, size_t script_len, uint8_t *memory, size_t memory_len, uint16_t *numbers, size_t numbers_len,
                      uint16_t *lens, size_t lens_len);

/*
 * The same on a text gauge of the profile that a number names: 0 the third, which perrezkun_play plays on, 1 VSH, 2 VSM. Any other number names
 * none: no call is made, 0 is returned, and nothing is written.
 */
size_t perrezkun_play_on(uint8_t profile, const uint8_t *script, size_t script_len, uint8_t *memory, size_t memory_len, uint16_t *numbers,
                         size_t numbers_len, uint16_t *lens, size_t lens_len);

/* The CRC of OPG frames (polynomial 0x1021 reflected, initial 0xFFFF, no final change) of any bytes, which are only read. */
uint16_t perrezkun_opg_crc(const uint8_t *bytes, size_t bytes_len);

/*
 * Reads any bytes as a V1 or V2 request, to a gauge of the third profile, and writes that request again, in the one form in which the master
 * sends it. Returns 0, or the number of the first refusal of the reader (2, 3, 4, 6 to 11, and 12 where F is not below T or a stream list has a
 * source twice or `0`) or of the writer (1 where less than 109 bytes are lent).
 *
 * request  read
 * out      written: the frame at its front; all other bytes, and all of it where the request is refused, stay as they were.
 * len      written: the frame's length, 0 where the request is refused.
 */
uint16_t perrezkun_rewrite_text(const uint8_t *request, size_t request_len, uint8_t *out, size_t out_len, size_t *len);

/*
 * The same for an OPG request. Returns 20, or the number of the first refusal of the reader (22, 23, 1000 + e) or of the writer (21 where less
 * than 32 bytes are lent).
 */
uint16_t perrezkun_rewrite_opg(const uint8_t *request, size_t request_len, uint8_t *out, size_t out_len, size_t *len);

#ifdef __cplusplus
}
#endif

#endif
