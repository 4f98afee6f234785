/* obarsivel: the proved reader of descriptions, images and value lists.
 *
 * Link libffi.a (scripts/archive). x86-64, System V calling convention.
 *
 * The rules are those of docs/RULES.md, by number: each function is the
 * library's call, its answer told as a number (rule 13.1).
 *
 * Every pointer is followed by its length in elements, points to that many
 * readable (const) or readable and writable elements of its type, and is
 * aligned for it. A length may be 0; the pointer must not be NULL even then.
 * Buffers that a call writes overlap no other buffer of the same call. Nothing
 * is kept between calls, nothing is allocated, and calls on different buffers
 * may run at the same time.
 *
 * The same four things begin every call after the load, as they were at it
 * (rules 6.1 and 9.9):
 *   text, text_len     the description, at most 16 MiB
 *   image, image_len   the image, at most 1 MiB; its bytes may have changed
 *   base               the address of the image's first byte;
 *                      base + image_len is at most 2^32
 *   tables, tables_len what obarsivel_load has filled, 36,617 cells or more
 *
 * Refusals. 20 comes first and leaves everything untouched; in a load 33 comes
 * next and does so too. 22, a table that breaks rules 11.1 to 11.10, comes next
 * in every call after the load. No refusal touches image or list (rule 1.3).
 * Each number has a constant below. Its reason is worded as in
 * docs/refusals.tsv, and rules 12.1 to 12.22 and 12.33 say of each, by its
 * number, where its place is and which rules it answers to:
 *    1 a token that the rules don't allow, or unclosed
 *    2 a number outside its form
 *    3 begin and end don't match, too deep, text ends early, or text after
 *      PROJECT's end
 *    4 a keyword that the standard doesn't list
 *    5 a parameter or needed keyword is missing, of the wrong kind or
 *      misplaced, an unused word, or the lower limit is above the upper
 *    6 a name or a once-only keyword stands twice, or one AXIS_DESCR too many
 *    7 a reference that leads nowhere
 *    8 a capacity is exceeded
 *    9 a keyword of the standard that is not taken here, or coefficient a or d
 *      is not 0
 *   10 the conversion's b*f equals c*e, or one of its four coefficients is
 *      above 10^9
 *   11 the layout breaks the rules of place or lacks a part, or the mask breaks
 *      its rule
 *   12 a byte outside the image
 *   13 a stored count is out of range
 *   14 no such element
 *   15 the asked value is outside its form, or a physical write under TAB_VERB
 *   16 the asked value, or the value that would be stored, is outside the
 *      limits
 *   17 no raw value exists
 *   18 the value doesn't fit the type or the mask
 *   19 the element shares a byte with a stored count
 *   20 a lent buffer is too short, text or image too long, or base plus image
 *      above 2^32
 *   21 a MEASUREMENT or READ_ONLY
 *   22 a lent table breaks the table rule
 *   33 the edition is neither 1 nor 2
 */
#ifndef OBARSIVEL_H
#define OBARSIVEL_H

#include <stddef.h>
#include <stdint.h>

#ifdef __cplusplus
extern "C" {
#endif

/* The version of this header. */
#define OBARSIVEL_VERSION_MAJOR 0
#define OBARSIVEL_VERSION_MINOR 3
#define OBARSIVEL_VERSION_PATCH 0
#define OBARSIVEL_VERSION \
    (OBARSIVEL_VERSION_MAJOR * 65536 + OBARSIVEL_VERSION_MINOR * 256 + OBARSIVEL_VERSION_PATCH)

/* The refusals' numbers: the last part of rules 12.1 to 12.22 and 12.33. */
#define OBARSIVEL_REFUSED_TOKEN 1
#define OBARSIVEL_REFUSED_NUMBER 2
#define OBARSIVEL_REFUSED_BLOCKS 3
#define OBARSIVEL_REFUSED_UNKNOWN_KEYWORD 4
#define OBARSIVEL_REFUSED_PARAMETER 5
#define OBARSIVEL_REFUSED_TWICE 6
#define OBARSIVEL_REFUSED_REFERENCE 7
#define OBARSIVEL_REFUSED_CAPACITY 8
#define OBARSIVEL_REFUSED_NOT_TAKEN 9
#define OBARSIVEL_REFUSED_CONVERSION 10
#define OBARSIVEL_REFUSED_LAYOUT 11
#define OBARSIVEL_REFUSED_OUTSIDE_IMAGE 12
#define OBARSIVEL_REFUSED_COUNT 13
#define OBARSIVEL_REFUSED_NO_ELEMENT 14
#define OBARSIVEL_REFUSED_ASKED 15
#define OBARSIVEL_REFUSED_LIMITS 16
#define OBARSIVEL_REFUSED_NO_RAW 17
#define OBARSIVEL_REFUSED_NO_FIT 18
#define OBARSIVEL_REFUSED_SHARES_COUNT 19
#define OBARSIVEL_REFUSED_SIZES 20
#define OBARSIVEL_REFUSED_READ_ONLY 21
#define OBARSIVEL_REFUSED_TABLES 22
#define OBARSIVEL_REFUSED_EDITION 33

/* The number and the place of a refused load, out of what obarsivel_load
 * answers (rule 13.2). */
#define OBARSIVEL_LOAD_NUMBER(answer) ((uint32_t)((uint64_t)(answer) % 64))
#define OBARSIVEL_LOAD_PLACE(answer) ((uint32_t)((uint64_t)(answer) / 64))

/* Cells of the tables at full capacity, and cells that a load works in
 * (rule 6.6). */
#define OBARSIVEL_TABLE_CELLS 36617
#define OBARSIVEL_WORK_CELLS 42578

/* The tables' cell that holds how many elements all objects have: the lines
 * that the list's four columns need (rule 6.7). */
#define OBARSIVEL_ELEMENTS_CELL 3

/* The most elements that all objects can have (rule 6.5). */
#define OBARSIVEL_MOST_ELEMENTS 4096

/* The editions (rule 9.18): a physical write rounds an exact half away from
 * zero in the first, to the even neighbour in the second (rule 8.11). The
 * tables' cell that holds the edition. */
#define OBARSIVEL_EDITION_1 1
#define OBARSIVEL_EDITION_2 2
#define OBARSIVEL_EDITION_CELL 1

/* An object's parts (rule 9.10). */
#define OBARSIVEL_PART_X 0
#define OBARSIVEL_PART_Y 1
#define OBARSIVEL_PART_V 2

/* States of a line (rule 10.3): no physical value (first and second are 0); a
 * fraction first / second, not cancelled, second above 0; a text from byte
 * first of the description up to the one before second, quotes included. */
#define OBARSIVEL_STATE_NONE 0
#define OBARSIVEL_STATE_NUMBER 1
#define OBARSIVEL_STATE_TEXT 2

/* The version of the archive that is linked (rule 13.3).
 * Answers MAJOR * 65536 + MINOR * 256 + PATCH: OBARSIVEL_VERSION where header
 * and archive are of one version. */
uint32_t obarsivel_version(void);

/* Reads a description against an image: accepted exactly if the rules are kept
 * (rule 1.6), judged in the order of rules 9.2 to 9.7.
 *   edition 1 or 2, which the tables keep for the physical writes (rule 9.18);
 *           another number is 33, directly after 20
 *   tables  36,617 cells or more; any content before. Accepted: filled, cells
 *           past 36,617 zero. Refused: all zero, but with 20 and 33 untouched.
 *   work    42,578 cells or more; any content before; zero after, but with 20
 *           and 33 untouched. It need not be kept.
 * Answers 0 (accepted), or place * 64 + number with number 1 to 13, 20 or 33
 * (OBARSIVEL_LOAD_NUMBER, OBARSIVEL_LOAD_PLACE; rule 13.2). The place is the
 * refusal's first byte in the description, 0 with 20 and 33 (rules 9.4 and
 * 9.5). What tables and work hold after it: rule 9.8. */
uint64_t obarsivel_load(const uint8_t *text, size_t text_len,
                        const uint8_t *image, size_t image_len, uint32_t base,
                        uint32_t edition, uint64_t *tables, size_t tables_len,
                        uint64_t *work, size_t work_len);

/* Finds the first object that bears a name (rule 9.11).
 * Answers its number (objects count from 0 in text order), -1 if none bears
 * it, or -20, -22. */
int64_t obarsivel_find(const uint8_t *text, size_t text_len,
                       const uint8_t *image, size_t image_len, uint32_t base,
                       const uint64_t *tables, size_t tables_len,
                       const uint8_t *name, size_t name_len);

/* Reads one element from the image (rule 9.12): its raw number and what it
 * means (rules 8.1, 8.2, 8.5, 8.6 and 8.7).
 *   object, part, index  the element, all from 0 (rule 9.10)
 *   out    5 cells or more; 0 to 4 become: raw value, state, first, second,
 *          what is shown (0 nothing, 1 the number in shown[0], 2 the text
 *          whose places are first and second)
 *   shown  1 cell or more; shown[0] becomes the number, which is one binary64
 *          division of first by second, given where both are at most 2^53 in
 *          size; where out[4] is not 1 it becomes 0.0.
 * Answers 0, and the cells past those stay untouched; or 20 (out or shown too
 * short included), 22, 14, and all of out and shown stay untouched. */
uint32_t obarsivel_read(const uint8_t *text, size_t text_len,
                        const uint8_t *image, size_t image_len, uint32_t base,
                        const uint64_t *tables, size_t tables_len,
                        uint32_t object, uint8_t part, uint32_t index,
                        int64_t *out, size_t out_len,
                        double *shown, size_t shown_len);

/* Makes the value list (rules 9.13 and 10.1 to 10.3): works out a line per
 * element, objects in text order, within each x points, y points, values, by
 * index, x fastest in a map.
 *   raw, state, first, second  the four columns, each at least as many cells
 *          as the tables' element cell says (rule 6.7); cells past that stay
 *          untouched (rule 10.5)
 * Answers 0, or 20, 22. */
uint32_t obarsivel_make_list(const uint8_t *text, size_t text_len,
                             const uint8_t *image, size_t image_len, uint32_t base,
                             const uint64_t *tables, size_t tables_len,
                             int64_t *raw, size_t raw_len,
                             uint8_t *state, size_t state_len,
                             int64_t *first, size_t first_len,
                             int64_t *second, size_t second_len);

/* Writes a raw value: type and mask are tested, limits are not (rules 8.3 and
 * 8.10). An accepted write changes the element's bytes under its mask, and
 * works out afresh every line that shares a byte with it, and no other (rules
 * 1.11, 8.4 and 10.4). Writes to elements that have no bit in common, raw or
 * physical, may be made in either order: the same answers, image and list
 * (rules 9.19 to 9.21).
 *   image  written; the columns as for obarsivel_make_list
 * Answers 0, or 20, 22, 14, 21, 19, 18, the first that holds in this order
 * (rules 9.14 to 9.16). */
uint32_t obarsivel_write_raw(const uint8_t *text, size_t text_len,
                             uint8_t *image, size_t image_len, uint32_t base,
                             const uint64_t *tables, size_t tables_len,
                             int64_t *raw, size_t raw_len,
                             uint8_t *state, size_t state_len,
                             int64_t *first, size_t first_len,
                             int64_t *second, size_t second_len,
                             uint32_t object, uint8_t part, uint32_t index,
                             int64_t value);

/* Writes the raw value nearest to an asked physical one, halves away from
 * zero, where both the asked value and what that raw value means lie within
 * the limits (rules 8.8 to 8.13); else as obarsivel_write_raw.
 *   asked  a decimal: optional sign, 1 to 10 digits in all, an optional point
 *          with digits on both sides, at most 6 after it; or any number of
 *          such digits with an exponent, as 1.2E3 or 5e-1 (one or two digits),
 *          that make a number of at most 10 digits, at most 6 after the point
 *          (rules 2.13 to 2.17). Its whole number, needless zeros dropped, is
 *          at most 10^9. No blanks, no end mark.
 * Answers 0, or 20, 22, 14, 21, 19, 15, 16 (the asked value), 17, 18, 16 (the
 * value that would be stored), the first that holds in this order (rules 9.14
 * to 9.16). */
uint32_t obarsivel_write_physical(const uint8_t *text, size_t text_len,
                                  uint8_t *image, size_t image_len, uint32_t base,
                                  const uint64_t *tables, size_t tables_len,
                                  int64_t *raw, size_t raw_len,
                                  uint8_t *state, size_t state_len,
                                  int64_t *first, size_t first_len,
                                  int64_t *second, size_t second_len,
                                  uint32_t object, uint8_t part, uint32_t index,
                                  const uint8_t *asked, size_t asked_len);

/* Prints the list: a header line, then a line per element (name, part, index,
 * raw, physical, parted by tabs, ended by LF; a none is "-"): rules 9.17 and
 * 10.6 to 10.8.
 *   raw, state, first, second  the columns as obarsivel_make_list and the
 *          writes leave them
 *   out    room for all of it; bytes past the printed ones stay untouched. A
 *          line takes the name's length and at most 34 bytes, and 41 more for
 *          a fraction or its text's length; the header takes 29.
 * Answers how many bytes it wrote, or -20 (out too short included; nothing is
 * written then), -22. */
int64_t obarsivel_listing(const uint8_t *text, size_t text_len,
                          const uint8_t *image, size_t image_len, uint32_t base,
                          const uint64_t *tables, size_t tables_len,
                          const int64_t *raw, size_t raw_len,
                          const uint8_t *state, size_t state_len,
                          const int64_t *first, size_t first_len,
                          const int64_t *second, size_t second_len,
                          uint8_t *out, size_t out_len);

#ifdef __cplusplus
}
#endif
#endif
