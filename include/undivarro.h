/* The display control box for C: bursts played on a setup image, one in a call or many.
 *
 * A setup image holds a wall of up to 32 panels with all their settings. The library keeps nothing between calls: the
 * caller hands in the image, gets the image after the burst, and hands that in with the next burst.
 *
 * An image has one of two forms, told apart by its last byte, 1 or 2. In form 2 each panel has a profile, general or
 * Phoenix, which says what its video may be, a kind, 5 by 5 or 15 by 10, which says how large its wall may be, and a
 * tiling, which says where in its wall it sits; in form 1 every panel is general and 5 by 5, and its tiling is fresh.
 * Every function reads both forms. undivarro_back writes form 1, for boxes that know no other; all the others write
 * form 2.
 *
 * Every byte string is lent for the call as a pointer and a length. Any bytes and any lengths may be given; nothing
 * outside the lent lengths is read or written. The buffers that are written, answer, answers or lines and out, overlap
 * neither each other nor what is read: out is not image. A pointer whose length is 0 is not used. */
#ifndef UNDIVARRO_H
#define UNDIVARRO_H

#include <stddef.h>
#include <stdint.h>

#ifdef __cplusplus
extern "C" {
#endif

enum {
    UNDIVARRO_MAX_PANELS = 32,
    UNDIVARRO_ANSWER_CAP = 40,          /* what answer must have room for */
    UNDIVARRO_BATCH_CAP = 41,           /* what answers must have room for, for each burst of the list */
    UNDIVARRO_IMAGE_CAP = 45 * 32 + 2,  /* room for every image that is written: for n panels form 2 has 45n + 2 bytes,
                                           form 1 35n + 2 */
    UNDIVARRO_LINES_CAP = 32 * 11 * 9   /* what lines must have room for: at most 32 records; of each at most eleven
                                           lines, since each of the ten fields is taken once, so at most ten times 18,
                                           and a 17 ends it, while a 16 is a record's only line; and the longest line,
                                           "32 17 DD" with its line feed, has 9 bytes */
};

/* The profile byte of a panel in form 2: the third of its record, after ID and group. */
enum {
    UNDIVARRO_GENERAL = 0,
    UNDIVARRO_PHOENIX = 1               /* sharpness 0 to 10, tint -50 to +50 in two's complement, the rest as general */
};

/* The kind of a panel in form 2: the one value of its field with this code, which no burst has. A field that is left out
 * means 5 by 5. */
enum { UNDIVARRO_KIND_CODE = 0x01 };
enum {
    UNDIVARRO_5_BY_5 = 0,
    UNDIVARRO_15_BY_10 = 1              /* 15 wide, 10 high */
};

/* Tiling, set 0x22 and get 0x23: enable and frame compensation, 0 or 1; position, counted from left to right and then
 * down, from 1; and a byte for the wall of V rows and H columns, (V - 1) * 5 + H for a 5 by 5 panel and (V - 1) * 15 + H
 * for a 15 by 10 one. The position is at most H * V. In a set the byte 0 keeps the panel's wall, whose byte is stored and
 * reported; in an image it is not allowed. Fresh: 0, 0, 1, 1. */

/* The edition of SICP that a line speaks, by its name without the point. It is set for a line and never guessed from what
 * comes. A packet of 2.01 is size, ID, group, data, checksum, 4 to 40 bytes. A packet of 1.85 has no group byte: size, ID,
 * data, checksum, 3 to 40 bytes, so up to 37 of data; ID 0 addresses all panels, any other ID one panel, and answers have no
 * group byte either. The settings, and what is answered to what, are the same. */
enum {
    UNDIVARRO_SICP_1_85 = 185,
    UNDIVARRO_SICP_2_01 = 201
};

/* What was wrong with a burst: the first that holds, in this order. It is a fact about the burst and the line's edition
 * alone, told also where the box stays silent. */
enum {
    UNDIVARRO_NO_DAMAGE = 0,            /* intact or empty */
    UNDIVARRO_TOO_SHORT = 1,            /* 1 to 3 bytes, on a 1.85 line 1 to 2 */
    UNDIVARRO_TOO_LONG = 2,             /* over 40 bytes */
    UNDIVARRO_SIZE_DIFFERS = 3,         /* the first byte is not the count of bytes */
    UNDIVARRO_CHECKSUM_WRONG = 4        /* the last byte is not the XOR of those before it */
};

/* refusal: 0, or the number of what was wrong; then the other three are 0 and the buffers are as they were.
 *
 *   11  image: fewer than 2 bytes
 *   12  image: last byte is neither 1 nor 2
 *   13  image: panel count above 32
 *   14  image: shorter than 2n + 2 bytes
 *   15  image: starts don't fit
 *   16  record: under 2 bytes, in form 2 under 3, ID 0, group 0, ID seen before, or in form 2 an unknown profile
 *   17  field: a code that its form does not have (form 2 has the set codes and the kind's, form 1 all but tiling and
 *       kind), seen before in this record, a kind behind the tiling, length wrong, or cut off
 *   18  field: value not allowed for the panel's profile and kind; a tiling is judged by the kind that stands before it in
 *       its record, or as 5 by 5 where none does
 *   31  undivarro_back only: a panel is Phoenix or 15 by 10, or its tiling is not fresh, which form 1 cannot say
 *   19  answer_cap under 40, lines_cap under UNDIVARRO_LINES_CAP, or out_cap under the size of what is written: 45n + 2,
 *       35n + 2 for undivarro_back, 45k + 2 for undivarro_salvage; n is the image's panel count, and k of these panels
 *       are kept. Of a batch it speaks of out_cap only
 *   23  undivarro_play_on and undivarro_batch_on: edition is neither 185 nor 201
 *   32  list: stops inside a burst
 *   33  answers_cap under 41 bytes for each burst of the list
 *
 * 11 to 15 are tested on the whole image; then record after record, each its 16 and then field after field its 17 and
 * its 18; the first fault counts. undivarro_salvage does not refuse 16 to 18 but tells them in its lines. 31 comes after
 * all of these, then 19, 23, 32 and 33. */
struct undivarro_result {
    uint32_t refusal;
    uint32_t damage;                    /* of the burst; 0 from every function but undivarro_play and undivarro_play_on */
    size_t answer_len;                  /* bytes written to answer, and 0 is silence; or to answers; or to lines, and 0 is a
                                           sound image */
    size_t image_len;                   /* bytes written to out: 45n + 2, or 35n + 2 by undivarro_back, or 45k + 2 by
                                           undivarro_salvage */
};

/* Plays one burst of a 2.01 line on the wall of the image. A burst is all the bytes between two quiet marks of the line, of
 * any number, none included. The answer packet, ready to be sent, goes to the front of answer, and the image after the burst
 * to the front of out, in form 2; the bytes past them stay as they were. A damaged burst is no refusal: its answer is NACK
 * or silence, and damage says what was wrong with it. Each panel judges a set by its own profile and kind, and a tiling
 * whose byte is 0 by the wall that it has: of a group, one may take it while its neighbour keeps what it had. Power off to a
 * panel that is off gets NAV and changes nothing; any other set to the value that is there, power on too, gets ACK. */
struct undivarro_result undivarro_play(const uint8_t *image, size_t image_len,
                                       const uint8_t *burst, size_t burst_len,
                                       uint8_t *answer, size_t answer_cap,
                                       uint8_t *out, size_t out_cap);

/* The same on a line of this edition, 185 or 201; undivarro_play is it with 201. A damaged burst gets NACK if its second byte
 * is a panel's ID, and on a 2.01 line only if a third byte is there and is 0; else silence. */
struct undivarro_result undivarro_play_on(uint32_t edition,
                                          const uint8_t *image, size_t image_len,
                                          const uint8_t *burst, size_t burst_len,
                                          uint8_t *answer, size_t answer_cap,
                                          uint8_t *out, size_t out_cap);

/* Plays a list of bursts of a 2.01 line on the wall of the image, one after the other: a scene, or a night's changes. In the
 * list each burst has a byte that counts its bytes, 0 to 255, and then these. To the front of answers go, for each burst in
 * its order, a byte that counts the bytes of its answer, and then these; 0 is silence. The image after the last burst goes to
 * the front of out, in form 2. Wall and answers are those of undivarro_play, called with one burst after the other, each on
 * the image of the one before. The list is looked at whole before a burst is played: where it is refused, none is. A list of
 * no bytes has no bursts, and the image is written as by undivarro_read. */
struct undivarro_result undivarro_batch(const uint8_t *image, size_t image_len,
                                        const uint8_t *list, size_t list_len,
                                        uint8_t *answers, size_t answers_cap,
                                        uint8_t *out, size_t out_cap);

/* The same on a line of this edition, 185 or 201; undivarro_batch is it with 201. */
struct undivarro_result undivarro_batch_on(uint32_t edition,
                                           const uint8_t *image, size_t image_len,
                                           const uint8_t *list, size_t list_len,
                                           uint8_t *answers, size_t answers_cap,
                                           uint8_t *out, size_t out_cap);

/* Reads an image and writes its wall to the front of out in form 2, with all ten fields of each panel, by rising code:
 * fields may come in any order, but for a kind behind the tiling, and one that is left out has the fresh value of the
 * panel's profile. answer_len is 0. 19 speaks of out_cap only. */
struct undivarro_result undivarro_read(const uint8_t *image, size_t image_len,
                                       uint8_t *out, size_t out_cap);

/* As undivarro_read, but writes form 1, which has eight fields. It loses nothing: what form 1 cannot say is refused by
 * 31. */
struct undivarro_result undivarro_back(const uint8_t *image, size_t image_len,
                                       uint8_t *out, size_t out_cap);

/* Keeps what is good of an image that the other functions refuse with 16, 17 or 18. A record with fault 16 is dropped, and
 * an ID counts as seen only from a record that was kept. Of any other record each field is kept up to the first with fault
 * 17; that one and all behind it are as if left out, and what was not kept before is fresh by the panel's profile. A field
 * with fault 18 gets the fresh value in its place and counts as seen; a kind with fault 18 is 5 by 5, and the tiling behind
 * it is judged by that.
 *
 * The text of the lines goes to the front of lines, one line for each fault in the image's order, and the wall that was
 * kept to the front of out, in form 2; the bytes past them stay as they were. A line has the record's number from 1 and
 * the refusal number in decimal, and for 17 and 18 the byte that stands in the code's place as two upper-case hex digits,
 * with single spaces between and a line feed at the end: "3 16\n", "12 17 DD\n", "4 18 A3\n". A sound image gives no
 * lines and what undivarro_read writes. */
struct undivarro_result undivarro_salvage(const uint8_t *image, size_t image_len,
                                          uint8_t *lines, size_t lines_cap,
                                          uint8_t *out, size_t out_cap);

#ifdef __cplusplus
}
#endif

#endif
