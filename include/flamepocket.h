/* Flamepocket: the security processor of a self-encrypting card.
 *
 * The card is its record, and the record is an image of flamepocket_record_length() bytes that the
 * caller holds (docs/IMAGE.md has the layout). Each function takes the image, answers, and leaves
 * the changed record in it. Nothing else is kept between calls, so calls on different images may
 * run at the same time.
 *
 * Any bytes may be given: nobody has to check first. Where a call is refused, the image and the
 * answer buffer are as they were, byte for byte. Each pointer is followed by its length; the areas
 * of one call must not overlap, and a pointer with length 0 is not read.
 */
#ifndef FLAMEPOCKET_H
#define FLAMEPOCKET_H

#include <stddef.h>
#include <stdint.h>

#ifdef __cplusplus
extern "C" {
#endif

/* How many bytes a record has: 1,188. */
size_t flamepocket_record_length(void);

/* Makes the record of a new card for a disk of n sectors of 512 bytes.
 *   0  made
 *   1  refused: n is not within 262,144 to 2^40, the MSID is not 32 bytes, or the image is not
 *      flamepocket_record_length() bytes */
size_t flamepocket_factory(uint8_t *image, size_t image_length, uint64_t n,
                           const uint8_t *msid, size_t msid_length);

/* Whether the record is sound.
 *   0  sound
 *   1  unsound, or no image */
size_t flamepocket_sound(const uint8_t *image, size_t image_length);

/* One request: a ComPacket in, a ComPacket out.
 *   60 or more  answered: so many bytes of the answer buffer are the answer, those past it are as
 *               they were
 *   1  the record is unsound, or no image
 *   2  the answer buffer has less than 2,048 bytes
 *   3  the request has more than 2,048 bytes
 *   4  its envelope is broken
 *   5  its TSN and HSN are neither 0, 0 nor those of the open session
 *   6  on 0, 0: its payload is broken, or no call */
size_t flamepocket_command(uint8_t *image, size_t image_length,
                           const uint8_t *request, size_t request_length,
                           uint8_t *answer, size_t answer_length);

/* A power cycle.
 *   0  done
 *   1  the record is unsound, or no image */
size_t flamepocket_power_cycle(uint8_t *image, size_t image_length);

/* TPER_RESET.
 *   0  done
 *   1  the record is unsound, or no image
 *   7  disabled */
size_t flamepocket_tper_reset(uint8_t *image, size_t image_length);

/* Whether count sectors from start on may be read (write is 0) or written (write is not 0).
 *   0  from or to the disk
 *   1  the record is unsound, or no image
 *   2  a read that comes from the shadow
 *   3  refused */
size_t flamepocket_media(const uint8_t *image, size_t image_length, uint8_t write,
                         uint64_t start, uint64_t count);

#ifdef __cplusplus
}
#endif

#endif
