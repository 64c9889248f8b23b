/* Squeeze of JPEG XL's Modular mode: the functions that libsqueeze.a exports.

   A slice is a pointer and a number of elements. Slices of one call must not
   overlap, and a pointer must be aligned and lead to that many elements; for an
   empty slice it may be null. No other condition is asked of any argument. Every
   function answers 0, or the number of a refusal; a refused call changes
   nothing. No call takes memory but its stack, at most 64 KiB.

   A side is at most 1,048,575. In a record a channel with a side above 65,535 is
   a strip and has a field of its own, tag 3; every other channel has tag 1, and
   tag 3 for it is refused.

   A record has a plan version, which every call over it follows. Version 1 is the
   standard's: the default plan has chroma steps first and stops at 8. Version 2
   is for larger screens: the default plan has no chroma steps and stops at 32. A
   record says version 2 in its first field, tag 4: 04 01 00 02 (hex). Without
   that field it has version 1; the field with value 1 is refused. The coarse
   count takes the version's side, 8 or 32, also where a record has steps of its
   own.

   Refusals:  1 a field's head or length runs past the record
              2 unknown tag, wrong length, a channel after a step, or tag 4 after
                another field
              3 no channel, over 256 channels or over 64 steps
              4 shifts, meta channels not first, unknown flag bits, a side above
                1,048,575, tag 3 for a channel that is no strip, tag 4 with a
                value other than 2, or a version other than 1 or 2
              5 over 16,777,216 samples
              6 a step's range      7 its kinds     8 meta and not in place
              9 an empty side      10 too many channels, or a shift above 30
             11 a default plan without a channel that is not meta
             12 a slice of another length than it needs, or too short for what
                is written to it
             13 sizes or lines of a tile call that don't fit, or a side above
                1,048,575
             14 a rectangle's kinds or group dimension */
#ifndef SQUEEZE_H
#define SQUEEZE_H

#include <stddef.h>
#include <stdint.h>

#ifdef __cplusplus
extern "C" {
#endif

/* Rebuilds the picture of a pyramid. record: the bytes that describe the
   channels and the plan. pyramid: one sample after the other, channel by
   channel of the rewritten list; read only. picture: the same number of
   samples; written. work: as long as the picture, any contents; all zero after
   success. */
uint32_t squeeze_rebuild(const uint8_t *record, size_t record_len,
                         const int32_t *pyramid, size_t pyramid_len,
                         int32_t *picture, size_t picture_len,
                         int32_t *work, size_t work_len);

/* squeeze_rebuild, which also tells whether the run leaves the plain range,
   -268,435,456 to 268,435,455. mark: mark[0] is 1 or 0 afterwards; what is past it
   stays. 1: some pair of some step has a sample outside, which may be its average,
   its residual, the next average, the output before it or one of the two that it
   makes; or an average outside is copied. 0: every sample read or made in any step
   lies inside, so the picture is the one that the standard gives. What no step
   reads doesn't count: a record without steps is never marked, and a channel that
   no step touches marks nothing. A picture that lies inside is marked where a
   residual doesn't. Answer and other slices are those of squeeze_rebuild; without
   a number for the mark: refused with 12. A refusal leaves the mark as it was. */
uint32_t squeeze_rebuild_marked(const uint8_t *record, size_t record_len,
                                const int32_t *pyramid, size_t pyramid_len,
                                int32_t *picture, size_t picture_len,
                                int32_t *work, size_t work_len,
                                uint32_t *mark, size_t mark_len);

/* Writes the pyramid of a picture: the reverse. */
uint32_t squeeze_write(const uint8_t *record, size_t record_len,
                       const int32_t *picture, size_t picture_len,
                       int32_t *pyramid, size_t pyramid_len,
                       int32_t *work, size_t work_len);

/* squeeze_write with a mark, which is the one that squeeze_rebuild_marked gives for
   the pyramid written. */
uint32_t squeeze_write_marked(const uint8_t *record, size_t record_len,
                              const int32_t *picture, size_t picture_len,
                              int32_t *pyramid, size_t pyramid_len,
                              int32_t *work, size_t work_len,
                              uint32_t *mark, size_t mark_len);

/* One tile of an inverse squeeze, horizontal unless the first number is 0:
   aw by ah averages, rw by rh residuals, ow by oh samples of output. next: the
   next tile's first average line, or empty. prev: the last line that the tile
   before wrote, or empty. */
uint32_t squeeze_tile(uint32_t horizontal,
                      size_t aw, size_t ah, size_t rw, size_t rh,
                      size_t ow, size_t oh,
                      const int32_t *avg, size_t avg_len,
                      const int32_t *res, size_t res_len,
                      const int32_t *next, size_t next_len,
                      const int32_t *prev, size_t prev_len,
                      int32_t *out, size_t out_len);

/* squeeze_tile with a mark, as in squeeze_rebuild_marked: of the pairs of this tile,
   and of the averages that it copies, which are its last line where there is one
   average more than residuals. prev counts where there is a pair, next where
   there is a pair and no such last line. A squeeze is marked exactly if one of
   the tiles that it is cut into is. */
uint32_t squeeze_tile_marked(uint32_t horizontal,
                             size_t aw, size_t ah, size_t rw, size_t rh,
                             size_t ow, size_t oh,
                             const int32_t *avg, size_t avg_len,
                             const int32_t *res, size_t res_len,
                             const int32_t *next, size_t next_len,
                             const int32_t *prev, size_t prev_len,
                             int32_t *out, size_t out_len,
                             uint32_t *mark, size_t mark_len);

/* The listing of a record as text: the plan's steps, the channels that it
   leaves and how many of them are coarse: those at the front that are meta, of
   any size, or have no side above 8, under version 2 above 32. The text goes
   over the front of `text` (8,192 bytes hold every listing), its length in bytes
   into length[0]; what is past them stays. A text too short or no length: refused
   with 12. */
uint32_t squeeze_listing(const uint8_t *record, size_t record_len,
                         uint8_t *text, size_t text_len,
                         uint32_t *length, size_t length_len);

/* The layout of a record as numbers, and the origin of each of its channels: the
   position, in the record's list, of the picture channel that it was made from. A
   depot that gets a residual late, with origin 2, knows that it refines picture
   channel 2, counted from 0. The first channel with an origin holds the averages
   of that picture channel, or all of it if no step squeezes it; the others refine
   it. counts: four numbers, version, number of steps, number of channels, coarse
   count as in the listing. steps: the steps that are meant, the default plan's
   where the record has none; channels: those that the plan leaves; both as for
   squeeze_record, three numbers a step and four a channel. origins: one number a
   channel. The numbers go over the fronts of their slices (4, 192, 1,024 and 256
   hold every layout); what is past them stays. A slice too short: refused with
   12. */
uint32_t squeeze_layout(const uint8_t *record, size_t record_len,
                        uint32_t *counts, size_t counts_len,
                        uint32_t *steps, size_t steps_len,
                        uint32_t *channels, size_t channels_len,
                        uint32_t *origins, size_t origins_len);

/* Writes a record, if its channels and its plan are such as the other functions
   take. version: the plan version, 1 or 2; any other number is refused with 4.
   The parameter is new: a caller from before there were versions gives 1, and
   the bytes are what they were. channels: four numbers each, width, height,
   horizontal and vertical shift, both shifts 255 for a meta channel. steps: three
   numbers each, flags (the sum of 1 for horizontal and 2 for in place), first
   channel, number of channels; no steps mean the default plan. The bytes go over
   the front of `record` (4 for version 2 and none for version 1, 9 for a channel,
   13 for a strip, 8 for a step; 3,844 hold every record), their number into
   length[0]; what is past them stays. A number too large for its place is
   refused, never cut: a version of 258 with 4, a side of 1,048,576 with 4, shifts
   and flags above 255 with 4, a step's first channel or number of 65,536 with 6.
   Numbers left over after the last whole channel or step, a record too short or
   no length: refused with 12. */
uint32_t squeeze_record(uint32_t version,
                        const uint32_t *channels, size_t channels_len,
                        const uint32_t *steps, size_t steps_len,
                        uint8_t *record, size_t record_len,
                        uint32_t *length, size_t length_len);

/* The rectangle of a channel at grid position (gx, gy). Kinds: 0 none, 1 LF,
   2 HF. group: 128, 256, 512 or 1,024. rect: four numbers, x, y, width, height;
   written. A meta channel has both shifts 255. Width and height have 32 bits;
   they had 16 before there were strips. */
uint32_t squeeze_grid_rect(uint32_t width, uint32_t height,
                           uint8_t hshift, uint8_t vshift,
                           uint8_t output, uint8_t stored, uint32_t group,
                           uint16_t gx, uint16_t gy,
                           uint32_t *rect, size_t rect_len);

#ifdef __cplusplus
}
#endif

#endif
