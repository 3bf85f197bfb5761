/* Seats on decks: the C interface of the proved library libseats.a (x86-64).
 *
 * A slice is a pointer and its length in bytes. Numbers in slices are little-endian, uint32_t or float (f32), and need no alignment.
 *
 * What a caller sees to:
 * - A pointer is valid for its length, for reading, and for writing where it is not const. It is not null, also where the length is 0.
 * - What is written to (out, table, work) overlaps no other slice of the call, and nothing else touches any slice before the call
 *   returns.
 * - The floating-point environment is the default one: round to nearest, subnormal numbers kept.
 * Any bytes and any numbers may be passed; a float may be a NaN.
 *
 * What a call returns and leaves:
 * - Not negative: how many entries it wrote at the front of out (removal: how many bytes). Output past them, and a table past its
 *   counts, are left as they were, and work is all zeros.
 * - Negative: minus the number, 1 to 20 or 22, of the first question that the input does not pass. Nothing lent is altered.
 * - No memory is allocated and nothing is kept between calls, so calls may run in several threads. A call takes up to some 80 KiB
 *   of stack.
 *
 * file     a ship file. Of a ship with no decks yet it is 12 bytes: no seat is placed on it, nothing is found, a deck that is named
 *          gets 17 where 17 is asked
 * blocked  the decks left out of every search, also where one is named: SEATS_BLOCKED_SIZE bytes, deck d is bit d % 8 of byte
 *          d / 8, bit 0 the lowest
 * deck     a deck's number, or SEATS_ANY_DECK where none is named
 * polygon  a packed polygon, deck * 2^24 + its number in the deck, or SEATS_NO_POLYGON
 */
#ifndef SEATS_H
#define SEATS_H

#include <stddef.h>
#include <stdint.h>

/* Bytes of an entry. */
#define SEATS_RECORD_SIZE 36
#define SEATS_SEAT_SIZE 20
#define SEATS_BLOCKED_SIZE 32
#define SEATS_CANDIDATE_SIZE 12
#define SEATS_HEIGHT_SIZE 4
#define SEATS_POLYGON_SIZE 4
#define SEATS_LABEL_SIZE 4
#define SEATS_STITCH_SIZE 16
/* Bytes of a count of a load sheet (uint64_t). */
#define SEATS_COUNT_SIZE 8
/* Bytes of work a polygon, and those of a run with a load sheet. */
#define SEATS_WORK_SIZE 4
#define SEATS_LOADS_WORK_SIZE 8

/* All ones: no deck is named; no polygon; in a ship file, the outside. */
#define SEATS_ANY_DECK UINT32_C(0xFFFFFFFF)
#define SEATS_NO_POLYGON UINT32_C(0xFFFFFFFF)
#define SEATS_OUTSIDE UINT32_C(0xFFFFFFFF)

#ifdef __cplusplus
extern "C" {
#endif

/* The seat run. seats: SEATS_SEAT_SIZE bytes each: x, y (f32), deck, kind (1: with a wished height), height (f32; 0 for kind 0).
 * Writes a record a seat, in list order, SEATS_RECORD_SIZE bytes each: polygon, x, y (f32), kind (1: with a height), height (f32),
 * step, sample, samples tried, candidates. An unplaced seat has SEATS_NO_POLYGON, then zeros except samples tried.
 * Returns the number of seats. */
int64_t seats_run(const uint8_t *file, size_t file_len, const uint8_t *blocked, size_t blocked_len, const uint8_t *seats,
                  size_t seats_len, uint8_t *out, size_t out_len);

/* The seat run, with a load sheet beside the records: how many seats stand where. Writes the records, as above, and returns their
 * number. For a ship of N polygons on L decks it writes 2 * N + L + 1 counts at the front of table, SEATS_COUNT_SIZE bytes each,
 * little-endian: each polygon's seats, decks rising; again one a polygon, where a label's place has its island's seats and every
 * other place 0; each deck's seats; last the unplaced. Labels are those of seats_islands, and every deck has to have them, also one
 * that is blocked or has no seat: 19 otherwise.
 * Work: SEATS_LOADS_WORK_SIZE bytes a polygon of all decks, also where there are no seats. */
int64_t seats_run_loads(const uint8_t *file, size_t file_len, const uint8_t *blocked, size_t blocked_len, const uint8_t *seats,
                        size_t seats_len, uint8_t *out, size_t out_len, uint8_t *table, size_t table_len, uint8_t *work,
                        size_t work_len);

/* The candidates around a point: all polygons of the first step of the search that has a hit.
 * Writes SEATS_CANDIDATE_SIZE bytes each: polygon, x, y (f32). Returns how many; at most as many as the ship has polygons. */
int64_t seats_closest_points(const uint8_t *file, size_t file_len, float x, float y, uint32_t deck, const uint8_t *blocked,
                             size_t blocked_len, uint8_t *out, size_t out_len);

/* The first candidate, written as above. Returns 1, or 0 where there is none. */
int64_t seats_closest_point(const uint8_t *file, size_t file_len, float x, float y, uint32_t deck, const uint8_t *blocked,
                            size_t blocked_len, uint8_t *out, size_t out_len);

/* The first place on a deck on the way from a point towards another: a step of the search looks at one sample, a reach farther on
 * than the step before, on each deck in rising order or on the named one alone. No deck is blocked.
 * Writes the place as a candidate, SEATS_CANDIDATE_SIZE bytes, and returns 1; returns 0 where no step has one. Two points whose
 * squared distance computes to 0 are refused with 22. */
int64_t seats_closest_point_towards(const uint8_t *file, size_t file_len, float x, float y, float towards_x, float towards_y,
                                    uint32_t deck, uint8_t *out, size_t out_len);

/* The height of a polygon at a place (the deck's offset is not taken off).
 * Writes an f32, SEATS_HEIGHT_SIZE bytes, and returns 1; returns 0 where there is no height, and for SEATS_NO_POLYGON. */
int64_t seats_height(const uint8_t *file, size_t file_len, float x, float y, uint32_t polygon, uint8_t *out, size_t out_len);

/* The polygon that a point is in, on the named deck or on the lowest that has one. Writes nothing.
 * Returns the packed polygon, or SEATS_NO_POLYGON (4294967295) where there is none. */
int64_t seats_point_location(const uint8_t *file, size_t file_len, float x, float y, uint32_t deck);

/* The polygon that a point is in, on the named deck or on each deck that has one, in rising order.
 * Writes SEATS_POLYGON_SIZE bytes each. Returns how many; at most 256. */
int64_t seats_point_layer(const uint8_t *file, size_t file_len, float x, float y, uint32_t deck, uint8_t *out, size_t out_len);

/* The polygons that a point may be on, without those that an earlier one reaches; or polygon alone where it is named, unchecked.
 * Writes SEATS_POLYGON_SIZE bytes each. Returns how many; at most as many as the ship has polygons, or 1 where polygon is named.
 * Work: SEATS_WORK_SIZE bytes a polygon of all decks. */
int64_t seats_candidate_polygons(const uint8_t *file, size_t file_len, float x, float y, uint32_t deck, uint32_t polygon,
                                 const uint8_t *blocked, size_t blocked_len, uint8_t *out, size_t out_len, uint8_t *work,
                                 size_t work_len);

/* The label of each polygon of a deck: the least number of a polygon that reaches it. deck has to be named.
 * Writes SEATS_LABEL_SIZE bytes each. Returns the deck's number of polygons.
 * Work: SEATS_WORK_SIZE bytes a polygon of the deck. */
int64_t seats_islands(const uint8_t *file, size_t file_len, uint32_t deck, uint8_t *out, size_t out_len, uint8_t *work,
                      size_t work_len);

/* The points where two decks a < b have a vertex each.
 * Writes SEATS_STITCH_SIZE bytes each: a, b, x, y (f32) of a's vertex. Returns how many. */
int64_t seats_stitch_points(const uint8_t *file, size_t file_len, uint8_t *out, size_t out_len);

/* The file without its stitches. Writes the new file, never longer than the old one. Returns its bytes.
 * A second removal drops more: plain numbers read as entries of deck 0. */
int64_t seats_remove_stitches(const uint8_t *file, size_t file_len, uint8_t *out, size_t out_len);

/* The file without the stitches to one deck. Writes the new file, never longer than the old one. Returns its bytes. */
int64_t seats_remove_stitches_to_layer(const uint8_t *file, size_t file_len, uint8_t layer, uint8_t *out, size_t out_len);

#ifdef __cplusplus
}
#endif

#endif
