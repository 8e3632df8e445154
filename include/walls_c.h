/* The wall checker for C and what can call C: link crates/walls_c/out/libwalls_c.a, which `rt lib` in crates/walls_c makes.
 *
 * Every length and number is tested, so a call needs only this of its caller: each pointer leads to as many elements as the length
 * behind it says, and what a call writes (pointers that are not const) overlaps nothing else that it is lent. A pointer beside a length
 * of 0 must still not be null. Nothing is kept after a call, nothing is allocated, and calls in several threads at once are fine where
 * they share no area that is written.
 *
 * Cells, issue words and route point words are those of document 01. A query is given as words, in this order:
 *   0 to 3 window left, top, right, bottom; 4, 5 start x, y; 6, 7 end x, y; 8 to 11 mover left, top, right, bottom; then 8 for each of
 *   the first 32 buildings: tile x, y, width, height in tiles, collision left, top, right, bottom.
 * Of each word the low 32 bits count, signed for the window, so (uint64_t)-5 is -5. Words past the end count as 0. The number of
 * buildings is given beside it; one above 32 is refused and needs no words.
 *
 * Areas and how much they need, for a window of w by h centers, n obstacles and b buildings:
 *   issues b(n+b+1); base and planned (w+1)(h+1) each; marks 2wh; parents, queue and route wh each.
 * A refusal leaves all areas as they came. Otherwise issues and route begin with the issues and the route points, the others hold zero
 * up to their number, and everything beyond is unchanged.
 *
 * Each call answers 0, or the number of the refusal (1 to 19). The answer's words stand first in `answer`, as many as it has room for;
 * what is behind them is unchanged. The first 5 are the same for every call: the number, and the refusal's values, 0 where it has
 * fewer. Sides of rectangles are 32 bits, to be read as signed: (int32_t)(uint32_t)word.
 */
#ifndef WALLS_C_H
#define WALLS_C_H

#include <stddef.h>
#include <stdint.h>

#ifdef __cplusplus
extern "C" {
#endif

/* How many words a call's answer has. */
#define WALLS_C_CHECK_WORDS 300
#define WALLS_C_TEST_WORDS 6
#define WALLS_C_READ_WORDS 277
#define WALLS_C_QUERY_WORDS 268

/* What each word of an answer is. */
enum walls_c_word {
    WALLS_C_REFUSAL = 0,
    WALLS_C_VALUES = 1,      /* 4 of them */
    WALLS_C_PASSAGE = 5,     /* of a check: enum walls_c_passage */
    WALLS_C_BASELINE = 6,    /* 1 where the ends were joined before the plan */
    WALLS_C_POINTS = 7,      /* route points, which stand in `route` */
    WALLS_C_WINDOW = 8,      /* 4 of them */
    WALLS_C_PLACEMENTS = 12, /* 9 for each of 32 places: footprint, collision box (left, top, right, bottom each), number of issues */
    WALLS_C_PASSES = 5,      /* of a route test: 1 for yes */
    WALLS_C_WIDTH = 5,       /* of a reading */
    WALLS_C_HEIGHT = 6,
    WALLS_C_OBSTACLES = 7,
    WALLS_C_BUILDINGS = 8,
    WALLS_C_QUERY = 9        /* WALLS_C_QUERY_WORDS of them, as a check takes them */
};

enum walls_c_passage {
    WALLS_C_START_BLOCKED = 0,
    WALLS_C_END_BLOCKED = 1,
    WALLS_C_OPEN = 2,
    WALLS_C_ALREADY_DISCONNECTED = 3,
    WALLS_C_BLOCKED_WITHIN_WINDOW = 4
};

/* The refusals and their values. */
enum walls_c_refusal {
    WALLS_C_ACCEPTED = 0,
    WALLS_C_INVALID_GRID_DIMENSIONS = 1,   /* width, height */
    WALLS_C_CELL_LENGTH = 2,               /* width, height, expected, actual */
    WALLS_C_BAD_CELL = 3,                  /* index */
    WALLS_C_INVALID_ELEVATION = 4,         /* index, elevation */
    WALLS_C_OBSTACLE_WORDS = 5,            /* length */
    WALLS_C_TOO_MANY_OBSTACLES = 6,        /* actual */
    WALLS_C_INVALID_OBSTACLE = 7,          /* index */
    WALLS_C_MOVER_EXTENT_TOO_LARGE = 8,
    WALLS_C_TOO_MANY_BUILDINGS = 9,        /* actual */
    WALLS_C_INVALID_WINDOW = 10,
    WALLS_C_WINDOW_TOO_LARGE = 11,         /* width, height */
    WALLS_C_TOO_MANY_CENTERS = 12,         /* centers */
    WALLS_C_ENDPOINT_OUTSIDE_WINDOW = 13,  /* 0 for start or 1 for end, x, y */
    WALLS_C_INVALID_FOOTPRINT = 14,        /* index, width, height in tiles */
    WALLS_C_COLLISION_EXTENT_TOO_LARGE = 15, /* index */
    WALLS_C_COORDINATE_OVERFLOW = 16,      /* index */
    WALLS_C_ROOM_TOO_SMALL = 17,           /* area: 0 cells, 1 obstacles, 2 issues, 3 base, 4 planned, 5 marks, 6 parents, 7 queue, 8 route */
    WALLS_C_PACKED_SHORT = 18,
    WALLS_C_PACKED_TAIL = 19
};

/* Checks a wall on a map of width by height cells. `obstacles` has four words each: left, top, right, bottom.
 * Refuses with 1 to 17. WALLS_C_CHECK_WORDS of answer; beside a refusal those behind the fifth are 0. */
uint64_t walls_c_check(uint32_t width, uint32_t height,
                       const uint8_t *cells, size_t cells_len,
                       const int32_t *obstacles, size_t obstacles_len,
                       const uint64_t *query, size_t query_len, size_t buildings,
                       uint32_t *issues, size_t issues_len,
                       uint32_t *base, size_t base_len,
                       uint32_t *planned, size_t planned_len,
                       uint8_t *marks, size_t marks_len,
                       uint32_t *parents, size_t parents_len,
                       uint32_t *queue, size_t queue_len,
                       uint32_t *route, size_t route_len,
                       uint64_t *answer, size_t answer_len);

/* The same of a packed query, which is read into `cells` (width × height) and `obstacles` (4n) first.
 * Refuses with 18, 19 and 17 of the reading, which then leaves everything as it came, and with 3 to 17 of the check, which then leaves
 * the areas behind `obstacles` as they came. */
uint64_t walls_c_check_packed(const uint8_t *packed, size_t packed_len,
                              uint8_t *cells, size_t cells_len,
                              int32_t *obstacles, size_t obstacles_len,
                              uint32_t *issues, size_t issues_len,
                              uint32_t *base, size_t base_len,
                              uint32_t *planned, size_t planned_len,
                              uint8_t *marks, size_t marks_len,
                              uint32_t *parents, size_t parents_len,
                              uint32_t *queue, size_t queue_len,
                              uint32_t *route, size_t route_len,
                              uint64_t *answer, size_t answer_len);

/* Whether a list of route point words passes from start to end after the plan. Refuses with 1 to 17, of the areas only those named
 * here. WALLS_C_TEST_WORDS of answer; beside a refusal the sixth is 0. */
uint64_t walls_c_test_route(uint32_t width, uint32_t height,
                            const uint8_t *cells, size_t cells_len,
                            const int32_t *obstacles, size_t obstacles_len,
                            const uint64_t *query, size_t query_len, size_t buildings,
                            const uint32_t *list, size_t list_len,
                            uint32_t *base, size_t base_len,
                            uint32_t *planned, size_t planned_len,
                            uint8_t *marks, size_t marks_len,
                            uint64_t *answer, size_t answer_len);

/* Reads a packed query: the cells to `cells` (width × height of them), the obstacles' words to `obstacles` (four each), the rest to the
 * answer. Refuses with 18, 19 and 17. WALLS_C_READ_WORDS of answer; beside a refusal those behind the fifth are 0. */
uint64_t walls_c_read_packed(const uint8_t *packed, size_t packed_len,
                             uint8_t *cells, size_t cells_len,
                             int32_t *obstacles, size_t obstacles_len,
                             uint64_t *answer, size_t answer_len);

#ifdef __cplusplus
}
#endif

#endif
