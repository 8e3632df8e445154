/* Asks the library what the original was asked, and holds its answers to those that are stored: replay answers.txt
 * Each query is checked packed, and again from what reading it gives, in areas with no word more than they need. */
#include "walls_c.h"

#include <stdio.h>
#include <stdlib.h>
#include <string.h>

#define MOST_CELLS 65536
#define MOST_OBSTACLES 256
#define MOST_LINE (1 << 18)

static char hex[MOST_LINE], wanted[MOST_LINE];
static uint8_t packed[MOST_LINE / 2], cells[MOST_CELLS];
static int32_t obstacles[4 * MOST_OBSTACLES];
static uint64_t read_words[WALLS_C_READ_WORDS], answer[WALLS_C_CHECK_WORDS];

/* The areas 2 to 8, and how much a query needs of each. */
static struct {
    uint32_t *issues, *base, *planned, *parents, *queue, *route;
    uint8_t *marks;
    size_t issue, difference, center;
} area;

static void *lend(size_t count, size_t size) {
    /* Anything may stand in a lent area, and one of no words is still somewhere. */
    unsigned char *p = malloc(count * size + 1);
    if (p == NULL) exit(2);
    memset(p, 0xA5, count * size + 1);
    return p;
}

static void lend_all(void) {
    const uint64_t *query = read_words + WALLS_C_QUERY;
    int64_t w = (int64_t)(int32_t)query[2] - (int32_t)query[0], h = (int64_t)(int32_t)query[3] - (int32_t)query[1];
    size_t n = read_words[WALLS_C_OBSTACLES], b = read_words[WALLS_C_BUILDINGS];
    if (w < 0 || w > 1024 || h < 0 || h > 1024) w = h = 0; /* it is refused, and needs none */
    area.issue = b * (n + b + 1);
    area.difference = (size_t)((w + 1) * (h + 1));
    area.center = (size_t)(w * h);
    area.issues = lend(area.issue, 4);
    area.base = lend(area.difference, 4);
    area.planned = lend(area.difference, 4);
    area.marks = lend(2 * area.center, 1);
    area.parents = lend(area.center, 4);
    area.queue = lend(area.center, 4);
    area.route = lend(area.center, 4);
}

static void give_back(void) {
    free(area.issues);
    free(area.base);
    free(area.planned);
    free(area.marks);
    free(area.parents);
    free(area.queue);
    free(area.route);
}

static size_t bytes_of(const char *digits) {
    size_t n = strlen(digits) / 2;
    for (size_t i = 0; i < n; i++) {
        unsigned byte;
        if (sscanf(digits + 2 * i, "%2x", &byte) != 1) exit(2);
        packed[i] = (uint8_t)byte;
    }
    return n;
}

/* Whether the next stored word is this one. */
static int next_is(char **at, uint64_t word) {
    char *end;
    uint64_t stored = strtoull(*at, &end, 10);
    int same = end != *at && stored == word;
    *at = end;
    return same;
}

/* Whether the answer and the areas hold what is stored, and nothing is left of that. */
static int as_stored(uint64_t told) {
    char *at = wanted;
    size_t issues = 0, buildings = told ? 0 : read_words[WALLS_C_BUILDINGS];
    size_t words = told ? 5 : WALLS_C_PLACEMENTS + 9 * buildings;
    int same = told == answer[WALLS_C_REFUSAL];
    for (size_t i = 0; i < words; i++) same &= next_is(&at, answer[i]);
    for (size_t b = 0; b < buildings; b++) issues += answer[WALLS_C_PLACEMENTS + 9 * b + 8];
    for (size_t i = 0; i < issues; i++) same &= next_is(&at, area.issues[i]);
    for (size_t i = 0; !told && i < answer[WALLS_C_POINTS]; i++) same &= next_is(&at, area.route[i]);
    return same && *at == '\n';
}

static int replayed(void) {
    size_t n = bytes_of(hex);
    if (walls_c_read_packed(packed, n, cells, MOST_CELLS, obstacles, 4 * MOST_OBSTACLES, read_words, WALLS_C_READ_WORDS) != 0) return 0;
    lend_all();
    uint64_t told = walls_c_check_packed(packed, n, cells, MOST_CELLS, obstacles, 4 * MOST_OBSTACLES, area.issues, area.issue, area.base,
                                         area.difference, area.planned, area.difference, area.marks, 2 * area.center, area.parents,
                                         area.center, area.queue, area.center, area.route, area.center, answer, WALLS_C_CHECK_WORDS);
    int same = as_stored(told);
    give_back();
    lend_all();
    size_t map = read_words[WALLS_C_WIDTH] * read_words[WALLS_C_HEIGHT];
    told = walls_c_check((uint32_t)read_words[WALLS_C_WIDTH], (uint32_t)read_words[WALLS_C_HEIGHT], cells, map, obstacles,
                         4 * read_words[WALLS_C_OBSTACLES], read_words + WALLS_C_QUERY, WALLS_C_QUERY_WORDS, read_words[WALLS_C_BUILDINGS],
                         area.issues, area.issue, area.base, area.difference, area.planned, area.difference, area.marks, 2 * area.center,
                         area.parents, area.center, area.queue, area.center, area.route, area.center, answer, WALLS_C_CHECK_WORDS);
    same &= as_stored(told);
    give_back();
    return same;
}

int main(int argc, char **argv) {
    FILE *file = argc == 2 ? fopen(argv[1], "r") : NULL;
    int count = 0, wrong = 0;
    if (file == NULL) return 2;
    while (fgets(hex, MOST_LINE, file) && fgets(wanted, MOST_LINE, file)) {
        count++;
        if (!replayed()) {
            wrong++;
            printf("answer %d is not as stored: %s", count, hex);
        }
    }
    printf("replay: %d stored answers, %d differ\n", count, wrong);
    return count == 0 || wrong != 0;
}
