/* The yardstick of the benchmarks: `settle` and `drops` by a plain worklist.
 *
 *     queue settle < PILE        queue drops < PILE_AND_SITES
 *
 * It reads and writes the texts of docs/FORMATS.md, on the open grid and on the cylinder. It is what a careful programmer
 * writes in an afternoon: one worklist, no threads, no guess, no vectors, no proof. For input that the
 * program refuses it prints a reason and exits with status 1.
 */
#include <stdint.h>
#include <stdio.h>
#include <stdlib.h>
#include <string.h>

#ifndef SIDE
#define SIDE 256
#endif
enum { SITES = SIDE * SIDE, NEIGHBOURS = 4 };

/* The place `sites`, one past the last site, stands for all places outside the grid: grains that fall there are lost,
 * and since it is never looked at, toppling needs no test for the edge. */
static uint32_t width, height, sites;
static int cylinder;
static uint64_t grains[SITES + 1];
static uint32_t neighbours[SITES][NEIGHBOURS];
static uint64_t odometer[SITES];
static uint64_t topplings;

static void refuse(const char *why) {
    fprintf(stderr, "queue: %s\n", why);
    exit(1);
}

/* Text in and out. `scanf` and `printf` would take longer than the sand, so numbers are read and written by hand. */

static char *input, *input_end;

static void read_input(void) {
    size_t length = 0, room = 1 << 20, got;
    input = malloc(room);
    while (input && (got = fread(input + length, 1, room - length, stdin)) > 0) {
        length += got;
        if (length == room) input = realloc(input, room *= 2);
    }
    if (!input) refuse("out of memory");
    input_end = input + length;
}

static int is_space(char byte) { return byte == ' ' || byte == '\n' || byte == '\r' || byte == '\t'; }

static int is_digit(char byte) { return byte >= '0' && byte <= '9'; }

static void skip_space(void) {
    while (input < input_end && is_space(*input)) input++;
}

static uint64_t read_number(void) {
    uint64_t number = 0;
    skip_space();
    if (input == input_end || !is_digit(*input)) refuse("a number is missing");
    while (input < input_end && is_digit(*input)) {
        number = 10 * number + (uint64_t)(*input++ - '0');
        if (number >> 40) refuse("a number is too large");
    }
    return number;
}

static char output[1 << 16];
static size_t written;

static void flush(void) {
    if (fwrite(output, 1, written, stdout) != written) refuse("the output cannot be written");
    written = 0;
}

static void put_number(uint64_t number, char after) {
    char digits[21];
    size_t first = sizeof digits;
    digits[--first] = after;
    do digits[--first] = (char)('0' + number % 10);
    while (number /= 10);
    if (sizeof output - written < sizeof digits) flush();
    memcpy(output + written, digits + first, sizeof digits - first);
    written += sizeof digits - first;
}

static void put_text(const char *text) {
    size_t length = strlen(text);
    if (sizeof output - written < length) flush();
    memcpy(output + written, text, length);
    written += length;
}

static void put_rows(const uint64_t *values) {
    for (uint32_t site = 0; site < sites; site++) put_number(values[site], (site + 1) % width ? ' ' : '\n');
}

static void put_pile(void) {
    put_number(width, ' ');
    put_number(height, cylinder ? ' ' : '\n');
    if (cylinder) put_text("c\n");
    put_rows(grains);
}

static void put_totals(void) {
    put_text("lost ");
    put_number(grains[sites], '\n');
    put_text("topplings ");
    put_number(topplings, '\n');
}

/* The grid. */

static uint32_t site_at(int64_t x, int64_t y) {
    if (cylinder) x = (x + width) % width;
    if (x < 0 || x >= width || y < 0 || y >= height) return sites;
    return (uint32_t)(y * width + x);
}

static void read_pile(void) {
    uint64_t w = read_number(), h = read_number();
    if (w < 1 || w > SIDE || h < 1 || h > SIDE) refuse("a side is too short or too long");
    width = (uint32_t)w;
    height = (uint32_t)h;
    sites = width * height;
    skip_space();
    if (input < input_end && *input == 'c') {
        cylinder = 1;
        input++;
        if (width < 3) refuse("the cylinder is too narrow");
    }
    for (uint32_t site = 0; site < sites; site++) {
        int64_t x = site % width, y = site / width;
        uint32_t *places = neighbours[site];
        grains[site] = read_number();
        places[0] = site_at(x, y - 1);
        places[1] = site_at(x - 1, y);
        places[2] = site_at(x + 1, y);
        places[3] = site_at(x, y + 1);
    }
}

/* Settling by a ring. A site is in the ring if and only if it has 4 grains or more, so it is there at most once and the
 * ring never overflows. The order is first in, first out: on a high pile a site then gathers many grains before its turn
 * and topples as often as they allow at once, which a stack would not. */

static uint32_t ring[SITES];

static void settle(void) {
    uint32_t first = 0, waiting = 0;
    for (uint32_t site = 0; site < sites; site++)
        if (grains[site] >= 4) ring[waiting++] = site;
    while (waiting > 0) {
        uint32_t site = ring[first];
        uint64_t times = grains[site] / 4;
        if (++first == sites) first = 0;
        waiting--;
        grains[site] %= 4;
        odometer[site] += times;
        topplings += times;
        for (int i = 0; i < NEIGHBOURS; i++) {
            uint32_t place = neighbours[site][i];
            uint64_t before = grains[place];
            grains[place] = before + times;
            if (place != sites && before < 4 && before + times >= 4) {
                uint32_t end = first + waiting++;
                ring[end < sites ? end : end - sites] = place;
            }
        }
    }
}

/* Single drops. The pile is stable before a drop, so few grains wait anywhere and a stack, which stays in the cache, is
 * ahead of the ring. Only the sites that toppled are visited afterwards: a drop costs what topples. */

static uint64_t times_toppled[SITES];
static uint32_t stack[SITES], toppled[SITES];

static uint32_t distance(uint32_t from, uint32_t to) {
    uint32_t columns = (uint32_t)abs((int)(from % width) - (int)(to % width));
    uint32_t rows = (uint32_t)abs((int)(from / width) - (int)(to / width));
    if (cylinder && columns > width - columns) columns = width - columns;
    return columns + rows;
}

static void drop_at(uint64_t number, uint32_t site) {
    uint64_t lost = grains[sites], size = 0;
    uint32_t waiting = 0, area = 0, reach = 0;
    if (++grains[site] >= 4) stack[waiting++] = site;
    while (waiting > 0) {
        uint32_t from = stack[--waiting];
        uint64_t times = grains[from] / 4;
        grains[from] %= 4;
        if (times_toppled[from] == 0) toppled[area++] = from;
        times_toppled[from] += times;
        for (int i = 0; i < NEIGHBOURS; i++) {
            uint32_t place = neighbours[from][i];
            uint64_t before = grains[place];
            grains[place] = before + times;
            if (place != sites && before < 4 && before + times >= 4) stack[waiting++] = place;
        }
    }
    for (uint32_t i = 0; i < area; i++) {
        uint32_t away = distance(site, toppled[i]);
        if (away > reach) reach = away;
        size += times_toppled[toppled[i]];
        times_toppled[toppled[i]] = 0;
    }
    topplings += size;
    put_number(number, ' ');
    put_number(site, ' ');
    put_number(size, ' ');
    put_number(area, ' ');
    put_number(reach, ' ');
    put_number(grains[sites] - lost, '\n');
}

static void drop_all(void) {
    put_text("number site size area reach lost\n");
    for (uint64_t number = 0; skip_space(), input < input_end; number++) {
        uint64_t site = read_number();
        if (site >= sites) refuse("a drop is outside the grid");
        drop_at(number, (uint32_t)site);
    }
}

int main(int count, char **words) {
    int drops = count == 2 && strcmp(words[1], "drops") == 0;
    if (!drops && !(count == 2 && strcmp(words[1], "settle") == 0)) refuse("usage: queue settle|drops < PILE");
    read_input();
    read_pile();
    settle();
    if (drops) drop_all();
    else if (skip_space(), input < input_end) refuse("there are too many heights");
    put_pile();
    if (!drops) {
        put_text("odometer\n");
        put_rows(odometer);
    }
    put_totals();
    flush();
    return 0;
}
