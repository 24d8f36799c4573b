/* Reads MAP and looks POSITIONS up in C: prints the microseconds of reading, of the look-ups one by one and in one call,
 * and the sum of the original lines and columns, which all languages have to agree on. CLOCK=processor counts those of
 * processors, of all threads. */
#include <smap.h>
#include <stdio.h>
#include <stdlib.h>
#include <string.h>
#include <time.h>

static uint8_t *whole(const char *path, size_t *length) {
    FILE *file = fopen(path, "rb");
    if (!file) exit(9);
    fseek(file, 0, SEEK_END);
    *length = (size_t)ftell(file);
    rewind(file);
    uint8_t *bytes = malloc(*length + 1);
    if (fread(bytes, 1, *length, file) != *length) exit(9);
    fclose(file);
    return bytes;
}

static double now(void) {
    struct timespec time;
    const char *asked = getenv("CLOCK");
    clock_gettime(asked && strcmp(asked, "processor") == 0 ? CLOCK_PROCESS_CPUTIME_ID : CLOCK_MONOTONIC, &time);
    return (double)time.tv_sec * 1e6 + (double)time.tv_nsec / 1e3;
}

int main(int count, char **words) {
    if (count < 3) return 9;
    size_t size, places;
    smap_position *positions = (smap_position *)whole(words[2], &size);
    places = size / sizeof *positions;
    double begin = now();
    size_t length;
    uint8_t *bytes = whole(words[1], &length);
    smap_map map = {0};
    smap_refusal refusal = {0};
    if (smap_map_read(bytes, length, bytes, 0, 64, &map, &refusal) != SMAP_DONE) return 1;
    double read = now();
    uint64_t sum = 0, many_sum = 0;
    for (size_t i = 0; i < places; i++) {
        smap_found found = {0};
        smap_look_up(&map, positions[i].line, positions[i].column, &found);
        if (found.kind == 2) sum += found.line + found.column;
    }
    double one = now();
    smap_found *found = calloc(places, sizeof *found);
    smap_look_up_many(&map, positions, places, found, places);
    for (size_t i = 0; i < places; i++)
        if (found[i].kind == 2) many_sum += found[i].line + found[i].column;
    double many = now();
    printf("%.0f %.0f %.0f %lu\n", read - begin, one - read, many - one, (unsigned long)sum);
    smap_map_free(&map);
    return sum == many_sum ? 0 : 1;
}
