/* Writes the sample discs, a folder each, below the folder that its argument names (samples/README.md says what they are). */
#include "../include/mescjadro.h"
#include <stdio.h>
#include <stdlib.h>
#include <string.h>
#include <sys/stat.h>

#define VERSION 0x30323030u /* the letters 0200 */
#define MOST 16

enum { HDMV = 1, BDJ = 2 };

typedef struct {
    const char *name;
    uint32_t objects;
    uint32_t counts[MOST];
    uint32_t commands[MOST * MOST][3];
    uint32_t entries; /* first playback, top menu, then the titles */
    uint8_t kinds[MOST];
    uint16_t leads[MOST];
} disc;

/* Commands by their words. */
#define NOP {0x00000000, 0, 0}
#define GOTO(n) {0x20810000, n, 0}
#define JUMP_OBJECT(n) {0x21800000, n, 0}
#define JUMP_OBJECT_R(r) {0x21000000, r, 0}
#define JUMP_TITLE(n) {0x21810000, n, 0}
#define CALL_OBJECT(n) {0x21820000, n, 0}
#define RESUME {0x01040000, 0, 0}
#define PLAY(n) {0x22800000, n, 0}
#define MOVE(r, v) {0x50400001, r, v}
#define ADD(r, v) {0x50400003, r, v}
#define SET_BUTTON_PAGE(a, b) {0x51c00003, a, b}
#define LESS(r, v) {0x48400700, r, v}

static const disc discs[] = {
    /* A course of two modules behind a greeting; the second asks for a button page, and plays at the first two attempts that
     * register 1 counts. */
    {"course", 4, {2, 3, 2, 5},
     {PLAY(1), JUMP_TITLE(1),
      CALL_OBJECT(2), CALL_OBJECT(3), RESUME,
      PLAY(101), RESUME,
      SET_BUTTON_PAGE(1, 2), ADD(1, 1), LESS(1, 3), PLAY(102), RESUME},
     3, {HDMV, HDMV, HDMV}, {0, 0, 1}},
    /* Its module goes round in front of its play and runs out of steps. */
    {"nine_quiet_days", 3, {2, 2, 4},
     {PLAY(1), JUMP_TITLE(1),
      CALL_OBJECT(2), RESUME,
      MOVE(1, 0), ADD(1, 1), GOTO(1), PLAY(101)},
     3, {HDMV, HDMV, HDMV}, {0, 0, 1}},
    /* The three discs of docs/CHECK.md. */
    {"passes", 2, {1, 1}, {JUMP_TITLE(1), JUMP_OBJECT(0)}, 3, {HDMV, HDMV, HDMV}, {0, 0, 1}},
    {"fails_by_register", 2, {1, 1}, {JUMP_OBJECT_R(5), NOP}, 3, {HDMV, HDMV, HDMV}, {0, 0, 1}},
    {"fails_by_bdj_title", 2, {1, 1}, {JUMP_TITLE(2), NOP}, 4, {HDMV, HDMV, HDMV, BDJ}, {0, 0, 1, 0}},
};

static void stop(const char *what, uint32_t refusal) {
    fprintf(stderr, "make: %s: refusal %u\n", what, (unsigned)refusal);
    exit(1);
}

static void save(const char *folder, const char *name, const uint8_t *bytes, size_t length) {
    char path[4096];
    snprintf(path, sizeof path, "%s/%s", folder, name);
    FILE *f = fopen(path, "wb");
    if (!f || fwrite(bytes, 1, length, f) != length || fclose(f)) {
        perror(path);
        exit(1);
    }
}

static void write_objects(const char *folder, const disc *d) {
    uint8_t flags[3 * MOST] = {0}, commands[12 * MOST * MOST], out[4096];
    size_t total = 0, length = 0;
    for (uint32_t n = 0; n < d->objects; n++) total += d->counts[n];
    for (size_t k = 0; k < 3 * total; k++) {
        uint32_t word = d->commands[k / 3][k % 3];
        for (int b = 0; b < 4; b++) commands[4 * k + b] = (uint8_t)(word >> (24 - 8 * b));
    }
    uint32_t refusal = mescjadro_write_objects(VERSION, flags, 3 * d->objects, d->counts, d->objects, commands, 12 * total,
                                               out, sizeof out, &length);
    if (refusal) stop(d->name, refusal);
    save(folder, "MovieObject.bdmv", out, length);
}

static void write_index(const char *folder, const disc *d) {
    uint8_t app[4] = {0}, playbacks[MOST] = {0}, names[5 * MOST], out[4096];
    size_t length = 0;
    memset(names, '0', sizeof names);
    uint32_t refusal = mescjadro_write_index(VERSION, app, 4, d->kinds, d->entries, playbacks, d->entries, d->leads,
                                             d->entries, names, 5 * d->entries, out, sizeof out, &length);
    if (refusal) stop(d->name, refusal);
    save(folder, "index.bdmv", out, length);
}

int main(int argc, char **argv) {
    if (argc != 2) {
        fprintf(stderr, "usage: make FOLDER\n");
        return 1;
    }
    for (size_t i = 0; i < sizeof discs / sizeof discs[0]; i++) {
        char folder[4096];
        snprintf(folder, sizeof folder, "%s/%s", argv[1], discs[i].name);
        mkdir(folder, 0777);
        write_objects(folder, &discs[i]);
        write_index(folder, &discs[i]);
    }
    return 0;
}
