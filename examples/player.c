/* A small player: opens a disc's two files, drives it from an entry and prints what it asks for.
 *
 *   player INDEX.BDMV MOVIEOBJECT.BDMV [ENTRY [RESUMES]]
 *
 * ENTRY is a title, 65536 for first playback (if none is given) or 65537 for the top menu. Each play and each request is
 * answered by going on, at most RESUMES times (16 if none is given). Ends with 0, 1 for a refusal, 2 for wrong words.
 */
#include <stdio.h>
#include <stdlib.h>

#include "mescjadro.h"

#define FRAMES 256 /* room for so many frames of each kind */
#define FILE_LIMIT 16777216

struct bytes {
    uint8_t *at;
    size_t len;
};

/* Everything that a drive works on. */
struct player {
    uint32_t gpr[MESCJADRO_GPR];
    uint32_t psr[MESCJADRO_PSR];
    uint32_t frames[FRAMES * MESCJADRO_OBJECT_FRAME];
    uint32_t titles[FRAMES * MESCJADRO_TITLE_FRAME];
    uint32_t session[6];
    uint32_t budgets[3];
    uint32_t outcome[6];
};

static const char *const refusals[] = {
    "no refusal",    "too long",   "bad header",  "bad body",    "bad entry",    "no room",
    "bad buffer",    "bad budget", "bad session", "not encodable", "not an entry",
};

static const char *const operations[] = {
    "an unknown system request",
    "Nop", "GoTo", "Break", "JumpObject", "JumpTitle", "CallObject", "CallTitle", "Resume", "PlayPL", "PlayPLatPlayItem",
    "PlayPLatMark", "TerminatePL", "LinkPI", "LinkMK", "Bc", "Eq", "Ne", "Ge", "Gt", "Le", "Lt", "Move", "Swap", "Add",
    "Sub", "Mul", "Div", "Mod", "Rnd", "And", "Or", "Xor", "BitSet", "BitClear", "ShiftLeft", "ShiftRight", "SetStream",
    "SetNvTimer", "SetButtonPage", "EnableButton", "DisableButton", "SetSecondaryStream", "PopUpOff", "StillOn",
    "StillOff", "SetOutputMode", "SetStreamSS",
};

/* A whole file, or nothing and a message. One byte over the limit is read, so that the library itself refuses it. */
static int read_file(const char *name, struct bytes *file)
{
    FILE *from = fopen(name, "rb");
    if (from == NULL) {
        fprintf(stderr, "player: can't open %s\n", name);
        return 0;
    }
    file->at = malloc(FILE_LIMIT + 1);
    if (file->at == NULL) {
        fprintf(stderr, "player: no memory for %s\n", name);
        fclose(from);
        return 0;
    }
    file->len = fread(file->at, 1, FILE_LIMIT + 1, from);
    int bad = ferror(from);
    fclose(from);
    if (bad) {
        fprintf(stderr, "player: can't read %s\n", name);
        free(file->at);
    }
    return !bad;
}

static int refused(const char *what, uint32_t number)
{
    printf("%s: refused %u, %s\n", what, (unsigned)number, refusals[number]);
    return 1;
}

static void print_play(const uint32_t *outcome)
{
    printf("play playlist %u", (unsigned)outcome[1]);
    if (outcome[2]) {
        printf(" at play item %u", (unsigned)outcome[3]);
    }
    if (outcome[4]) {
        printf(" at mark %u", (unsigned)outcome[5]);
    }
    printf("\n");
}

static void print_request(const uint32_t *outcome)
{
    printf("request %s %u %u", operations[outcome[1]], (unsigned)outcome[2], (unsigned)outcome[3]);
    if (outcome[1] == 0) {
        printf(" of code %u", (unsigned)outcome[4]);
    }
    printf("\n");
}

/* Prints an outcome; tells whether the drive waits for a resume. */
static int print_outcome(const uint32_t *outcome)
{
    switch (outcome[0]) {
    case 0: printf("finished\n"); return 0;
    case 1: print_play(outcome); return 1;
    case 2: print_request(outcome); return 1;
    case 3: printf("bad title %u\n", (unsigned)outcome[1]); return 0;
    case 4: printf("bad object %u\n", (unsigned)outcome[1]); return 0;
    case 5: printf("budget exhausted\n"); return 0;
    case 6: printf("object stack full\n"); return 0;
    default: printf("title stack full\n"); return 0;
    }
}

static int print_disc(struct bytes index, struct bytes objects)
{
    uint32_t titles[6], counted[2], found[3];
    uint32_t number = mescjadro_index(index.at, index.len, titles, 6);
    if (number) {
        return refused("index file", number);
    }
    number = mescjadro_objects(objects.at, objects.len, counted, 2);
    if (number) {
        return refused("object file", number);
    }
    printf("%u titles, %u objects\n", (unsigned)titles[5], (unsigned)counted[1]);
    number = mescjadro_disc_check(index.at, index.len, objects.at, objects.len, found, 3);
    if (number) {
        return refused("disc check", number);
    }
    if (found[0]) {
        printf("disc check: object %u, command %u can ask for what the disc lacks\n", (unsigned)found[1], (unsigned)found[2]);
    } else {
        printf("disc check: passed\n");
    }
    return 0;
}

static uint32_t run(struct player *p, struct bytes index, struct bytes objects, uint32_t entry)
{
    return mescjadro_driver_run(p->gpr, MESCJADRO_GPR, p->psr, MESCJADRO_PSR, p->frames, FRAMES * MESCJADRO_OBJECT_FRAME,
                                p->titles, FRAMES * MESCJADRO_TITLE_FRAME, index.at, index.len, objects.at, objects.len,
                                entry, p->budgets, 3, p->session, 6, p->outcome, 6);
}

static uint32_t resume(struct player *p, struct bytes index, struct bytes objects)
{
    return mescjadro_driver_resume(p->gpr, MESCJADRO_GPR, p->psr, MESCJADRO_PSR, p->frames,
                                   FRAMES * MESCJADRO_OBJECT_FRAME, p->titles, FRAMES * MESCJADRO_TITLE_FRAME, index.at,
                                   index.len, objects.at, objects.len, p->budgets, 3, p->session, 6, p->outcome, 6);
}

static int drive(struct bytes index, struct bytes objects, uint32_t entry, unsigned long resumes)
{
    static struct player p;
    mescjadro_fresh_banks(p.gpr, MESCJADRO_GPR, p.psr, MESCJADRO_PSR);
    mescjadro_fresh_session(p.session, 6);
    mescjadro_default_budgets(p.budgets, 3);
    printf("entry %u\n", (unsigned)entry);
    uint32_t number = run(&p, index, objects, entry);
    while (number == 0 && print_outcome(p.outcome)) {
        if (resumes-- == 0) {
            printf("stopped: no more resumes\n");
            return 0;
        }
        number = resume(&p, index, objects);
    }
    return number ? refused("drive", number) : 0;
}

int main(int argc, char **argv)
{
    struct bytes index, objects;
    if (argc < 3 || argc > 5) {
        fprintf(stderr, "player INDEX.BDMV MOVIEOBJECT.BDMV [ENTRY [RESUMES]]\n");
        return 2;
    }
    uint32_t entry = argc > 3 ? (uint32_t)strtoul(argv[3], NULL, 10) : MESCJADRO_FIRST_PLAYBACK;
    unsigned long resumes = argc > 4 ? strtoul(argv[4], NULL, 10) : 16;
    if (!read_file(argv[1], &index)) {
        return 2;
    }
    if (!read_file(argv[2], &objects)) {
        free(index.at);
        return 2;
    }
    int bad = print_disc(index, objects) || drive(index, objects, entry, resumes);
    free(index.at);
    free(objects.at);
    return bad;
}
