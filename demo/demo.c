/* demo FOLDER: the machine's main job. Two hearing-aid shells, a left and a right one, are made step by step in one pool, and every voxel of them is held against the shapes
   that they are made from. The report goes to standard output; what is to be drawn goes to files in FOLDER. Ends with 1 if anything is not as it should be.

   Of the library only yoldrick.h is used. What the calls count is also counted from the shapes, without a call. */
#include <stdio.h>
#include <stdlib.h>
#include <string.h>

#include "ear.h"
#include "view.h"
#include "yoldrick.h"

/* Of a part the voxels nearer than this to its surface are inserted. Then its signs are filled right: what the fill hands on to a slot that has none of them is the sign of a
   voxel at most 4 away from it, and the slot is nowhere nearer than BAND to the surface. With less than 4 a whole slot of the top may get the wrong sign. */
static const float BAND = 5;

/* What is nearer than this to the surface of a shell is printed. */
static const float PRINTED = 1.5f;

enum { CELLS = 24000, SMALL = 200 };

typedef struct {
    uint32_t slots[YOLDRICK_SLOTS(CELLS)];
    uint64_t masks[YOLDRICK_MASKS(CELLS)];
    uint32_t book[YOLDRICK_BOOK(CELLS)];
} pool;

/* The machine's memory; another like it; and what one of them was before a call. */
static pool machine, other, before;

/* A pool lent whole, or the first n cells' worth of it. */
#define LENT_FOR(p, n) (p)->slots, YOLDRICK_SLOTS(n), (p)->masks, YOLDRICK_MASKS(n), (p)->book, YOLDRICK_BOOK(n)
#define LENT(p) LENT_FOR(p, CELLS)

/* A voxel is a number; its coordinates. */
#define AT(i) (i) / (SIDE * SIDE), (i) / SIDE % SIDE, (i) % SIDE

/* Each ear has four seats. */
enum { LEFT, RIGHT, EARS };
enum { SHELL, HOLLOW, TOOL, SPARE, SEATS };

static const char *const ears[EARS] = {"left", "right"};
static const char *const parts[PARTS] = {"impression", "lock", "faceplate", "cavity", "vent's sleeve", "vent"};

static uint32_t seat_of(int ear, int what) { return (uint32_t)(SEATS * ear + what); }

/* ---- the report ---- */

static int wrong;

/* A number with commas. The last eight are kept. */
static const char *many(long n) {
    static char texts[8][24];
    static int next;
    char *text = texts[next++ % 8];
    if (n >= 1000000)
        snprintf(text, sizeof texts[0], "%ld,%03ld,%03ld", n / 1000000, n / 1000 % 1000, n % 1000);
    else if (n >= 1000)
        snprintf(text, sizeof texts[0], "%ld,%03ld", n / 1000, n % 1000);
    else
        snprintf(text, sizeof texts[0], "%ld", n);
    return text;
}

static void row(const char *what, const char *left, const char *right) { printf("  %-46s %13s%s%*s\n", what, left, *right ? "  " : "", *right ? 13 : 0, right); }
static void count_row(const char *what, const long counts[EARS]) { row(what, many(counts[LEFT]), many(counts[RIGHT])); }

/* What the calls say must be what is owed. */
static long same(const char *what, int ear, long is, long owed) {
    if (is != owed) {
        printf("WRONG: %s, %s: %ld, not %ld\n", what, ears[ear], is, owed);
        wrong++;
    }
    return is;
}

static void done(const char *what, uint32_t code) {
    if (code != YOLDRICK_DONE) {
        printf("WRONG: %s: refused %u\n", what, (unsigned)code);
        exit(1);
    }
}

static void progress(const char *what) { fprintf(stderr, "demo: %s\n", what); }

/* ---- what the shapes say, without a call ---- */

/* The distance of every voxel to every part of an ear. */
static float shapes[EARS][PARTS][VOXELS];

static float larger(float a, float b) { return a > b ? a : b; }
static float smaller(float a, float b) { return a < b ? a : b; }
static bool near(float d, float band) { return d > -band && d < band; }

static void find_shapes(void) {
    for (int ear = 0; ear < EARS; ear++) {
        ear_shape shape = ear == LEFT ? left_ear() : right_ear();
        long on_surface = 0;
        for (int i = 0; i < VOXELS; i++) {
            double d[PARTS];
            distances(&shape, (vec){AT(i)}, d);
            for (int k = 0; k < PARTS; k++) {
                shapes[ear][k][i] = (float)d[k];
                on_surface += fabs(d[k]) < 1e-9;
            }
        }
        same("voxels whose sign hangs on a rounding", ear, on_surface, 0);
    }
}

/* In the impression or the lock, behind the faceplate, not in the cavity, unless in the vent's sleeve, and not in the vent. */
static bool in_shell(int ear, int i) {
    float(*d)[VOXELS] = shapes[ear];
    return (d[IMPRESSION][i] < 0 || d[LOCK][i] < 0) && d[FACEPLATE][i] < 0 && !(d[CAVITY][i] < 0 && !(d[SLEEVE][i] < 0)) && !(d[VENT][i] < 0);
}

static float shell_distance(int ear, int i) {
    float(*d)[VOXELS] = shapes[ear];
    float whole = larger(smaller(d[IMPRESSION][i], d[LOCK][i]), d[FACEPLATE][i]), hollow = larger(d[CAVITY][i], -d[SLEEVE][i]);
    return larger(whole, larger(-hollow, -d[VENT][i]));
}

/* A plane through the bends of canal and vent, along which a copy is opened. The right ear is mirrored. */
static vec opened_at(int ear) { return (vec){62, 59.3, ear == LEFT ? 56.45 : SIDE - 1 - 56.45}; }
static vec opened_normal(int ear) { return (vec){0, 0.6, ear == LEFT ? 0.8 : -0.8}; }

/* Some voxels, and the cells that they need: a leaf for each block of 4 a side that has one of them, and a middle node for each of 16. */
typedef struct {
    long voxels, cells;
    bool leaves[32 * 32 * 32], middles[8 * 8 * 8];
} need;

static void need_voxel(need *n, int i) {
    int x = i / (SIDE * SIDE), y = i / SIDE % SIDE, z = i % SIDE;
    bool *leaf = &n->leaves[(x / 4 * 32 + y / 4) * 32 + z / 4], *middle = &n->middles[(x / 16 * 8 + y / 16) * 8 + z / 16];
    n->voxels++;
    n->cells += !*leaf + !*middle;
    *leaf = *middle = true;
}

/* ---- parts and combinations ---- */

static long free_cells(const pool *p) {
    yoldrick_number free = yoldrick_free_cells(LENT(p));
    done("the count of free cells", free.code);
    return (long)free.number;
}

static bool inside(const pool *p, uint32_t seat, int i) {
    yoldrick_number sign = yoldrick_sign(LENT(p), seat, AT(i));
    done("a sign", sign.code);
    return sign.number == 1;
}

/* The lookup gives this value, or nothing where nothing should be. */
static bool finds(const pool *p, uint32_t seat, int i, bool something, float value) {
    yoldrick_answer found = yoldrick_lookup(LENT(p), seat, AT(i));
    return something ? found.code == YOLDRICK_DONE && found.value == value : found.code == YOLDRICK_NOTHING;
}

/* The value, or, where that is hidden or beyond the band, the end of the band on its side. */
static float value_at(const pool *p, uint32_t seat, int i) {
    yoldrick_answer found = yoldrick_lookup(LENT(p), seat, AT(i));
    float value = found.code == YOLDRICK_DONE ? found.value : inside(p, seat, i) ? -BAND : BAND;
    return larger(-BAND, smaller(value, BAND));
}

/* An empty seat takes the band of a shape, and is filled with signs. */
static void build(pool *p, uint32_t seat, const float *d, const char *name) {
    for (int i = 0; i < VOXELS; i++)
        if (near(d[i], BAND))
            done(name, yoldrick_insert(LENT(p), seat, AT(i), yoldrick_bits(d[i])));
    done(name, yoldrick_fill_signs(LENT(p), seat));
}

/* What was built is held against the shape at every voxel, and its cells are those that the pool has less. */
static need check_built(const pool *p, int ear, uint32_t seat, const float *d, const char *name, long cells) {
    need n = {.voxels = 0};
    long differ = 0;
    for (int i = 0; i < VOXELS; i++) {
        if (near(d[i], BAND))
            need_voxel(&n, i);
        differ += inside(p, seat, i) != (d[i] < 0) || !finds(p, seat, i, near(d[i], BAND), d[i]);
    }
    same(name, ear, differ, 0);
    same(name, ear, cells, n.cells);
    return n;
}

typedef uint32_t combination(uint32_t *, size_t, uint64_t *, size_t, uint32_t *, size_t, uint32_t, uint32_t);

/* Gives the first answer. A combination may leave a branch empty, and then the next one is refused with 7: both seats are pruned and filled with signs again. */
static uint32_t combine(pool *p, const char *name, combination *how, uint32_t a, uint32_t b) {
    uint32_t first = how(LENT(p), a, b);
    if (first == 7) {
        done("a prune", yoldrick_prune(LENT(p), a));
        done("a prune", yoldrick_prune(LENT(p), b));
        done("a fill with signs", yoldrick_fill_signs(LENT(p), a));
        done("a fill with signs", yoldrick_fill_signs(LENT(p), b));
        done(name, how(LENT(p), a, b));
    } else
        done(name, first);
    return first;
}

/* ---- making a shell ---- */

/* A part is built in a seat, or none is; and one seat may be combined with another, which is empty then. */
static const struct {
    part made;
    int in;
    const char *name;
    combination *how;
    int into, with;
} steps[] = {
    {IMPRESSION, SHELL, NULL, NULL, 0, 0},
    {LOCK, TOOL, "shell + lock", yoldrick_union, SHELL, TOOL},
    {FACEPLATE, TOOL, "shell & faceplate", yoldrick_intersect, SHELL, TOOL},
    {CAVITY, HOLLOW, NULL, NULL, 0, 0},
    {SLEEVE, TOOL, "cavity - vent's sleeve", yoldrick_subtract, HOLLOW, TOOL},
    {PARTS, 0, "shell - cavity", yoldrick_subtract, SHELL, HOLLOW},
    {VENT, TOOL, "shell - vent", yoldrick_subtract, SHELL, TOOL},
};

enum { STEPS = sizeof steps / sizeof *steps };

/* What was built of each part, and the first answer to each combination. */
typedef struct {
    long voxels[PARTS], cells[PARTS];
    uint32_t answers[STEPS];
} record;

static void build_step(pool *p, int ear, int k) {
    if (steps[k].made != PARTS)
        build(p, seat_of(ear, steps[k].in), shapes[ear][steps[k].made], parts[steps[k].made]);
}

static uint32_t combine_step(pool *p, int ear, int k) {
    return steps[k].how ? combine(p, steps[k].name, steps[k].how, seat_of(ear, steps[k].into), seat_of(ear, steps[k].with)) : YOLDRICK_DONE;
}

/* Both ears take each step before either takes the next. */
static void make_shells(record records[EARS]) {
    long most = 0;
    done("a prepare", yoldrick_prepare(LENT(&machine)));
    for (int k = 0; k < STEPS; k++)
        for (int ear = 0; ear < EARS; ear++) {
            part made = steps[k].made;
            long free = free_cells(&machine);
            build_step(&machine, ear, k);
            long left = free_cells(&machine);
            if (made != PARTS) {
                need n = check_built(&machine, ear, seat_of(ear, steps[k].in), shapes[ear][made], parts[made], free - left);
                records[ear].voxels[made] = n.voxels;
                records[ear].cells[made] = n.cells;
            }
            most = CELLS - left > most ? CELLS - left : most;
            records[ear].answers[k] = combine_step(&machine, ear, k);
        }
    fprintf(stderr, "demo: at most %s cells were used\n", many(most));
}

static void print_made(const record records[EARS]) {
    const record *l = &records[LEFT], *r = &records[RIGHT];
    printf("\n  %-14s %30s  %29s\n", "part", "left: voxels     cells", "right: voxels     cells");
    for (int k = 0; k < STEPS; k++) {
        part made = steps[k].made;
        if (made != PARTS)
            printf("  %-14s %20s %9s  %19s %9s\n", parts[made], many(l->voxels[made]), many(l->cells[made]), many(r->voxels[made]), many(r->cells[made]));
    }
    printf("\n");
    row("step", "left", "right");
    for (int k = 0; k < STEPS; k++) {
        if (!steps[k].how)
            continue;
        if (l->answers[k] == 7 || r->answers[k] == 7) {
            row(steps[k].name, l->answers[k] == 7 ? "refused 7" : "done", r->answers[k] == 7 ? "refused 7" : "done");
            row("  a branch is empty: prune, fill with signs", l->answers[k] == 7 ? "done" : "", r->answers[k] == 7 ? "done" : "");
            row("  again", l->answers[k] == 7 ? "done" : "", r->answers[k] == 7 ? "done" : "");
        } else
            row(steps[k].name, "done", "done");
    }
}

/* ---- what became of it ---- */

/* There is a way from before the faceplate to beyond the tip, through voxels that are outside the shell: of the vent, or of the cavity and its bore. */
static bool is_open(const pool *p, int ear, part through) {
    static bool open[VOXELS];
    static int queue[VOXELS];
    static const int ways[6] = {SIDE * SIDE, -SIDE * SIDE, SIDE, -SIDE, 1, -1};
    float(*d)[VOXELS] = shapes[ear];
    int first = 0, last = 0;
    for (int i = 0; i < VOXELS; i++) {
        open[i] = d[through][i] < 0 && (through == VENT || d[SLEEVE][i] >= 0) && !inside(p, seat_of(ear, SHELL), i);
        if (open[i] && d[FACEPLATE][i] >= 0) {
            queue[last++] = i;
            open[i] = false;
        }
    }
    while (first < last) {
        int i = queue[first++];
        if (d[FACEPLATE][i] < 0 && d[IMPRESSION][i] >= 0)
            return true;
        for (int k = 0; k < 6; k++) {
            int j = i + ways[k];
            if (j >= 0 && j < VOXELS && open[j]) {
                queue[last++] = j;
                open[j] = false;
            }
        }
    }
    return false;
}

/* From a voxel of the cavity to one in no part at all, less what the grid says that both are away from the shell: the least, in voxels. */
static double thinnest_wall(const pool *p, int ear) {
    enum { REACH = 6 };
    float(*d)[VOXELS] = shapes[ear];
    double thinnest = SIDE;
    for (int i = 0; i < VOXELS; i++) {
        bool bore = d[CAVITY][i] < d[IMPRESSION][i] + WALL - 0.001;
        if (!near(d[CAVITY][i], 1) || d[CAVITY][i] >= 0 || bore || d[SLEEVE][i] < 0 || d[FACEPLATE][i] >= 0)
            continue;
        double from = value_at(p, seat_of(ear, SHELL), i);
        for (int n = 0; n < (2 * REACH + 1) * (2 * REACH + 1) * (2 * REACH + 1); n++) {
            int x = n / ((2 * REACH + 1) * (2 * REACH + 1)) - REACH, y = n / (2 * REACH + 1) % (2 * REACH + 1) - REACH, z = n % (2 * REACH + 1) - REACH;
            int j = i + (x * SIDE + y) * SIDE + z;
            if (j >= 0 && j < VOXELS && d[IMPRESSION][j] >= 0 && d[IMPRESSION][j] < 1 && d[LOCK][j] >= 0 && d[CAVITY][j] >= 0 && d[VENT][j] >= 0 && d[FACEPLATE][j] < 0)
                thinnest = least(thinnest, sqrt(x * x + y * y + z * z) - from - value_at(p, seat_of(ear, SHELL), j));
        }
    }
    return thinnest;
}

/* Sign and value at every voxel: a value in the band is the shapes', and no other is in it. */
static void check_shells(void) {
    long compared[EARS] = {VOXELS, VOXELS}, signs[EARS] = {0}, values[EARS] = {0}, insides[EARS] = {0};
    char volume[EARS][16], wall[EARS][16], ways[EARS][32];
    for (int ear = 0; ear < EARS; ear++) {
        long owed = 0;
        for (int i = 0; i < VOXELS; i++) {
            bool in = inside(&machine, seat_of(ear, SHELL), i);
            float d = shell_distance(ear, i), value = value_at(&machine, seat_of(ear, SHELL), i);
            signs[ear] += in != in_shell(ear, i);
            values[ear] += near(d, BAND) ? value != d : near(value, BAND);
            insides[ear] += in;
            owed += in_shell(ear, i);
        }
        same("signs", ear, signs[ear], 0);
        same("values", ear, values[ear], 0);
        same("voxels inside", ear, insides[ear], owed);
        bool air = is_open(&machine, ear, VENT), sound = is_open(&machine, ear, CAVITY);
        same("vent and bore are open", ear, air && sound, true);
        double thinnest = thinnest_wall(&machine, ear);
        same("the wall is thick enough", ear, thinnest > WALL - 0.001, true);
        snprintf(volume[ear], sizeof volume[ear], "%.1f mm3", (double)insides[ear] * VOXEL_MM * VOXEL_MM * VOXEL_MM);
        snprintf(wall[ear], sizeof wall[ear], "%.2f mm", thinnest * VOXEL_MM);
        snprintf(ways[ear], sizeof ways[ear], "%s, %s", air ? "open" : "CLOSED", sound ? "open" : "CLOSED");
    }
    printf("\n");
    row("shell", "left", "right");
    count_row("voxels compared with the shapes", compared);
    count_row("  signs that differ", signs);
    count_row("  values that differ", values);
    count_row("voxels inside", insides);
    row("acrylic", volume[LEFT], volume[RIGHT]);
    row("thinnest wall of the cavity", wall[LEFT], wall[RIGHT]);
    row("vent and bore, from faceplate to tip", ways[LEFT], ways[RIGHT]);
}

static bool same_answers(const pool *p, const pool *q, uint32_t seat, int i) {
    yoldrick_answer a = yoldrick_lookup(LENT(p), seat, AT(i)), b = yoldrick_lookup(LENT(q), seat, AT(i));
    yoldrick_number s = yoldrick_sign(LENT(p), seat, AT(i)), t = yoldrick_sign(LENT(q), seat, AT(i));
    return a.code == b.code && yoldrick_bits(a.value) == yoldrick_bits(b.value) && s.code == t.code && s.number == t.number;
}

/* Each ear is made again in a pool where the other is not. */
static void check_alone(const record records[EARS]) {
    long differ[EARS] = {0};
    for (int ear = 0; ear < EARS; ear++) {
        done("a prepare", yoldrick_prepare(LENT(&other)));
        for (int k = 0; k < STEPS; k++) {
            build_step(&other, ear, k);
            differ[ear] += combine_step(&other, ear, k) != records[ear].answers[k];
        }
        for (int i = 0; i < VOXELS; i++)
            differ[ear] += !same_answers(&machine, &other, seat_of(ear, SHELL), i);
        same("answers alone", ear, differ[ear], 0);
    }
    count_row("answers that differ where the other ear is not", differ);
}

/* ---- an opened copy, and what is printed ---- */

/* A copy of each shell is cut in half. */
static void open_copies(float grids[EARS][VOXELS]) {
    static float plane[VOXELS];
    for (int ear = 0; ear < EARS; ear++) {
        uint32_t copy = seat_of(ear, SPARE), tool = seat_of(ear, TOOL);
        long differ = 0;
        for (int i = 0; i < VOXELS; i++)
            plane[i] = (float)dot(minus((vec){AT(i)}, opened_at(ear)), opened_normal(ear));
        done("a copy", yoldrick_copy(LENT(&machine), seat_of(ear, SHELL), copy));
        done("a fill with signs", yoldrick_fill_signs(LENT(&machine), copy));
        build(&machine, tool, plane, "plane");
        combine(&machine, "copy & plane", yoldrick_intersect, copy, tool);
        for (int i = 0; i < VOXELS; i++) {
            differ += inside(&machine, copy, i) != (in_shell(ear, i) && plane[i] < 0);
            grids[ear][i] = value_at(&machine, copy, i);
        }
        same("signs of the opened copy", ear, differ, 0);
        done("a clear", yoldrick_clear(LENT(&machine), copy));
    }
}

/* As many cells as a copy takes. */
static long cells_held(pool *p, int ear) {
    long free = free_cells(p);
    done("a copy", yoldrick_copy(LENT(p), seat_of(ear, SHELL), seat_of(ear, SPARE)));
    long held = free - free_cells(p);
    done("a clear", yoldrick_clear(LENT(p), seat_of(ear, SPARE)));
    return held;
}

static void cut_for_printer(void) {
    long voxels[EARS] = {0}, cells[EARS];
    for (int ear = 0; ear < EARS; ear++) {
        uint32_t seat = seat_of(ear, SHELL);
        long differ = 0;
        need n = {.voxels = 0};
        done("a cut", yoldrick_cut_above(LENT(&machine), seat, PRINTED));
        done("a cut", yoldrick_cut_below(LENT(&machine), seat, -PRINTED));
        for (int i = 0; i < VOXELS; i++) {
            float d = shell_distance(ear, i);
            bool stays = d >= -PRINTED && d <= PRINTED;
            if (stays)
                need_voxel(&n, i);
            differ += !finds(&machine, seat, i, stays, d);
            voxels[ear] += yoldrick_lookup(LENT(&machine), seat, AT(i)).code == YOLDRICK_DONE;
        }
        cells[ear] = cells_held(&machine, ear);
        same("lookups after the cut", ear, differ, 0);
        same("voxels after the cut", ear, voxels[ear], n.voxels);
        same("cells after the cut", ear, cells[ear], n.cells);
    }
    printf("\n");
    row("cut to 1.5 voxels for the printer", "left", "right");
    count_row("voxels", voxels);
    count_row("cells", cells);
    row("free cells", many(same("free cells", LEFT, free_cells(&machine), CELLS - cells[LEFT] - cells[RIGHT])), "");
}

/* ---- bad input ---- */

/* The call on this pool was refused with this number, and no word is other than before. */
static void refused(const char *what, uint32_t code, uint32_t owed, const pool *p) {
    char text[16];
    bool kept = memcmp(p, &before, sizeof before) == 0;
    snprintf(text, sizeof text, "refused %u", (unsigned)code);
    row(what, text, kept ? "unchanged" : "CHANGED");
    wrong += code != owed || !kept;
}

/* The vent goes into a pool that has too few cells for it. */
static void show_small_pool(void) {
    const float *d = shapes[LEFT][VENT];
    uint32_t code = yoldrick_prepare(LENT_FOR(&other, SMALL));
    long taken = 0;
    int last = 0;
    for (int i = 0; i < VOXELS && code == YOLDRICK_DONE; i++)
        if (near(d[i], BAND)) {
            code = yoldrick_insert(LENT_FOR(&other, SMALL), 0, AT(i), yoldrick_bits(d[i]));
            taken += code == YOLDRICK_DONE;
            last = i;
        }
    static need n;
    for (int i = 0; i < VOXELS && n.cells <= SMALL; i++)
        if (near(d[i], BAND))
            need_voxel(&n, i);
    char text[64];
    snprintf(text, sizeof text, "voxel %s of the vent in %d cells", many(same("voxels", LEFT, taken + 1, n.voxels)), SMALL);
    before = other;
    code = yoldrick_insert(LENT_FOR(&other, SMALL), 0, AT(last), yoldrick_bits(d[last]));
    refused(text, code, 9, &other);
}

/* A NaN is written over one word of a copy of the memory: the word that an insert at this voxel of the left shell would change. */
static void show_damage(int at) {
    uint32_t left = seat_of(LEFT, SHELL), right = seat_of(RIGHT, SHELL);
    size_t word = 0;
    long differ[EARS] = {0};
    other = machine;
    done("an insert", yoldrick_insert(LENT(&other), left, AT(at), yoldrick_bits(0.125f)));
    while (other.slots[word] == machine.slots[word])
        word++;
    other = machine;
    other.slots[word] = 0x7fc00000u;
    before = other;
    uint32_t code = yoldrick_lookup(LENT(&other), left, AT(at)).code;
    refused("one word of a copy damaged: lookup there", code, 5, &other);
    code = yoldrick_cut_above(LENT(&other), right, 1);
    refused("  cut of the right shell", code, 5, &other);
    for (int ear = 0; ear < EARS; ear++) {
        for (int i = 0; i < VOXELS; i++)
            differ[ear] += !same_answers(&machine, &other, seat_of(ear, SHELL), i);
        same("answers of the damaged copy", ear, differ[ear], ear == LEFT);
    }
    char left_text[24], right_text[24];
    snprintf(left_text, sizeof left_text, "left %ld", differ[LEFT]);
    snprintf(right_text, sizeof right_text, "right %ld", differ[RIGHT]);
    row("  voxels that answer otherwise", left_text, right_text);
}

static void show_refusals(void) {
    const float *vent = shapes[LEFT][VENT];
    uint32_t left = seat_of(LEFT, SHELL), right = seat_of(RIGHT, SHELL), code;
    int at = 0;
    while (!near(vent[at], 1) || !near(shell_distance(LEFT, at), 1))
        at++;
    printf("\n");
    row("bad input", "answer", "lent memory");
    before = machine;
    code = yoldrick_prepare(machine.slots, YOLDRICK_SLOTS(CELLS), machine.masks, YOLDRICK_MASKS(CELLS), machine.book, YOLDRICK_BOOK(CELLS) - 1);
    refused("an array that is one word short", code, 1, &machine);
    code = yoldrick_insert(LENT(&machine), 9, AT(at), yoldrick_bits(vent[at]));
    refused("seat 9", code, 2, &machine);
    code = yoldrick_union(LENT(&machine), left, left);
    refused("left shell + left shell", code, 3, &machine);
    code = yoldrick_insert(LENT(&machine), left, AT(at), yoldrick_bits(NAN));
    refused("a NaN beside the vent", code, 4, &machine);
    code = yoldrick_cut_above(LENT(&machine), left, INFINITY);
    refused("a cut above infinity", code, 4, &machine);
    show_damage(at);
    before = machine;
    code = yoldrick_sign(LENT(&machine), left, AT(at)).code;
    refused("a sign after the cut, before the next fill", code, 6, &machine);
    code = yoldrick_copy(LENT(&machine), left, right);
    refused("left shell copied over the right one", code, 8, &machine);
    show_small_pool();
}

/* ---- files for the pictures ---- */

enum { WIDE = 1600, HIGH = 800, LOWER = 700 };

static FILE *file_in(const char *folder, const char *name) {
    char path[512];
    snprintf(path, sizeof path, "%s/%s", folder, name);
    FILE *f = fopen(path, "wb");
    if (!f) {
        perror(path);
        exit(1);
    }
    return f;
}

static void finish(FILE *f) {
    if (ferror(f) || fclose(f) != 0) {
        perror("demo: writing a file");
        exit(1);
    }
}

static void write_view(const char *folder, const char *name, int high, float grids[EARS][VOXELS], vec x_to, vec y_to, bool opened) {
    static unsigned char rgb[3 * MOST_PIXELS];
    static const colour tones[EARS] = {{0.10, 0.40, 0.92}, {0.86, 0.10, 0.12}};
    shell shells[EARS];
    for (int ear = 0; ear < EARS; ear++)
        shells[ear] = (shell){.values = grids[ear],
                              .x_to = x_to,
                              .y_to = y_to,
                              .middle = opened_at(ear),
                              .cut = opened ? opened_normal(ear) : (vec){0, 0, 0},
                              .right = ear == LEFT ? -62 : 62,
                              .mirrored = ear == RIGHT,
                              .tone = tones[ear]};
    draw(shells, WIDE, high, rgb);
    FILE *f = file_in(folder, name);
    fprintf(f, "P6\n%d %d\n255\n", WIDE, high);
    fwrite(rgb, 3, (size_t)WIDE * (size_t)high, f);
    finish(f);
}

/* A plane of the grid through a point, from left to right and from the top down, as a picture in 16 bits of grey: 32768 and 4096 more for each voxel of distance. */
static void write_slice(const char *folder, int ear, int number, const char *label, const float *grid, vec at, vec across, vec up) {
    char name[32];
    snprintf(name, sizeof name, "%s-%d.pgm", ears[ear], number);
    FILE *f = file_in(folder, name);
    fprintf(f, "P5\n# %s\n%d %d\n65535\n", label, SIDE, SIDE);
    for (int k = 0; k < SIDE * SIDE; k++) {
        double right = k % SIDE - SIDE / 2, high = SIDE / 2 - 1 - k / SIDE;
        int grey = (int)(32768.5 + 4096 * field(grid, plus(at, plus(times(across, right), times(up, high)))));
        fputc(grey >> 8, f);
        fputc(grey & 255, f);
    }
    finish(f);
}

/* One along the plane in which the copies are opened, one across it, and four across the canal. */
static void write_slices(const char *folder, float grids[EARS][VOXELS]) {
    static const int cuts[] = {36, 52, 78, 102};
    for (int ear = 0; ear < EARS; ear++) {
        double z = ear == LEFT ? 1 : -1;
        vec at = opened_at(ear), along = {1, 0, 0}, middle = {64, at.y, at.z};
        write_slice(folder, ear, 1, "through the bends", grids[ear], middle, along, (vec){0, 0.8, -0.6 * z});
        write_slice(folder, ear, 2, "across the bends", grids[ear], middle, along, (vec){0, 0.6, 0.8 * z});
        for (int n = 0; n < 4; n++) {
            char label[16];
            snprintf(label, sizeof label, "x = %d", cuts[n]);
            write_slice(folder, ear, 3 + n, label, grids[ear], (vec){cuts[n], 64, 64}, (vec){0, 0, 1}, (vec){0, 1, 0});
        }
    }
}

int main(int count, char **words) {
    static record records[EARS];
    static float whole[EARS][VOXELS], opened[EARS][VOXELS];
    if (count != 2) {
        fprintf(stderr, "demo: usage: demo FOLDER\n");
        return 2;
    }
    printf("Two hearing-aid shells in one pool of %s cells, %s bytes of static memory.\n", many(CELLS), many((long)sizeof machine));
    printf("A voxel is %.1f mm. Of a part, what is nearer than %g voxels to its surface is inserted.\n", VOXEL_MM, (double)BAND);
    progress("finding the shapes");
    find_shapes();
    progress("making the shells");
    make_shells(records);
    print_made(records);
    progress("checking them");
    check_shells();
    check_alone(records);
    progress("opening copies, and cutting");
    for (int ear = 0; ear < EARS; ear++)
        for (int i = 0; i < VOXELS; i++)
            whole[ear][i] = value_at(&machine, seat_of(ear, SHELL), i);
    open_copies(opened);
    cut_for_printer();
    show_refusals();
    progress("drawing the shells");
    write_view(words[1], "shells.ppm", HIGH, whole, (vec){0.70, 0.30, -0.65}, (vec){-0.1, 1, 0.2}, false);
    progress("drawing the opened copies");
    write_view(words[1], "opened.ppm", LOWER, opened, (vec){1, 0.05, -0.15}, (vec){0, 0.95, 0.3}, true);
    write_slices(words[1], whole);
    printf("\n%s\n", wrong == 0 ? "All as it should be." : "WRONG: see above.");
    return wrong == 0 ? 0 : 1;
}
