// See drawing.h.
#include "drawing.h"
#include "../../../conformance/c/adapter.h"
#include <stdarg.h>
#include <stdio.h>
#include <stdlib.h>
#include <string.h>

enum { WORD = LVDC_WORD, CELL = (1 << 28) - 1, LETTERS = 21, LONGEST_LINE = 256, MOST_WORDS = 80, CODE = 20, FIELDS = 9, LONGEST_FIELD = 16 };
enum { HOP, MPY, SUB, DIV, TNZ, MPH, AND, ADD, TRA, XOR, PIO, STO, TMI, RSU, CDS, CLA };
enum { PQ = 0775, SAVER = 0776, RESIDUAL = 15, LONG_TIMES = 3000, MOST_INPUT = 1048576, FLAT = 100 };

const char *const request_names[] = {
    "run", "run --plain", "run --through", "save", "resume", "trace", "trace --through", "form", "campaign", "study", "other words"};
const char *const mark_names[] = {
    "FLIP", "FORCE", "LAG", "DEAF", "DAMAGE", "STICK", "DEAD", "ORDER", "SIMPLEX", "TAPE", "UNPLUG", "changed", "long", "a saved text"};
static const char *const fault_names[] = {"FLIP", "FORCE", "LAG", "DEAF", "DAMAGE", "STICK", "DEAD"};
static const int first_latch[] = {0, 2, 4, 5, 6, 8, 13, 15};

typedef struct lvdc_event fault;
typedef struct { int bank, at; uint32_t word; } placed;

// A program's home: the sector and the location where its code begins. A busy one has many products, an orderly one short runs of code.
static int home_sector, home_location, is_busy, is_orderly;
// The instruction times that the input asks for, and the request that is being drawn.
static int asked_times;
static struct request *drawn;

// ---- Numbers

static uint64_t state;

static uint64_t next(void)
{
    uint64_t z = state += 0x9e3779b97f4a7c15;
    z = (z ^ z >> 30) * 0xbf58476d1ce4e5b9;
    z = (z ^ z >> 27) * 0x94d049bb133111eb;
    return z ^ z >> 31;
}

static int below(int bound) { return (int)((next() >> 32) * (uint64_t)bound >> 32); }
static int chance(int percent) { return below(100) < percent; }
static int pick(const int *list, size_t size) { return list[below((int)size)]; }
#define ONE_OF(...) pick((const int[]){__VA_ARGS__}, sizeof (const int[]){__VA_ARGS__} / sizeof(int))
static const char *pick_text(const char *const *list, size_t size) { return list[below((int)size)]; }
#define TEXT_OF(...) pick_text((const char *const[]){__VA_ARGS__}, sizeof (const char *const[]){__VA_ARGS__} / sizeof(char *))
static int greater(int one, int other) { return one > other ? one : other; }
static int lesser(int one, int other) { return one < other ? one : other; }

// A word: any, a small one, one with one bit, or one at an end of the signs or near it.
static uint32_t word(void)
{
    switch (below(8)) {
    case 0: return (uint32_t)below(16);
    case 1: return 1u << below(26);
    case 2: return (uint32_t)ONE_OF(0, 1, (1 << 25) - 1, 1 << 25, (1 << 25) + 1, WORD);
    case 3: case 4: return (uint32_t)(ONE_OF(0, 1 << 25) + below(18) - 9) & WORD;
    default: return (uint32_t)next() & WORD;
    }
}

// A mask of a cell: one bit mostly, or some near each other, one in each half, none, or any.
static uint32_t mask(void)
{
    switch (below(9)) {
    case 0: return 3u << below(27);
    case 1: return 7u << below(26);
    case 2: return 1u << below(14) << 14 | 1;
    case 3: return 0;
    case 4: return (uint32_t)next() & CELL;
    default: return 1u << below(28);
    }
}

// A step of a run whose last one is this, or one just after it.
static int step_near(int last) { return greater(0, ONE_OF(below(greater(last, 0) + 3), below(greater(last, 0) + 3), below(4), last - 1, last, last + 1)); }

// ---- Texts

// Makes room for more bytes, and a zero byte behind them.
static void want(struct text *t, size_t more)
{
    if (t->size + more < t->room) return;
    t->room = 2 * (t->size + more) + 1;
    t->bytes = realloc(t->bytes, t->room);
    if (!t->bytes) exit(9);
}

static void add(struct text *t, const char *bytes, size_t size)
{
    want(t, size);
    memcpy(t->bytes + t->size, bytes, size);
    t->size += size;
}

static void put(struct text *t, const char *form, ...)
{
    va_list given;
    want(t, LONGEST_LINE);
    va_start(given, form);
    t->size += (size_t)vsnprintf(t->bytes + t->size, LONGEST_LINE, form, given);
    va_end(given);
}

static void mark(int which) { drawn->marks |= 1 << which; }

// ---- Fault lines

static int is_of_a_copy(const fault *f) { return f->kind <= LVDC_DEAF; }

// A place that a program is likely to come to.
static int spot(void)
{
    int far = ONE_OF(0, 0, 0, 0, 1, 3) << 12 | ONE_OF(0, 0, 1, 1, 1, 15, 2) << 8 | ONE_OF(253, 254, 255, below(14), below(14), below(14));
    if (chance(40)) return far;
    switch (below(3)) {
    case 0: return home_sector << 8 | ((home_location + below(14)) & 0377);
    case 1: return 1 << 8 | below(8);
    default: return RESIDUAL << 8 | (253 + below(3));
    }
}

static void draw_steps(fault *f, int last)
{
    f->first = step_near(last);
    f->last = f->first + ONE_OF(0, 0, 0, 1, 2, 5, 40, 2900000);
}

// The steps of a DEAD line, which end with the run, before it or after it.
static void draw_death(fault *f, int last)
{
    f->first = step_near(last);
    f->last = greater(f->first, ONE_OF(last - 1, last, last, last + 1, 3, 2900000));
}

static void draw_copy(fault *f)
{
    int module = below(7);
    f->copy = 3 * module + below(3);
    f->latch = first_latch[module] + below(first_latch[module + 1] - first_latch[module]);
    f->mask = chance(75) ? word() : 0;
    f->value = word();
}

static void draw_masks(fault *f)
{
    f->mask = mask();
    f->value = (uint32_t)ONE_OF(0, CELL, (int)(next() & CELL));
}

static fault draw_fault(int kind, int last)
{
    fault f = {.kind = kind, .twin = below(2), .place = spot()};
    draw_copy(&f);
    draw_steps(&f, last);
    if (kind >= LVDC_DAMAGE) draw_masks(&f);
    if (kind == LVDC_DEAD) { f.place = ONE_OF(0, 0, 1, 3) << 12; draw_death(&f, last); }
    return f;
}

// Moves the steps of a fault, so that they still reach into what they were; or not at all.
static void move_steps(fault *f)
{
    if (chance(50)) return;
    f->first = greater(0, f->first + ONE_OF(-1, 0, 1, -2));
    f->last = greater(f->first, f->last + ONE_OF(-1, 0, 1, 2));
}

static fault beside_copy(fault f)
{
    int latches = first_latch[f.copy / 3 + 1] - first_latch[f.copy / 3];
    f.kind = ONE_OF(LVDC_FLIP, LVDC_FORCE, LVDC_FORCE, LVDC_LAG, LVDC_DEAF);
    if (chance(30)) f.copy = f.copy / 3 * 3 + below(3);
    if (chance(20)) f.latch = first_latch[f.copy / 3] + below(latches);
    f.mask = word();
    f.value = word();
    move_steps(&f);
    return f;
}

static fault beside_death(fault f, int last)
{
    int pair = f.place >> 12, first = greater(0, f.first + ONE_OF(-3, -1, 0, 1));
    f.twin = below(2);
    if (chance(40)) { draw_death(&f, last); return f; }
    f.kind = chance(60) ? LVDC_DAMAGE : LVDC_STICK;
    f.place = pair << 12 | below(2) << 8 | below(8);
    f.first = first;
    f.last = first + 3;
    draw_masks(&f);
    return f;
}

// A fault on the same place of a twin or of the other one, or on one beside it.
static fault beside_cell(fault f)
{
    uint32_t before = f.mask;
    if (chance(50)) f.twin = below(2);
    if (chance(30)) f.place = lesser(037777, f.place + ONE_OF(1, 0400, 010000));
    if (f.kind == LVDC_DAMAGE) f.last = f.first;
    move_steps(&f);
    f.kind = chance(50) ? LVDC_DAMAGE : LVDC_STICK;
    draw_masks(&f);
    if (f.kind == LVDC_DAMAGE && chance(50)) { f.mask = before; f.first = chance(50) ? f.first : f.last; }
    return f;
}

static fault beside(fault f, int last)
{
    if (is_of_a_copy(&f)) return beside_copy(f);
    return f.kind == LVDC_DEAD ? beside_death(f, last) : beside_cell(f);
}

// The fields of a fault line; how many.
static int fields_of(const fault *f, char field[FIELDS][LONGEST_FIELD])
{
    int count = 0;
    snprintf(field[count++], LONGEST_FIELD, "%s", fault_names[f->kind]);
    if (is_of_a_copy(f)) {
        snprintf(field[count++], LONGEST_FIELD, "%d", f->copy / 3 + 1);
        snprintf(field[count++], LONGEST_FIELD, "%d", f->copy % 3 + 1);
    } else {
        snprintf(field[count++], LONGEST_FIELD, "%d", f->twin);
        snprintf(field[count++], LONGEST_FIELD, "%o", (unsigned)f->place >> 12);
    }
    if (f->kind == LVDC_DAMAGE || f->kind == LVDC_STICK) {
        snprintf(field[count++], LONGEST_FIELD, "%02o", (unsigned)f->place >> 8 & 15);
        snprintf(field[count++], LONGEST_FIELD, "%03o", (unsigned)f->place & 0377);
    }
    snprintf(field[count++], LONGEST_FIELD, "%d", f->first);
    if (f->kind != LVDC_DAMAGE) snprintf(field[count++], LONGEST_FIELD, "%d", f->last);
    if (f->kind <= LVDC_FORCE) snprintf(field[count++], LONGEST_FIELD, "%d", f->latch - first_latch[f->copy / 3]);
    if (f->kind <= LVDC_FORCE) snprintf(field[count++], LONGEST_FIELD, "%09o", f->mask);
    if (f->kind == LVDC_DAMAGE || f->kind == LVDC_STICK) snprintf(field[count++], LONGEST_FIELD, "%010o", f->mask);
    if (f->kind == LVDC_FORCE) snprintf(field[count++], LONGEST_FIELD, "%09o", f->value);
    if (f->kind == LVDC_STICK) snprintf(field[count++], LONGEST_FIELD, "%010o", f->value);
    return count;
}

// Puts a fault line; of the few that are spoiled a field is at its limit or past it.
static void put_fault(struct text *t, const fault *f, int spoiled)
{
    char field[FIELDS][LONGEST_FIELD];
    int count = fields_of(f, field), at = spoiled ? 1 + below(count - 1) : 0;
    if (at)
        snprintf(field[at], LONGEST_FIELD, "%s", TEXT_OF("0", "8", "7", "4", "2", "00", "20", "017", "400", "0377", "3000000", "2999999", "01", "5",
                                                        "400000000", "2000000000", "0000000000", "00000000000", "377777777"));
    for (int i = 0; i < count; i++) put(t, i + 1 < count ? "%s " : "%s\n", field[i]);
    mark(f->kind);
}

static int kind_of_a_fault(int group)
{
    if (group == 1) return ONE_OF(LVDC_FLIP, LVDC_FLIP, LVDC_FORCE, LVDC_FORCE, LVDC_LAG, LVDC_DEAF);
    if (group == 2) return ONE_OF(LVDC_DAMAGE, LVDC_DAMAGE, LVDC_STICK, LVDC_STICK, LVDC_DEAD);
    if (group == 3) return ONE_OF(LVDC_DAMAGE, LVDC_STICK);
    return ONE_OF(LVDC_FLIP, LVDC_FLIP, LVDC_FLIP, LVDC_FORCE, LVDC_FORCE, LVDC_LAG, LVDC_DEAF, LVDC_DAMAGE, LVDC_DAMAGE, LVDC_DAMAGE, LVDC_STICK,
                  LVDC_STICK, LVDC_DEAD);
}

// Puts fault lines, of which some meet.
static void put_script(struct text *t, int last, int count, int met)
{
    enum { KEPT = 16 };
    fault kept[KEPT];
    int group = below(6) - 2, spoiled = chance(6) ? below(count) : -1;
    for (int i = 0; i < count; i++) {
        fault f = i && chance(met) ? beside(kept[below(lesser(i, KEPT))], last) : draw_fault(kind_of_a_fault(group), last);
        kept[i % KEPT] = f;
        put_fault(t, &f, i == spoiled);
    }
}

// Puts two copies that are forced to one value: what the vote then has no instruction makes, mostly.
static void put_outvoting(struct text *t, int last)
{
    int module = ONE_OF(0, 0, 6, 6, 6, 1, 2, 3, 4, 4, 5), spared = below(3);
    uint32_t port = (uint32_t)ONE_OF(0, 0, 1, 014, 016) << 3;
    fault f = {.kind = LVDC_FORCE, .first = step_near(last), .mask = (uint32_t)ONE_OF(WORD, 7)};
    f.last = f.first + ONE_OF(0, 0, 0, 1, 2, 40);
    f.latch = first_latch[module] + below(module == 6 ? 2 : first_latch[module + 1] - first_latch[module]);
    f.value = (uint32_t)ONE_OF(below(4), below(16), (int)(4 | port), (int)(3 | port), ONE_OF(1, 2, 5, 6, 7) | (int)(word() & ~7u), (int)word());
    for (int copy = 0; copy < 3; copy++) {
        f.copy = 3 * module + copy;
        if (copy != spared) put_fault(t, &f, 0);
    }
}

static void put_faults(struct text *t, int last)
{
    if (!chance(12)) put_script(t, last, ONE_OF(1, 1, 1, 2, 2, 3, 3, 4, 6, 6, 12, chance(15) ? 40 : 3), 40);
    if (chance(12)) put_outvoting(t, last);
    if (chance(6)) put_outvoting(t, last);
}

// ---- Programs

// A word that the program has in the sector in use, or in the residual one.
static int low(void) { return ONE_OF(0, 0, 0, 0, 0, 0400) | below(8); }
static int here(void) { return (home_location + below(12)) & 0377; }

static int operand(void)
{
    if (is_busy && chance(30)) return PQ;
    return chance(50) ? low() : ONE_OF(PQ, PQ, SAVER, 0777, 0774, 0375, 0376, 0377);
}

static int operation(void)
{
    if (is_busy) return ONE_OF(MPY, DIV, DIV, MPH, STO, CLA, CLA, ADD, RSU, CDS);
    return ONE_OF(CLA, CLA, ADD, SUB, RSU, AND, XOR, STO, STO, MPY, MPH, DIV, TRA, TNZ, TMI, PIO, CDS, HOP);
}

static int a_port(void) { return ONE_OF(0, 1, 014, 014, 015, 016, 017, 017, 020); }

// An instruction that a program might have, or any.
static int syllable(void)
{
    if (chance(6)) return below(1 << 13);
    int code = operation();
    switch (code) {
    case PIO: return code << 9 | ONE_OF(0400, 0) | a_port();
    case CDS: return code << 9 | ONE_OF(0200, 0201, 0201, 0202, 0220, 0240, 0001, 0401, 0021, 0017, chance(30) ? 0203 : 0201, chance(30) ? 0600 : 1);
    case TRA: case TNZ: case TMI: return code << 9 | here() | ONE_OF(0, 0, 0, 0400);
    default: return code << 9 | operand();
    }
}

// Short runs of instructions: how many were written.
static int by_pq(int *code)
{
    int op = ONE_OF(SUB, AND, ADD, XOR, RSU, CLA, SUB, AND, ADD, XOR, RSU, CLA, MPY, DIV, MPH, HOP);
    memcpy(code, (const int[]){CLA << 9 | low(), STO << 9 | PQ, CLA << 9 | low(), op << 9 | PQ, STO << 9 | low()}, 5 * sizeof *code);
    return 5;
}

static int by_product(int *code)
{
    int count = 0, fillers = ONE_OF(0, 0, 2, 3, 4, 7, 8);
    code[count++] = CLA << 9 | low();
    code[count++] = ONE_OF(MPY, MPY, DIV, DIV, MPH) << 9 | low();
    while (fillers-- > 0) code[count++] = ONE_OF(syllable(), CLA << 9 | low(), ADD << 9 | low(), STO << 9 | PQ, CLA << 9 | PQ);
    code[count++] = ONE_OF(CLA, CLA, ADD, STO) << 9 | PQ;
    code[count++] = STO << 9 | low();
    return count;
}

static int by_port(int *code)
{
    int count = 0, port = a_port();
    code[count++] = CLA << 9 | low();
    code[count++] = PIO << 9 | port;
    if (chance(30)) code[count++] = MPH << 9 | low();
    code[count++] = CLA << 9 | low();
    code[count++] = PIO << 9 | 0400 | port;
    return count;
}

static int by_sector(int *code)
{
    int sector = ONE_OF(0, 0, 020, 040, 040, 060, 0100) | ONE_OF(0, 1, 1, 2, 15) | ONE_OF(0, 0, 0400);
    int at = ONE_OF(low(), low(), 0375, 0376, 0377, PQ);
    code[0] = CDS << 9 | sector;
    code[1] = ONE_OF(STO, CLA, ADD) << 9 | at;
    code[2] = ONE_OF(CLA, ADD, STO) << 9 | low();
    code[3] = CDS << 9 | ONE_OF(1, 1, 041);
    return 4;
}

static int by_sign(int *code)
{
    code[0] = CLA << 9 | low();
    code[1] = ONE_OF(TMI, TMI, TNZ) << 9 | here();
    code[2] = STO << 9 | ONE_OF(SAVER, 0777, low());
    return 3;
}

static void draw_code(int code[2 * CODE])
{
    static int (*const runs[])(int *) = {by_pq, by_product, by_pq, by_product, by_port, by_sector, by_sign};
    for (int count = 0; count < CODE;) {
        if (is_orderly && chance(80)) count += runs[below(7)](code + count);
        else code[count++] = syllable();
    }
}

// A HOP constant that leads into the program, mostly.
static uint32_t hop(void)
{
    int sector = chance(20) ? ONE_OF(0, 1, 15) : home_sector;
    int place = ONE_OF(0, 0, 0, 1, 2) << 13 | sector << 9 | ONE_OF(0, 0, 1) << 8 | ((home_location + below(8)) & 0377);
    return (uint32_t)(place << 10 | ONE_OF(0, 0, 0, 1, 2) << 7 | ONE_OF(1, 1, 1, 0, 15) << 3 | below(4) << 1);
}

// The HOP constant of a start: of an orderly program its first instruction, mostly.
static uint32_t start(void)
{
    if (!is_orderly || chance(20)) return hop();
    return (uint32_t)((home_sector << 9 | home_location) << 10 | ONE_OF(1, 1, 1, 15) << 3 | below(4) << 1);
}

static int address_before(const void *a, const void *b)
{
    const placed *one = a, *other = b;
    return one->bank != other->bank ? one->bank - other->bank : one->at - other->at;
}

// Draws the words of an image: how many. No two have one address.
static int draw_words(const int simplex[4], placed *words)
{
    int code[2 * CODE], count = 0, size = is_orderly ? CODE : 12, kept = 0, residual = chance(35) ? 40 : 0, other = chance(25) ? 1 : 4;
    draw_code(code);
    for (int i = 0; i < size; i++)
        words[count++] = (placed){0, home_sector << 8 | ((home_location + i) & 0377), (uint32_t)(syllable() << 13 | code[i])};
    for (int i = 0; i < 8; i++) words[count++] = (placed){0, 1 << 8 | i, chance(67) ? word() : hop()};
    for (int i = 0; i < 7; i++) if (chance(residual)) words[count++] = (placed){0, RESIDUAL << 8 | (i < 3 ? i : 249 + i), word()};
    for (int bank = other; bank < 8; bank++)
        for (int i = 0; i < 3 && (bank == 1 || (bank > 3 && simplex[bank - 4])); i++) words[count++] = (placed){bank, below(2) << 8 | i, word()};
    qsort(words, (size_t)count, sizeof *words, address_before);
    for (int i = 0; i < count; i++)
        if (kept == 0 || address_before(&words[kept - 1], &words[i])) words[kept++] = words[i];
    return kept;
}

static void put_pairs(struct text *t, const int simplex[4])
{
    int any = 0;
    for (int pair = 0; pair < 4; pair++) {
        if (!simplex[pair]) continue;
        put(t, any ? " %d" : "SIMPLEX %d", pair);
        any = 1;
    }
    if (any) put(t, "\n");
    if (any) mark(HAS_SIMPLEX);
}

static void put_image(struct text *t, const int simplex[4])
{
    placed words[MOST_WORDS];
    int has_pairs = simplex[0] | simplex[1] | simplex[2] | simplex[3], count = draw_words(simplex, words);
    if (has_pairs || chance(30)) put(t, "LVDC 2\nSTART %09o\n", chance(98) ? start() : (uint32_t)ONE_OF((1 << 26) + 14, 15));
    else put(t, "LVDC 1\n");
    put_pairs(t, simplex);
    for (int i = 0; i < count; i++) put(t, "%d %02o %03o %09o\n", words[i].bank, words[i].at >> 8, words[i].at & 0377, words[i].word);
    put(t, "END\n");
}

// ---- Decks

static void put_program(struct text *t)
{
    int all[4], in_image[4] = {0}, in_deck[4] = {0}, homes = below(7);
    home_sector = homes == 5 ? RESIDUAL : homes == 6 ? 1 : 0;
    home_location = homes == 4 ? 0373 : homes == 5 ? 0370 : homes == 6 ? 0372 : 0;
    is_busy = chance(35);
    is_orderly = chance(60);
    for (int pair = 0; pair < 4; pair++) {
        all[pair] = chance(8);
        if (chance(60)) in_image[pair] = all[pair]; else in_deck[pair] = all[pair];
    }
    put(t, "IMAGE\n");
    put_image(t, in_image);
    if (homes > 3 || chance(30)) put(t, "START %o\n", chance(99) ? start() : (uint32_t)(1 << 26));
    put_pairs(t, in_deck);
}

static void put_ports(struct text *t, int times)
{
    int gone = 0;
    put(t, "PORTS\n");
    if (chance(80)) { put(t, "TAPE 0 %o %o %o\n", word(), word(), word()); mark(HAS_TAPES); }
    for (int count = ONE_OF(0, 0, 1, 1, 2, 4); count > 0; count--) {
        int port = ONE_OF(0, 1, 014, 015, 016, 017);
        if (gone >> port & 1 && !chance(5)) continue;
        gone |= 1 << port;
        put(t, "UNPLUG %o %d\n", port, chance(50) ? below(12) : below(times + 2));
        mark(HAS_UNPLUGS);
    }
    if (chance(8))
        put(t, "%s\n", TEXT_OF("TAPE 16 400000000", "TAPE 400 1", "TAPE 17 1", "TAPE 14 1", "TAPE 0", "UNPLUG 0 01", "UNPLUG 20 0", "UNPLUG 1 0",
                               "UNPLUG 1 1000001", "TAPE 1 1", "TAPE 16 1"));
}

static void put_order(struct text *t)
{
    char letters[LETTERS + 1] = "ABCDEFGHIJKLMNOPQRSTU";
    for (int i = LETTERS - 1; i > 0; i--) {
        int other = below(i + 1);
        char held = letters[i];
        letters[i] = letters[other];
        letters[other] = held;
    }
    put(t, "%s\n", letters);
}

static void put_orders(struct text *t)
{
    put(t, "ORDER\n");
    for (int count = ONE_OF(1, 2, 2, 3, 16, chance(30) ? 17 : 4); count > 0; count--) put_order(t);
    if (chance(4)) put(t, "AABCDEFGHIJKLMNOPQRST\n");
    mark(HAS_ORDERS);
}

static int few_times(void)
{
    if (chance(2)) return 100 + below(300);
    return ONE_OF(0, 1, 2, 3, 5, 8, 10, 12, 16, 20, 20, 30, 40);
}

static void put_run(struct text *t, int times)
{
    asked_times = times;
    if (chance(99)) { put(t, "RUN %d\n", times); return; }
    put(t, "RUN %s\n", TEXT_OF("1000001", "999999999", "0000000003", "000000003", "", "-1", "1 1"));
}

static void put_deck(struct text *t, int times)
{
    put_program(t);
    if (chance(35)) put_ports(t, times);
    if (chance(80)) { put(t, "FAULTS\n"); put_faults(t, 3 * times - 1); }
    if (chance(15)) put_orders(t);
    put_run(t, times);
    if (chance(5)) put(t, "DEBUG\nREGS\n");
}

// A deck with a short script, which masks by form or nearly does.
static void put_form(struct text *t)
{
    int times = ONE_OF(0, 1, 2, 3, 10);
    home_sector = home_location = 0;
    put(t, "IMAGE\nLVDC 1\nEND\n");
    if (chance(20)) { put(t, "SIMPLEX %d\n", ONE_OF(0, 1, 3)); mark(HAS_SIMPLEX); }
    put(t, "FAULTS\n");
    put_script(t, 3 * times - 1, ONE_OF(1, 2, 2, 3, 3, 4), 60);
    put(t, "RUN %d\n", times);
}

static void put_scripts(struct text *t, int times, int most)
{
    if (chance(99)) put(t, "CAMPAIGN\n");
    for (int i = 0, count = 1 + below(most); i < count; i++) {
        if (chance(98)) put(t, "SCRIPT S%d\n", i);
        else put(t, "%s\n", TEXT_OF("SCRIPT S0", "SCRIPT S8 S9", "SCRIPT", "SCRIPT ABCDEFGHI", "SCRIPT 1A"));
        put_faults(t, 3 * times - 1);
    }
}

static void put_campaign(struct text *t, int is_study)
{
    int times = ONE_OF(0, 1, 3, 3, 10, 20);
    put_program(t);
    if (chance(is_study ? 50 : 3)) put_ports(t, times);
    if (chance(2)) { put(t, "FAULTS\n"); put_faults(t, 3 * times - 1); }
    if (chance(4)) put_orders(t);
    if (chance(97)) put(t, "RUN %d\n", times);
    else put(t, "RUN %s\n", TEXT_OF("10001", "1000001", "0000000003", ""));
    if (chance(3)) put(t, "DEBUG\nREGS\n");
    put_scripts(t, times, 4);
}

// ---- Saved texts

static void put_latches(struct text *t)
{
    for (int module = 0; module < 7; module++) {
        uint32_t latches[5];
        int count = first_latch[module + 1] - first_latch[module], differs = chance(8) ? below(3) : 3;
        for (int i = 0; i < count; i++) latches[i] = (uint32_t)ONE_OF(0, 0, (int)word(), below(128));
        if (module == 0 || module == 6) latches[0] &= chance(98) ? ~3u : WORD;
        for (int copy = 0; copy < 3; copy++) {
            put(t, "COPY %d %d %d", module + 1, copy + 1, chance(90) ? 0 : below(7));
            for (int i = 0; i < count; i++) put(t, " %09o", latches[i] ^ (copy == differs ? 1u << below(26) : 0));
            put(t, "\n");
        }
    }
}

static void put_cells(struct text *t, const placed *words, int count, const int simplex[4])
{
    for (int twin = 0; twin < 2; twin++) {
        int last = -1;
        for (int i = 0; i < count; i++) {
            int pair = words[i].bank & 3, at = pair << 12 | words[i].at;
            if (simplex[pair] && words[i].bank >> 2 != twin) continue;
            uint32_t cell = lvdc_code(words[i].word) ^ (chance(4) ? mask() : 0);
            if ((at > last || chance(1)) && cell != lvdc_code(0))
                put(t, "CELL %d %d %02o %03o %010o\n", twin, at >> 12, (unsigned)at >> 8 & 15, at & 0377, cell);
            last = at;
        }
    }
}

static void put_history(struct text *t)
{
    for (int time = 0; time < 2; time++)
        for (int i = 0; i < 2; i++) if (chance(20)) put(t, "%s %d %03o %09o\n", TEXT_OF("IN", "OUT"), time, ONE_OF(0, 014, 017, 0377), word());
    for (int step = 0; step < 6; step++) if (chance(6)) put(t, "REPAIR %d 0 00 000 %d%s\n", step, below(2), TEXT_OF("", "", " SWITCH"));
    for (int port = 0; port < 020; port++) if (chance(7)) put(t, "STATE %03o %09o\n", port, word());
    if (chance(10)) { put(t, "UNPLUG %03o %d\n", ONE_OF(0, 1, 014, 017, 020), below(9)); mark(HAS_UNPLUGS); }
}

// Puts a saved text of any latches, after two instruction times.
static void put_any_saved(struct text *t)
{
    placed words[MOST_WORDS];
    int simplex[4] = {0};
    home_sector = home_location = 0;
    is_busy = chance(50);
    is_orderly = chance(50);
    if (chance(8)) simplex[below(4)] = 1;
    int count = draw_words(simplex, words);
    put(t, "LVDC SAVE 1\nSTEPS %d\nCOUNT %d\n", chance(98) ? 6 : 7, ONE_OF(2, 3, 9, 20));
    put_pairs(t, simplex);
    put_latches(t);
    put(t, "SELECT %d %d %d %d\n", below(2), below(2), below(2), below(2));
    put_cells(t, words, count, simplex);
    for (int i = 0; i < count; i++)
        if (words[i].word) put(t, "WORD %d %02o %03o %09o\n", words[i].bank, words[i].at >> 8, words[i].at & 0377, words[i].word);
    put_history(t);
    if (chance(30)) put_script(t, 60, ONE_OF(1, 3), 40);
    for (int orders = ONE_OF(1, 1, 1, 2, 16); orders > 0; orders--) put_order(t);
    put(t, "END\n");
    mark(IS_SAVED);
}

// Puts what `save` answers of a deck, or the deck's report where it ends before.
static void put_saved(struct text *t)
{
    static struct text deck;
    char words[LONGEST_WORDS], *saved;
    size_t size;
    deck.size = 0;
    put_deck(&deck, few_times());
    snprintf(words, sizeof words, "save %d", below(asked_times + 1));
    answer_of(words, &deck, &saved, &size);
    add(t, saved, size);
    free(saved);
    mark(IS_SAVED);
}

// ---- Changes

typedef struct { const char *text; size_t length; } span;

// The bytes from a place to the next end, or the rest.
static span span_at(const struct text *t, size_t at, int (*ends)(char))
{
    size_t end = at;
    while (end < t->size && !ends(t->bytes[end])) end++;
    return (span){t->bytes + at, end - at};
}

static int ends_line(char c) { return c == '\n'; }
static int ends_word(char c) { return c == ' ' || c == '\n' || c == '\t'; }

// A place where a line begins.
static size_t line_place(const struct text *t)
{
    size_t at = t->size ? (size_t)below((int)t->size) : 0;
    while (at > 0 && t->bytes[at - 1] != '\n') at--;
    return at;
}

static void replace(struct text *t, size_t at, size_t length, const char *by, size_t size)
{
    want(t, size);
    memmove(t->bytes + at + size, t->bytes + at + length, t->size - at - length);
    memcpy(t->bytes + at, by, size);
    t->size += size - length;
}

static void change_line(struct text *t, size_t at, int how)
{
    char held[LONGEST_LINE];
    span line = span_at(t, at, ends_line);
    size_t length = line.length + (at + line.length < t->size), other;
    if (length > sizeof held) return;
    memcpy(held, line.text, length);
    if (how != 1) replace(t, at, length, "", 0);
    if (how == 0) return;
    other = line_place(t);
    replace(t, other, 0, held, length);
}

// Another word in the place of one: a number one more or less, a zero in front, twice, none, or a limit.
static void change_word(struct text *t, size_t at)
{
    char held[2 * LONGEST_LINE];
    span line = span_at(t, at, ends_line);
    if (line.length == 0) return;
    size_t place = at + (size_t)below((int)line.length);
    while (place > at && !ends_word(t->bytes[place - 1])) place--;
    span found = span_at(t, place, ends_word);
    int length = (int)lesser((int)found.length, FLAT), digits = (int)strspn(found.text, "0123456789"), size;
    switch (digits >= length && length > 0 && length < 10 && chance(70) ? below(3) : 3 + below(5)) {
    case 0: case 1: size = snprintf(held, sizeof held, "%0*d", length, greater(0, atoi(found.text) + ONE_OF(-1, 1))); break;
    case 2: size = snprintf(held, sizeof held, "%s", TEXT_OF("000000000", "777777777", "0000000000", "400000000", "9")); break;
    case 3: size = snprintf(held, sizeof held, "%.*s %.*s", length, found.text, length, found.text); break;
    case 4: size = snprintf(held, sizeof held, "0%.*s", length, found.text); break;
    case 5: size = snprintf(held, sizeof held, "%.*s", greater(length - 1, 0), found.text + (length > 0)); break;
    case 6: size = snprintf(held, sizeof held, "%s", TEXT_OF("RUN", "FAULTS", "PORTS", "ORDER", "START", "END", "SCRIPT", "DEBUG", "FLIP", "STICK")); break;
    default: size = 0; break;
    }
    replace(t, place, found.length, held, (size_t)size);
}

static void change_blanks(struct text *t, size_t at)
{
    span line = span_at(t, at, ends_line);
    size_t end = at + line.length;
    int wanted = 120 + below(2) - (int)line.length;
    char blanks[LONGEST_LINE];
    memset(blanks, ' ', sizeof blanks);
    switch (below(6)) {
    case 0: replace(t, end, 0, "\r", 1); break;
    case 1: replace(t, end, 0, TEXT_OF(" ", "\t"), 1); break;
    case 2: replace(t, at, 0, " ", 1); break;
    case 3: if (wanted > 0) replace(t, end, 0, blanks, (size_t)wanted); break;
    default:
        while (at < end && t->bytes[at] != ' ') at++;
        if (at < end) replace(t, at, (size_t)below(2), TEXT_OF(" ", "\t"), 1);
    }
}

static void change_byte(struct text *t, size_t at)
{
    span line = span_at(t, at, ends_line);
    if (line.length == 0) return;
    size_t place = at + (size_t)below((int)line.length);
    char byte = (char)(chance(80) ? ONE_OF('0', '1', '2', '7', '8', '9', ' ', '\t', '\r', ',', '+', '-', '*', 'A', 'X', '\n') : below(256));
    replace(t, place, (size_t)below(2), &byte, (size_t)chance(85));
}

static void change(struct text *t)
{
    want(t, 0);
    t->bytes[t->size] = 0;
    size_t at = line_place(t);
    int how = below(12);
    if (how < 4) change_line(t, at, how / 2 + (how == 3));
    else if (how < 8) change_word(t, at);
    else if (how < 10) change_blanks(t, at);
    else change_byte(t, at);
}

// Is a text changed so that it asks for many times? They take long.
static int asks_long(const struct text *t)
{
    for (size_t at = 0; at < t->size; at++) {
        if (at && t->bytes[at - 1] != '\n') continue;
        span line = span_at(t, at, ends_line);
        while (line.length && (*line.text == ' ' || *line.text == '\t')) { line.text++; line.length--; }
        if (line.length > 4 && line.length < FLAT && (memcmp(line.text, "RUN", 3) == 0 || (line.length > 6 && memcmp(line.text, "COUNT", 5) == 0))) {
            char held[FLAT + 1] = {0};
            memcpy(held, line.text, line.length);
            long times = strtol(held + strcspn(held, " \t"), NULL, 10);
            if (times > LONG_TIMES && times <= 1000000) return 1;
        }
    }
    return 0;
}

static void change_some(struct text *t)
{
    for (int count = ONE_OF(1, 1, 1, 1, 2, 3); count > 0; count--) change(t);
    mark(IS_CHANGED);
}

// ---- What is as long as it may be, or longer

static void put_many(struct text *t, const char *form, int count)
{
    for (int i = 0; i < count; i++) put(t, form, i);
}

static void draw_long(struct request *r)
{
    struct text *t = &r->input;
    mark(IS_LONG);
    switch (below(6)) {
    case 0:
        put(t, "IMAGE\nLVDC 1\n0 00 000 000016600\nEND\nFAULTS\n");
        put_many(t, "LAG 1 1 %d 2999999\n", 40000);
        put(t, "RUN %d\n", ONE_OF(0, 1000000, 1000001));
        break;
    case 1:
        put(t, "IMAGE\nLVDC 1\nEND\nFAULTS\n");
        put_many(t, "LAG 1 1 0 0\n", 65535 + below(3));
        put(t, "RUN 1\n");
        break;
    case 2:
        put(t, "IMAGE\nLVDC 1\nEND\nRUN 1\n");
        while (t->size <= MOST_INPUT + (size_t)below(2)) put(t, "*\n");
        break;
    case 3: put_deck(t, LONG_TIMES + below(LONG_TIMES)); break;
    case 4: put_deck(t, 10 * LONG_TIMES); break;
    default:
        put(t, "IMAGE\nLVDC 1\n0 00 000 000016600\nEND\nRUN %d\nCAMPAIGN\n", ONE_OF(0, 10000, 10001));
        put_many(t, "SCRIPT S%d\n", 255 + below(3));
        r->kind = ONE_OF(CAMPAIGN, STUDY);
    }
}

// ---- Requests

static int draw_kind(void)
{
    static const int shares[] = {22, 6, 15, 9, 17, 8, 7, 7, 3, 5, 1};
    int at = below(100), kind = 0;
    while (at >= shares[kind]) at -= shares[kind++];
    return kind;
}

static void draw_input(struct request *r)
{
    struct text *t = &r->input;
    if (r->kind == CAMPAIGN || r->kind == STUDY) put_campaign(t, r->kind == STUDY);
    else if (r->kind == FORM && chance(75)) put_form(t);
    else if (r->kind == RESUME ? chance(40) : r->kind == TRACE && chance(10)) put_any_saved(t);
    else if (r->kind == RESUME || (r->kind == TRACE && chance(25))) put_saved(t);
    else put_deck(t, few_times());
}

static void draw_words_of(struct request *r)
{
    int times = chance(95) ? below(asked_times + 1) : asked_times + below(3), first = ONE_OF(0, 0, below(12), below(3 * asked_times + 3)), told = ONE_OF(1, 2, 3, 9, 30, 60, 100000);
    switch (r->kind) {
    case SAVE: snprintf(r->words, sizeof r->words, chance(95) ? "save %d" : "save %07d", times); break;
    case TRACE: case TRACE_THROUGH: snprintf(r->words, sizeof r->words, "%s %d %d", request_names[r->kind], first, told); break;
    case OTHER:
        snprintf(r->words, sizeof r->words, "%s", TEXT_OF("go fast", "run run", "run --plain --through", "save", "save -1", "save 00000001", "resume 2",
                                                         "trace", "trace 0", "trace 00 1", "trace 0 0", "trace 3000001 1", "trace 0 100001",
                                                         "trace --plain 0 1", "form 1", "study 1", "campaign --through", "x"));
        break;
    default: snprintf(r->words, sizeof r->words, "%s", request_names[r->kind]);
    }
}

void draw(uint64_t number, struct request *into)
{
    state = number * 0xd1342543de82ef95 + 1;
    drawn = into;
    into->marks = 0;
    asked_times = 9;
    into->kind = draw_kind();
    into->input.size = 0;
    if (below(20000) == 0 && into->kind < RESUME) draw_long(into); else draw_input(into);
    if (!(into->marks >> IS_LONG & 1) && chance(20)) change_some(&into->input);
    if (!(into->marks >> IS_LONG & 1) && asks_long(&into->input)) {
        into->input.size = 0;
        put_deck(&into->input, few_times());
    }
    draw_words_of(into);
}
