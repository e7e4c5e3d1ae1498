// The plain and the voted machine in straightforward C, to be timed beside the proved program, and to be changed token by token by
// conformance/mutants. It was written from docs/MACHINE.md and docs/FORMATS.md alone, and proves nothing.
//
//   peer run | run --through | run --plain | save N | resume | trace [--through] FIRST COUNT | form | campaign | study  < INPUT
//
// Without words it answers frames. conformance/c/adapter.c reads decks and saved texts for it and writes what it answers; what the two don't cover has the status 64.
// tools/bench/check-peer holds it against the conformance cases. Guarded, a step is judged by the machine's own votes, cells and words.
#include "../../conformance/c/adapter.h"
#include <stdlib.h>
#include <string.h>

enum { PHASE, HOLD, PLACE, SAVER, INSTR, DATA, A, OPERAND, PQ, CONTROL, M, H, Q, STOP, REQUEST, LATCHES };
enum { PAIRS = LVDC_PAIRS, BANKS = LVDC_BANKS, WORDS = LVDC_WORDS, COPIES = LVDC_COPIES, WORD = LVDC_WORD, NONE = -1 };
enum { HOP, MPY, SUB, DIV, TNZ, MPH, AND, ADD, TRA, XOR, PIO, STO, TMI, RSU, CDS, CLA };
enum { PLACE_FIELDS = 0377776004, DATA_FIELDS = 01772, SYLLABLE = 017777 };

typedef struct lvdc_event event;
typedef struct lvdc_exchange exchange;
typedef struct { int before, after; } link;

static const int first_latch[] = {0, 2, 4, 5, 6, 8, 13, 15};
static int module_of_latch[LATCHES];

// The script: its events by their first and by their last step, those of a copy or a place as a list.
static link *links;
static int *by_first, *by_last, begun, ended, next_change, event_count;

// The machine.
static uint32_t words[BANKS][WORDS];
static uint32_t vote[LATCHES], copies[3][LATCHES], cells[2][PAIRS][WORDS], stuck_mask[2][PAIRS][WORDS], stuck_value[2][PAIRS][WORDS];
static int chosen[PAIRS], dead[2][PAIRS], apart;
static unsigned differed[COPIES];

// Where anything was loaded, stored, damaged or stuck since all was cleared: in which sectors of which pairs. At first all is to be cleared.
static uint64_t used = UINT64_MAX;
static uint64_t sector_of(int bank, int at) { return (uint64_t)1 << ((bank & 3) << 4 | at >> 8); }
static void use(int bank, int at) { used |= sector_of(bank, at); }
static void use_place(int place) { use(place / WORDS, place % WORDS); }

// What is in force: counts for each copy, the copies under any event, and what flips and forces come to in each latch of a copy.
static int lags[COPIES], deafs[COPIES], forces[COPIES], acting[COPIES], head[COPIES], touched;
static int wrong[7], stick_head[2][PAIRS * WORDS];
static uint32_t keeps[3][LATCHES], flips[3][LATCHES];

// ---- Words

static int32_t signed_of(uint32_t word) { return (int32_t)(word << 6) >> 6; }
static uint32_t with_parity(uint32_t syllable) { return syllable | (uint32_t)!__builtin_parity(syllable) << 13; }
static uint32_t code_of(uint32_t word) { return with_parity(word >> 13) << 14 | with_parity(word & SYLLABLE); }
static int is_good(uint32_t cell) { return __builtin_parity(cell >> 14) & __builtin_parity(cell & 037777); }
static uint32_t word_of(uint32_t cell) { return (cell >> 14 & SYLLABLE) << 13 | (cell & SYLLABLE); }
static int bank_of(int module) { return module / 2 + (lvdc.simplex[module / 2] ? 4 * (module & 1) : 0); }

// ---- The arithmetic unit: one phase over its latches

static void multiply_phase(uint32_t *b, int left)
{
    int digit = b[Q] & 3;
    if (left == 1 && digit > 1) digit -= 4;
    uint32_t sum = (b[H] + (uint32_t)(digit * signed_of(b[M]))) & WORD;
    b[Q] = (b[Q] & 077777777) >> 2 | (sum & 3) << 22;
    b[H] = (uint32_t)(signed_of(sum) >> 2) & WORD;
}

static void divide_phase(uint32_t *b, int left)
{
    if (left == 24) {
        int32_t h = signed_of(b[H]), m = signed_of(b[M]);
        b[H] = (uint32_t)abs(h) & WORD;
        b[M] = (uint32_t)abs(m) & WORD;
        b[CONTROL] = (b[CONTROL] & ~0600u) | (uint32_t)((h < 0) != (m < 0)) << 7 | (uint32_t)(abs(h) >= abs(m)) << 8;
        return;
    }
    uint32_t twice = 2 * b[H] & WORD, fits = twice >= b[M];
    b[H] = fits ? twice - b[M] : twice;
    b[Q] = (2 * b[Q] + fits) & WORD;
}

static uint32_t landed(const uint32_t *b)
{
    int negative = b[CONTROL] >> 7 & 1;
    if ((b[CONTROL] & 3) != 3) return (8 * b[H] + (b[Q] >> 21)) & WORD;
    if (b[CONTROL] >> 8 & 1) return negative ? 0200000000 : 0177777774;
    return (negative ? 0u - 4 * b[Q] : 4 * b[Q]) & WORD;
}

// One phase of the unit in the latches of n; is there a landing?
static int unit_phase(uint32_t *n)
{
    int kind = n[CONTROL] & 3, left = n[CONTROL] >> 2 & 31;
    if (kind == 0 || left == 0) return 0;
    n[CONTROL] -= 4;
    if (kind == 3) divide_phase(n, left); else multiply_phase(n, left);
    return left == 1;
}

static void issue(uint32_t *n, int op, uint32_t a, uint32_t m)
{
    n[CONTROL] = op == DIV ? 24 << 2 | 3 : 12 << 2 | (op == MPH ? 2 : 1);
    n[M] = (uint32_t)(signed_of(m) >> 2) & WORD;
    n[H] = op == DIV ? (uint32_t)(signed_of(a) >> 2) & WORD : 0;
    n[Q] = op == DIV ? 0 : a >> 2;
}

// ---- The modules

static int takes_operand(int op) { return 0xA2EF >> op & 1; }
static int is_meant(int pattern) { return pattern == 0 || pattern == 1 || pattern == 2 || pattern == 020 || pattern == 040; }

static uint32_t shifted(uint32_t a, int pattern)
{
    switch (pattern) {
    case 1: return (uint32_t)(signed_of(a) >> 1) & WORD;
    case 2: return (uint32_t)(signed_of(a) >> 2) & WORD;
    case 020: return a << 1 & WORD;
    case 040: return a << 2 & WORD;
    default: return 0;
    }
}

static uint32_t requested(int op, uint32_t address, uint32_t data)
{
    if (op == PIO) return (address & 0377) << 3 | (address >> 8 ? 4 : 3);
    if (op != STO || address == 0775) return 0;
    uint32_t sector = address >> 8 ? 15 : data >> 3 & 15, module = data >> 7 & 7;
    return (address >= 0776 ? 2 : 1) | (address & 0377) << 3 | sector << 11 | (module >> 1) << 15 | (module & 1) << 17;
}

static uint32_t next_place(uint32_t place) { return (place & PLACE_FIELDS & ~0776000u) | ((place + 02000) & 0776000); }

// What the instruction makes of place, saver, data place, A and the unit, whose latches have had their phase.
static void execute(uint32_t *n, uint32_t a, uint32_t port)
{
    int op = n[INSTR] >> 9 & 15, taken = 0;
    uint32_t address = n[INSTR] & 0777, m = n[OPERAND], place = n[PLACE], data = n[DATA], onward = next_place(place);
    n[PLACE] = onward;
    switch (op) {
    case HOP: n[PLACE] = m & PLACE_FIELDS; n[DATA] = m & DATA_FIELDS; n[SAVER] = onward | (data & DATA_FIELDS); break;
    case SUB: n[A] = (a - m) & WORD; break;
    case AND: n[A] = a & m; break;
    case ADD: n[A] = (a + m) & WORD; break;
    case XOR: n[A] = a ^ m; break;
    case RSU: n[A] = (m - a) & WORD; break;
    case CLA: n[A] = m; break;
    case TRA: taken = 1; break;
    case TNZ: taken = a != 0; break;
    case TMI: taken = a >> 25 & 1; break;
    case PIO: if (address >> 8) n[A] = port; break;
    case STO: if (address == 0775) { n[PQ] = a; n[CONTROL] = 0; } break;
    case MPY: case MPH: case DIV: issue(n, op, a, m); break;
    case CDS:
        if (!(address & 0200)) n[DATA] = (address & 0177) << 3 | (address >> 8) << 1;
        else if (address >> 8) { n[STOP] = 2; n[PLACE] = place; }
        else if (is_meant(address & 0177)) n[A] = shifted(a, address & 0177);
        else { n[STOP] = 1; n[PLACE] = place; }
        break;
    }
    if (!taken) return;
    n[PLACE] = (place & PLACE_FIELDS & ~01776000u) | (address >> 8) << 18 | (address & 0377) << 10;
    n[SAVER] = onward | (data & DATA_FIELDS);
}

// Makes the latches of a bus those that follow, with the words that this phase read.
static void follow(uint32_t *n, uint32_t memory, uint32_t port)
{
    int phase = n[PHASE] & 3, held = (n[HOLD] & 7) != 0, op = n[INSTR] >> 9 & 15, high = (n[CONTROL] & 3) == 2;
    uint32_t address = n[INSTR] & 0777, pq = n[PQ], result = 0;
    int lands = unit_phase(n);
    if (lands) { n[PQ] = result = landed(n); n[CONTROL] = 0; }
    n[REQUEST] = 0;
    if (phase >= 2) {
        n[PHASE] = 0;
        n[HOLD] = held ? (n[HOLD] & 7) - 1 : op == MPH ? 4 : 0;
        if (!held) execute(n, n[A], port);
    } else {
        n[PHASE] = phase + 1;
        if (!held && phase == 0) n[INSTR] = n[PLACE] >> 18 & 1 ? memory >> 13 : memory & SYLLABLE;
        if (!held && phase == 1) {
            n[REQUEST] = requested(op, address, n[DATA]);
            if (takes_operand(op)) n[OPERAND] = address == 0775 ? pq : memory;
        }
    }
    if (lands && high) n[A] = result;
}

// The exchange that a phase wishes, without the word that it will read.
static exchange wished(const uint32_t *b)
{
    int phase = b[PHASE] & 3, held = (b[HOLD] & 7) != 0, op = b[INSTR] >> 9 & 15, address = b[INSTR] & 0777;
    uint32_t place = b[PLACE], data = b[DATA], request = b[REQUEST];
    if (phase == 0 && !held) return (exchange){LVDC_FETCH, bank_of(place >> 23 & 7), (place >> 19 & 15) << 8 | (place >> 10 & 0377), 0};
    if (phase == 1 && !held && takes_operand(op) && address != 0775)
        return (exchange){LVDC_OPERAND, bank_of(data >> 7 & 7), (address >> 8 ? 15 : data >> 3 & 15) << 8 | (address & 0377), 0};
    if (phase < 2) return (exchange){LVDC_NOTHING, 0, 0, 0};
    int at = request >> 3 & 07777, bank = bank_of((request >> 15 & 3) << 1 | (request >> 17 & 1));
    switch (request & 7) {
    case 1: return (exchange){LVDC_STORE, bank, at, b[A]};
    case 2: return (exchange){LVDC_STORE, bank, at, b[SAVER]};
    case 3: return (exchange){LVDC_OUT, 0, request >> 3 & 0377, b[A]};
    case 4: return (exchange){LVDC_IN, 0, request >> 3 & 0377, 0};
    default: return (exchange){LVDC_NOTHING, 0, 0, 0};
    }
}

// ---- The twins

static uint32_t shown(int twin, int pair, int at)
{
    if (dead[twin][pair]) return 0;
    return (cells[twin][pair][at] & ~stuck_mask[twin][pair][at]) | stuck_value[twin][pair][at];
}

static int is_recoverable(int bank, int at)
{
    int pair = bank & 3;
    uint32_t code = code_of(words[bank][at]);
    if (lvdc.simplex[pair]) return shown(bank >> 2, pair, at) == code;
    uint32_t one = shown(0, pair, at), other = shown(1, pair, at);
    if (one == code) return other == code || !is_good(other);
    return other == code && !is_good(one);
}

static void store(int bank, int at, uint32_t word)
{
    int pair = bank & 3;
    words[bank][at] = word;
    use(bank, at);
    for (int twin = 0; twin < 2; twin++)
        if (!dead[twin][pair] && (!lvdc.simplex[pair] || twin == bank >> 2)) cells[twin][pair][at] = code_of(word);
}

static void note_repair(int bank, int at, int twin, int switched, uint32_t word)
{
    if (!dead[twin][bank]) cells[twin][bank][at] = code_of(word);
    lvdc_repair(bank, at, twin, switched);
}

// Reads a word; false where no cell is good.
static int fetch(int bank, int at, uint32_t *word)
{
    int pair = bank & 3, twin = lvdc.simplex[pair] ? bank >> 2 : chosen[pair];
    uint32_t cell = shown(twin, pair, at), other = lvdc.simplex[pair] ? cell : shown(!twin, pair, at);
    if (cell == other && is_good(cell)) { *word = word_of(cell); return 1; }
    if (!is_good(cell) && !is_good(other)) return 0;
    *word = word_of(is_good(cell) ? cell : other);
    if (is_good(cell) && is_good(other)) return 1;
    if (!is_good(cell)) chosen[pair] = !twin;
    note_repair(bank, at, is_good(cell) ? !twin : twin, !is_good(cell), *word);
    return 1;
}

// ---- What is in force

// Puts an event into the list of a copy or of a place, in the order of the script, or takes it out.
static void link_event(int *list, int number)
{
    int before = NONE, after = *list;
    while (after != NONE && after < number) { before = after; after = links[after].after; }
    links[number] = (link){before, after};
    if (before == NONE) *list = number; else links[before].after = number;
    if (after != NONE) links[after].before = number;
}

static void unlink_event(int *list, int number)
{
    link at = links[number];
    if (at.before == NONE) *list = at.after; else links[at.before].after = at.after;
    if (at.after != NONE) links[at.after].before = at.before;
}

// What all flips and forces of a copy come to, where a force is among them; flips alone undo themselves.
static void fold_copy(int copy)
{
    int number = copy % 3, module = copy / 3;
    for (int latch = first_latch[module]; latch < first_latch[module + 1]; latch++) {
        keeps[number][latch] = WORD;
        flips[number][latch] = 0;
    }
    for (int i = head[copy]; i != NONE; i = links[i].after) {
        event *e = &lvdc.events[i];
        uint32_t *keep = &keeps[number][e->latch], *flip = &flips[number][e->latch];
        if (e->kind == LVDC_FLIP) { *flip ^= e->mask; continue; }
        *keep &= ~e->mask;
        *flip = (*flip & ~e->mask) | (e->value & e->mask);
    }
}

static void change_copy(event *e, int number, int by)
{
    int copy = e->copy, had_forces = forces[copy] > 0;
    if (acting[copy] == 0) wrong[copy / 3]++;
    acting[copy] += by;
    if (acting[copy] == 0) wrong[copy / 3]--;
    if (acting[copy]) touched |= 1 << copy; else touched &= ~(1 << copy);
    if (e->kind == LVDC_LAG) lags[copy] += by;
    if (e->kind == LVDC_DEAF) deafs[copy] += by;
    if (e->kind > LVDC_FORCE) return;
    if (e->kind == LVDC_FORCE) forces[copy] += by;
    if (by > 0) link_event(&head[copy], number); else unlink_event(&head[copy], number);
    if (had_forces || e->kind == LVDC_FORCE) fold_copy(copy); else flips[copy % 3][e->latch] ^= e->mask;
}

static void change_stick(event *e, int number, int by)
{
    int *list = &stick_head[e->twin][e->place];
    uint32_t *mask = &stuck_mask[e->twin][e->place / WORDS][e->place % WORDS];
    uint32_t *value = &stuck_value[e->twin][e->place / WORDS][e->place % WORDS];
    if (by > 0) link_event(list, number); else unlink_event(list, number);
    use_place(e->place);
    *mask = *value = 0;
    for (int i = *list; i != NONE; i = links[i].after) {
        *mask |= lvdc.events[i].mask;
        *value = (*value & ~lvdc.events[i].mask) | (lvdc.events[i].value & lvdc.events[i].mask);
    }
}

static void change(int number, int by)
{
    event *e = &lvdc.events[number];
    if (e->kind <= LVDC_DEAF) change_copy(e, number, by);
    else if (e->kind == LVDC_STICK) change_stick(e, number, by);
    else if (e->kind == LVDC_DEAD) dead[e->twin][e->place / WORDS] += by;
    else if (by > 0) {
        use_place(e->place);
        cells[e->twin][e->place / WORDS][e->place % WORDS] ^= e->mask;
    }
}

static void begin_and_end_events(int steps)
{
    while (ended < event_count && lvdc.events[by_last[ended]].last < steps) change(by_last[ended++], -1);
    while (begun < event_count && lvdc.events[by_first[begun]].first <= steps) change(by_first[begun++], 1);
    next_change = INT32_MAX;
    if (begun < event_count) next_change = lvdc.events[by_first[begun]].first;
    if (ended < begun && lvdc.events[by_last[ended]].last < next_change) next_change = lvdc.events[by_last[ended]].last + 1;
}

// ---- The voted machine

// What a copy latches of its module.
static void latch(int copy, const uint32_t *next, uint32_t memory, uint32_t port, uint32_t *into)
{
    int number = copy % 3, first = first_latch[copy / 3], last = first_latch[copy / 3 + 1];
    const uint32_t *from = next;
    uint32_t heard[LATCHES];
    if (deafs[copy]) { memcpy(heard, copies[number], sizeof heard); follow(heard, memory, port); from = heard; }
    if (lags[copy]) from = copies[number];
    for (int i = first; i < last; i++) into[i] = (from[i] & keeps[number][i]) ^ flips[number][i];
}

// The copies under an event latch one by one, all others what follows from the vote; then they are compared.
static void latch_apart(uint32_t memory, uint32_t port)
{
    uint32_t latched[3][LATCHES];
    for (int number = 0; number < 3; number++) memcpy(latched[number], vote, sizeof vote);
    for (int copy = 0; copy < COPIES; copy++)
        if (touched >> copy & 1) latch(copy, vote, memory, port, latched[copy % 3]);
    memcpy(copies, latched, sizeof copies);
    apart = 0;
    for (int i = 0; i < LATCHES; i++) {
        uint32_t one = copies[0][i], two = copies[1][i], three = copies[2][i];
        vote[i] = (one & two) | (one & three) | (two & three);
        for (int number = 0; number < 3; number++)
            if (copies[number][i] != vote[i]) apart |= 1 << (3 * module_of_latch[i] + number);
    }
    for (int copy = 0; copy < COPIES; copy++) differed[copy] += apart >> copy & 1;
}

static int is_admissible(exchange x)
{
    for (int module = 0; module < 7 && touched; module++)
        if (wrong[module] > 1) { lvdc.end_module = module + 1; return LVDC_BAD_LOGIC; }
    if ((x.kind != LVDC_FETCH && x.kind != LVDC_OPERAND) || is_recoverable(x.bank, x.at)) return LVDC_GOES_ON;
    lvdc.end_bank = x.bank;
    lvdc.end_at = x.at;
    return LVDC_BAD_MEMORY;
}

// One step: an end, or that the run goes on.
static int step(int way, exchange *x)
{
    uint32_t memory = 0, port = 0;
    int end;
    if (lvdc.steps == next_change) begin_and_end_events(lvdc.steps);
    *x = wished(vote);
    if (way == LVDC_GUARDED && (end = is_admissible(*x)) != LVDC_GOES_ON) return end;
    if (x->kind == LVDC_FETCH || x->kind == LVDC_OPERAND) {
        if (!fetch(x->bank, x->at, &memory)) { lvdc.end_bank = x->bank; lvdc.end_at = x->at; return LVDC_NO_GOOD_CELL; }
        x->word = memory;
    }
    if (x->kind == LVDC_STORE) store(x->bank, x->at, x->word);
    if (x->kind == LVDC_OUT) lvdc_port(x->at, 0, x->word);
    if (x->kind == LVDC_IN) x->word = port = lvdc_port(x->at, 1, 0);
    if (touched && !apart) for (int number = 0; number < 3; number++) memcpy(copies[number], vote, sizeof vote);
    follow(vote, memory, port);
    if (touched || apart) latch_apart(memory, port);
    lvdc.steps++;
    if (vote[STOP] & 3) return (vote[STOP] & 3) == 1 ? LVDC_SHIFT : LVDC_EXM;
    return LVDC_GOES_ON;
}

static int run_steps(int way, int count)
{
    exchange x;
    int end = LVDC_GOES_ON;
    while (count-- > 0 && end == LVDC_GOES_ON) end = step(way, &x);
    return end;
}

// ---- The plain machine: one instruction time after another

static int times_left, hold, into_a;
static uint32_t pending;

static uint32_t product(uint32_t a, uint32_t m)
{
    return (uint32_t)(((int64_t)(signed_of(a) >> 2) * (signed_of(m) >> 2)) >> 21) & WORD;
}

static uint32_t quotient(uint32_t word, uint32_t by)
{
    int64_t a = signed_of(word) >> 2, m = signed_of(by) >> 2, size = llabs(a), other = llabs(m);
    int negative = (a < 0) != (m < 0);
    if (size >= other) return negative ? 0200000000 : 0177777774;
    int64_t result = (size << 23) / other;
    return (uint32_t)(4 * (negative ? -result : result)) & WORD;
}

// What was pending when the time began loses one of its times, and lands where one was left.
static void land(void)
{
    if (times_left == 0 || --times_left > 0) return;
    vote[PQ] = pending;
    if (into_a) vote[A] = pending;
}

static void load(int bank, int at, uint32_t word)
{
    words[bank][at] = word;
    use(bank, at);
}

// The store or the exchange of STO and PIO; the word that was read.
static uint32_t exchange_of(int op, uint32_t address, uint32_t data)
{
    uint32_t request = requested(op, address, data);
    int bank = bank_of((request >> 15 & 3) << 1 | (request >> 17 & 1)), port = request >> 3 & 0377;
    if ((request & 7) > 2) return lvdc_port(port, (request & 7) == 4, vote[A]);
    if (request & 7) load(bank, request >> 3 & 07777, vote[(request & 7) == 1 ? A : SAVER]);
    return 0;
}

// One instruction time: an end, or that the run goes on.
static int plain_time(void)
{
    uint32_t place = vote[PLACE], data = vote[DATA], a = vote[A], m = 0;
    if (hold > 0) { hold--; land(); return LVDC_GOES_ON; }
    uint32_t word = words[bank_of(place >> 23 & 7)][(place >> 19 & 15) << 8 | (place >> 10 & 0377)];
    vote[INSTR] = place >> 18 & 1 ? word >> 13 : word & SYLLABLE;
    int op = vote[INSTR] >> 9, address = vote[INSTR] & 0777, issues = op == MPY || op == MPH || op == DIV;
    if (takes_operand(op))
        m = address == 0775 ? vote[PQ] : words[bank_of(data >> 7 & 7)][(address >> 8 ? 15 : data >> 3 & 15) << 8 | (address & 0377)];
    uint32_t port = op == STO || op == PIO ? exchange_of(op, address, data) : 0;
    vote[OPERAND] = m;
    if (!issues) execute(vote, a, port); else vote[PLACE] = next_place(place);
    land();
    if (issues) { into_a = op == MPH; hold = into_a ? 4 : 0; times_left = op == DIV ? 8 : 4; }
    if (issues) pending = op == DIV ? quotient(a, m) : product(a, m);
    if (op == STO && address == 0775) { vote[PQ] = a; times_left = 0; }
    if (vote[STOP]) return vote[STOP] == 1 ? LVDC_SHIFT : LVDC_EXM;
    return LVDC_GOES_ON;
}

static int run_times(int count)
{
    int end = LVDC_GOES_ON;
    for (; count > 0 && end == LVDC_GOES_ON; count--) { end = plain_time(); lvdc.steps += 3; }
    return end;
}

// ---- What the adapter asks

static void clear_sector(int pair, int sector)
{
    enum { SECTOR = 256 };
    int at = sector * SECTOR;
    for (int twin = 0; twin < 2; twin++) {
        memset(&words[pair + 4 * twin][at], 0, SECTOR * sizeof **words);
        memset(&stuck_mask[twin][pair][at], 0, SECTOR * sizeof ***stuck_mask);
        memset(&stuck_value[twin][pair][at], 0, SECTOR * sizeof ***stuck_value);
        memset(&stick_head[twin][pair * WORDS + at], NONE, SECTOR * sizeof **stick_head);
        for (int i = at; i < at + SECTOR; i++) cells[twin][pair][i] = code_of(0);
    }
}

static void clear(void)
{
    for (int i = 0; used; i++, used >>= 1) if (used & 1) clear_sector(i >> 4, i & 15);
    memset(vote, 0, sizeof vote);
    times_left = hold = into_a = 0;
}

// Is all as it was cleared in a sector, so that each of its words is 0?
static int is_unused(int bank, int sector) { return !(used & sector_of(bank, sector << 8)); }

// The same, and no word is lost there: one of its cells is as all of them.
static int is_whole(int bank, int sector) { return is_unused(bank, sector) && is_recoverable(bank, sector << 8); }

static uint32_t word_at(int bank, int at) { return words[bank][at]; }

static void set_register(int which, uint32_t value)
{
    switch (which) {
    case LVDC_A: vote[A] = value; break;
    case LVDC_PQ: vote[PQ] = value; break;
    case LVDC_SAVER: vote[SAVER] = value; break;
    case LVDC_PLACE: vote[PLACE] = value & PLACE_FIELDS; vote[DATA] = value & DATA_FIELDS; break;
    case LVDC_HOLD: hold = (int)value; break;
    case LVDC_LEFT: times_left = (int)value; break;
    case LVDC_RESULT: pending = value; break;
    case LVDC_INTO_A: into_a = (int)value; break;
    }
}

static uint32_t get_register(int which)
{
    switch (which) {
    case LVDC_A: return vote[A];
    case LVDC_PQ: return vote[PQ];
    case LVDC_SAVER: return vote[SAVER];
    case LVDC_PLACE: return vote[PLACE] | vote[DATA];
    case LVDC_HOLD: return (uint32_t)hold;
    case LVDC_LEFT: return (uint32_t)times_left;
    case LVDC_RESULT: return pending;
    default: return (uint32_t)into_a;
    }
}

static void clear_copies(void)
{
    clear();
    memset(copies, 0, sizeof copies);
    memset(chosen, 0, sizeof chosen);
    memset(differed, 0, sizeof differed);
    memset(dead, 0, sizeof dead);
}

static void set_latch(int copy, int latch, uint32_t value) { copies[copy][latch] = value; }
static uint32_t latch_of(int copy, int latch) { return apart ? copies[copy][latch] : vote[latch]; }
static void set_cell(int twin, int place, uint32_t cell)
{
    cells[twin][place / WORDS][place % WORDS] = cell;
    use_place(place);
}
static uint32_t cell_at(int twin, int place) { return cells[twin][place / WORDS][place % WORDS]; }
static void choose(int pair, int twin) { chosen[pair] = twin; }
static int choice(int pair) { return chosen[pair]; }
static void set_count(int copy, unsigned count) { differed[copy] = count; }
static unsigned count_of(int copy) { return differed[copy]; }

static int first_before(const void *a, const void *b)
{
    int i = *(const int *)a, j = *(const int *)b, first = lvdc.events[i].first, other = lvdc.events[j].first;
    return first != other ? (first > other) - (first < other) : i - j;
}

static int last_before(const void *a, const void *b)
{
    int i = *(const int *)a, j = *(const int *)b, last = lvdc.events[i].last, other = lvdc.events[j].last;
    return last != other ? (last > other) - (last < other) : i - j;
}

static void *room_for(void *list, size_t item)
{
    list = realloc(list, (size_t)lvdc.event_count * item + 1);
    if (!list) exit(9);
    return list;
}

// Begins at a step. Where that isn't the first one, what is stuck or dead in the step before is in force; its damage is done.
static void begin(void)
{
    int before = lvdc.steps ? lvdc.steps - 1 : 0;
    for (int module = 0; module < 7; module++)
        for (int i = first_latch[module]; i < first_latch[module + 1]; i++) module_of_latch[i] = module;
    apart = touched = begun = ended = event_count = next_change = 0;
    for (int i = 0; i < LATCHES; i++) {
        vote[i] = (copies[0][i] & copies[1][i]) | (copies[0][i] & copies[2][i]) | (copies[1][i] & copies[2][i]);
        for (int number = 0; number < 3; number++) apart |= (copies[number][i] != vote[i]) << (3 * module_of_latch[i] + number);
    }
    memset(lags, 0, sizeof lags);
    memset(deafs, 0, sizeof deafs);
    memset(forces, 0, sizeof forces);
    memset(acting, 0, sizeof acting);
    memset(wrong, 0, sizeof wrong);
    memset(flips, 0, sizeof flips);
    memset(keeps, 0377, sizeof keeps);
    memset(head, NONE, sizeof head);
    by_first = room_for(by_first, sizeof *by_first);
    by_last = room_for(by_last, sizeof *by_last);
    links = room_for(links, sizeof *links);
    for (int i = 0; i < lvdc.event_count; i++)
        if (lvdc.events[i].last >= before && (lvdc.events[i].kind != LVDC_DAMAGE || lvdc.events[i].first >= lvdc.steps)) by_first[event_count++] = i;
    memcpy(by_last, by_first, (size_t)event_count * sizeof *by_first);
    qsort(by_first, (size_t)event_count, sizeof(int), first_before);
    qsort(by_last, (size_t)event_count, sizeof(int), last_before);
    if (lvdc.steps) begin_and_end_events(before);
}

const struct lvdc_core lvdc_plain_machine = {clear, load, word_at, set_register, get_register, plain_time, run_times, is_unused};
const struct lvdc_voted lvdc_voted_machine = {
    clear_copies, load, word_at, set_latch, latch_of, set_cell, cell_at, choose, choice, set_count, count_of, begin, is_recoverable, step, run_steps, is_whole,
};

#ifndef LVDC_WITHOUT_MAIN
int main(int count, char **given) { return lvdc_main(count, given, &lvdc_plain_machine, &lvdc_voted_machine); }
#endif
