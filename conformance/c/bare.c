// A core of one copy, the plain machine and nothing else, that adapter.c makes a program of:
//
//   cc -o bare conformance/c/bare.c conformance/c/adapter.c
//   conformance/run --have plain --without source ./bare
//   conformance/lockstep DECK ./bare registers
#include "adapter.h"
#include <stdlib.h>
#include <string.h>

enum { HOP, MPY, SUB, DIV, TNZ, MPH, AND, ADD, TRA, XOR, PIO, STO, TMI, RSU, CDS, CLA };

static uint32_t memory[LVDC_BANKS][LVDC_WORDS], registers[LVDC_INTO_A + 1];

static void clear(void) { memset(memory, 0, sizeof memory); memset(registers, 0, sizeof registers); }
static void load(int bank, int at, uint32_t word) { memory[bank][at] = word; }
static uint32_t word(int bank, int at) { return memory[bank][at]; }
static void set(int which, uint32_t value) { registers[which] = value; }
static uint32_t get(int which) { return registers[which]; }

static int32_t signed_of(uint32_t word) { return (int32_t)(word << 6) >> 6; }

static uint32_t product(uint32_t a, uint32_t m)
{
    return (uint32_t)((int64_t)(signed_of(a) >> 2) * (signed_of(m) >> 2) >> 21) & LVDC_WORD;
}

static uint32_t quotient(uint32_t a, uint32_t m)
{
    int32_t dividend = signed_of(a) >> 2, divisor = signed_of(m) >> 2;
    int negative = (dividend < 0) != (divisor < 0);
    if (abs(dividend) >= abs(divisor)) return negative ? 0200000000 : 0177777774;
    int32_t result = (int32_t)(((int64_t)abs(dividend) << 23) / abs(divisor));
    return (uint32_t)(4 * (negative ? -result : result)) & LVDC_WORD;
}

// The word that an address names, by the place.
static uint32_t *operand(uint32_t place, int address)
{
    if (address == 0775) return &registers[LVDC_PQ];
    int sector = address >> 8 ? 15 : (int)(place >> 3 & 15);
    return &memory[lvdc_bank(place >> 7 & 7)][sector << 8 | (address & 0377)];
}

static void land(void)
{
    if (registers[LVDC_LEFT] == 0 || --registers[LVDC_LEFT] > 0) return;
    registers[LVDC_PQ] = registers[LVDC_RESULT];
    if (registers[LVDC_INTO_A]) registers[LVDC_A] = registers[LVDC_RESULT];
}

static void issue(int code, uint32_t a, uint32_t m)
{
    registers[LVDC_LEFT] = code == DIV ? 8 : 4;
    registers[LVDC_RESULT] = code == DIV ? quotient(a, m) : product(a, m);
    registers[LVDC_INTO_A] = code == MPH;
    if (code == MPH) registers[LVDC_HOLD] = 4;
}

// A shift; false where the pattern has no meaning.
static int shift(uint32_t *a, int pattern)
{
    switch (pattern) {
    case 000: *a = 0; return 1;
    case 001: *a = (uint32_t)(signed_of(*a) >> 1) & LVDC_WORD; return 1;
    case 002: *a = (uint32_t)(signed_of(*a) >> 2) & LVDC_WORD; return 1;
    case 020: *a = *a << 1 & LVDC_WORD; return 1;
    case 040: *a = *a << 2 & LVDC_WORD; return 1;
    default: return 0;
    }
}

static int run_time(void)
{
    if (registers[LVDC_HOLD] > 0) { registers[LVDC_HOLD]--; land(); return LVDC_GOES_ON; }
    uint32_t place = registers[LVDC_PLACE], *a = &registers[LVDC_A], old = *a;
    uint32_t fetched = memory[lvdc_bank(place >> 23 & 7)][(place >> 19 & 15) << 8 | (place >> 10 & 0377)];
    int syllable = (int)(place >> 18 & 1 ? fetched >> 13 : fetched & 017777), code = syllable >> 9, address = syllable & 0777;
    uint32_t m = *operand(place, address), next = (place & ~0776000u) | ((place + 02000) & 0776000), went = next;
    int transfers = code == HOP || code == TRA || (code == TNZ && old) || (code == TMI && old >> 25), end = LVDC_GOES_ON, issues = 0;
    if (transfers) {
        registers[LVDC_SAVER] = next;
        went = code == HOP ? m & ~1u : (place & ~01776000u) | (uint32_t)(address >> 8) << 18 | (uint32_t)(address & 0377) << 10;
    }
    switch (code) {
    case SUB: *a = (old - m) & LVDC_WORD; break;
    case AND: *a = old & m; break;
    case ADD: *a = (old + m) & LVDC_WORD; break;
    case XOR: *a = old ^ m; break;
    case RSU: *a = (m - old) & LVDC_WORD; break;
    case CLA: *a = m; break;
    case MPY: case MPH: case DIV: issues = 1; break;
    case PIO: if (address >> 8) *a = lvdc_port(address & 0377, 1, 0); else lvdc_port(address & 0377, 0, old); break;
    case STO: if (address != 0775) *operand(place, address) = address >= 0776 ? registers[LVDC_SAVER] : old; break;
    case CDS:
        if (!(address & 0200)) went = (next & ~01772u) | (uint32_t)(address & 0177) << 3 | (uint32_t)(address >> 8) << 1;
        else if (address >> 8) end = LVDC_EXM;
        else if (!shift(a, address & 0177)) end = LVDC_SHIFT;
    }
    if (end == LVDC_GOES_ON) registers[LVDC_PLACE] = went;
    land();
    if (issues) issue(code, old, m);
    if (code == STO && address == 0775) { registers[LVDC_PQ] = old; registers[LVDC_LEFT] = 0; }
    return end;
}

int main(int count, char **words)
{
    static const struct lvdc_core core = {clear, load, word, set, get, run_time, 0, 0};
    return lvdc_main(count, words, &core, 0);
}
