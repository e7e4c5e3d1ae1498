// What a core of the machine offers, so that adapter.c makes a program of it which the suite can try: the adapter reads decks and saved
// texts and refuses them, has the devices, and writes reports, traces, registers, saved texts and the rows of campaigns and studies. Written from
// docs/MACHINE.md and docs/FORMATS.md; it proves nothing.
//
// A core of one copy offers `struct lvdc_core`, one of 21 copies `struct lvdc_voted` beside it. bare.c is a core of the first sort.
#ifndef LVDC_ADAPTER_H
#define LVDC_ADAPTER_H

#include <stddef.h>
#include <stdint.h>

enum { LVDC_PAIRS = 4, LVDC_BANKS = 8, LVDC_WORDS = 4096, LVDC_PORTS = 256, LVDC_LATCHES = 15, LVDC_COPIES = 21, LVDC_WORD = (1 << 26) - 1 };

// How a run ends, or that it goes on.
enum { LVDC_GOES_ON, LVDC_SHIFT, LVDC_EXM, LVDC_NO_GOOD_CELL, LVDC_BAD_LOGIC, LVDC_BAD_MEMORY };

// What `run` and `run --through` judge.
enum { LVDC_GUARDED, LVDC_THROUGH };

enum { LVDC_FLIP, LVDC_FORCE, LVDC_LAG, LVDC_DEAF, LVDC_DAMAGE, LVDC_STICK, LVDC_DEAD, LVDC_KINDS };

// A fault line. A copy is three times the module, from 0, and the copy, from 0; a latch counts from 0 over all modules; a place is 4,096 times the
// pair, and sector and location.
struct lvdc_event { int kind, copy, latch, twin, place, first, last; uint32_t mask, value; };

// What a step exchanged. An `at` is 256 times the sector, and the location; of a port it is the port.
enum { LVDC_NOTHING, LVDC_FETCH, LVDC_OPERAND, LVDC_STORE, LVDC_OUT, LVDC_IN };
struct lvdc_exchange { int kind, bank, at; uint32_t word; };

// What the adapter and the core both know. The adapter fills in the first part before a run; the core counts `steps` as it goes on, by three of the
// plain machine, and says how the run ended.
extern struct lvdc_board {
    int simplex[LVDC_PAIRS];
    uint32_t start;
    struct lvdc_event *events;
    int event_count;
    int steps, end, end_bank, end_at, end_module;
} lvdc;

// The registers of a core of one copy. LEFT is how many times the pending result has left, 0 where none is pending; INTO_A whether A takes it too.
enum { LVDC_A, LVDC_PQ, LVDC_PLACE, LVDC_SAVER, LVDC_HOLD, LVDC_LEFT, LVDC_RESULT, LVDC_INTO_A };

struct lvdc_core {
    void (*clear)(void);  // all is 0
    void (*load)(int bank, int at, uint32_t word);
    uint32_t (*word)(int bank, int at);
    void (*set)(int which, uint32_t value);  // PLACE is a whole HOP constant
    uint32_t (*get)(int which);
    int (*run_time)(void);  // one instruction time; LVDC_GOES_ON, LVDC_SHIFT or LVDC_EXM
    int (*run)(int times);  // so many, or fewer where one of them ends it; it may be 0
    int (*is_unused)(int bank, int sector);  // every word of the sector is 0; it may be 0, and then each is looked at
};

struct lvdc_voted {
    void (*clear)(void);
    void (*load)(int bank, int at, uint32_t word);  // the intended word alone
    uint32_t (*word)(int bank, int at);
    void (*set_latch)(int copy, int latch, uint32_t value);  // a copy from 0 to 2
    uint32_t (*latch)(int copy, int latch);
    void (*set_cell)(int twin, int place, uint32_t cell);
    uint32_t (*cell)(int twin, int place);
    void (*select)(int pair, int twin);
    int (*selected)(int pair);
    void (*set_count)(int copy, unsigned count);  // how often a copy differed
    unsigned (*count)(int copy);
    void (*begin)(void);  // all is set: the run begins at lvdc.steps, with lvdc.events
    int (*is_known)(int bank, int at);
    int (*step)(int way, struct lvdc_exchange *exchanged);  // one step; an end, or LVDC_GOES_ON
    int (*run)(int way, int steps);  // so many, or fewer where one of them ends it; it may be 0
    int (*is_unused)(int bank, int sector);  // every word of the sector is 0 and known, every cell that of 0; it may be 0
};

// What the adapter offers to a core: the bank that a module number means; the code of a word; a port that is read or written, and its log; and
// the repairs that a read makes.
int lvdc_bank(int module);
uint32_t lvdc_code(uint32_t word);
uint32_t lvdc_port(int port, int reads, uint32_t word);
void lvdc_repair(int bank, int at, int twin, int switched);

// The program: words of a command line, or frames where there are none. Either core may be 0. What it doesn't cover has the status 64.
int lvdc_main(int count, char **words, const struct lvdc_core *core, const struct lvdc_voted *voted);

// The same without a program around it: the cores that answer, and one answer. It is a status; the text is the caller's to free.
void lvdc_use(const struct lvdc_core *core, const struct lvdc_voted *voted);
int lvdc_answer(int count, char **words, const char *given, size_t size, char **text, size_t *length);

#endif
