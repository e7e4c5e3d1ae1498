// Compares an emulator with the proved machine step by step, and shows the first step that differs: lockstep WORKER LIMIT INPUT COMMAND..
//
// conformance/lockstep builds and calls it. The steps of the machine are traces of the worker, asked for in windows, so that a long run needs little
// memory. LIMIT is how many seconds the one or the other may say nothing. The exit status is 0 where nothing differs, 1 where something does, 2
// where nothing can be compared.
#include <errno.h>
#include <fcntl.h>
#include <poll.h>
#include <signal.h>
#include <stdarg.h>
#include <stdint.h>
#include <stdio.h>
#include <stdlib.h>
#include <string.h>
#include <sys/wait.h>
#include <unistd.h>

enum { LONGEST_LINE = 200, FIRST_WINDOW = 1000, LARGEST_WINDOW = 100000, MODULES = 7, LATCHES = 15, COPIES = 21, MOST_OF_A_KIND = 4, ROOM = 1 << 16 };
enum { PLACE_FIELDS = 0377776004, DATA_FIELDS = 01772 };

// The kinds of lines, and how much an emulator tells.
enum { STEP, TIME, FETCH, OPERAND, STORE, IN, OUT, REPAIR, FAULT, VOTE, COPY, KINDS };
enum { EXCHANGES = 1 << STEP | 1 << FETCH | 1 << OPERAND | 1 << STORE | 1 << IN | 1 << OUT, VOTES = EXCHANGES | 1 << VOTE };
enum { TRACE = VOTES | 1 << REPAIR | 1 << FAULT | 1 << COPY, REGISTERS = 1 << TIME };
static const char *const kind_names[] = {"STEP", "TIME", "FETCH", "OPERAND", "STORE", "IN", "OUT", "REPAIR", "FAULT", "VOTE", "COPY"};
// The fields behind the first word: d is decimal, another one octal of so many digits; W is the words of a module.
static const char *const forms[] = {"d", "d9999", "1239", "1239", "1239", "39", "39", "123d", "dd", "dW", "ddW"};
static const char *const module_names[] = {"TIMER", "LOCATOR", "DECODER", "SELECTOR", "ACCUMULATOR", "MULTIPLIER", "EXCHANGE"};
static const char *const register_names[] = {"A", "PQ", "PLACE", "SAVER"};
static const int first_latch[] = {0, 2, 4, 5, 6, 8, 13, 15};

// A line: its kind and its fields. A `-` stands for a register that isn't told.
typedef struct { int kind, count, switched, untold; uint32_t fields[8]; } told;

// What is told of a step, or after an instruction time. What isn't told is 0.
typedef struct {
    int number, exchanges, repairs, votes_told, untold;
    told exchange[MOST_OF_A_KIND], repair[MOST_OF_A_KIND];
    uint32_t faults, copies_told, votes[LATCHES], copies[3][LATCHES], registers[4];
} state;

// The lines that a process writes.
typedef struct { const char *who; pid_t process; int from, to, ended; size_t at, size; long number; char bytes[ROOM + 1]; } source;

// Steps that are read from a source, up to the line END or MORE; one of them is held until its last line is read.
typedef struct { source *from; int kinds, is_held, has_ended; state held; char last[LONGEST_LINE + 1]; } steps;

static const char *input_name;
static int limit, through, kinds;
static char *input;
static size_t input_size;

// ---- How it ends

static void say(FILE *to, const char *form, va_list given)
{
    fprintf(to, "lockstep: %s: ", input_name);
    vfprintf(to, form, given);
    fputc('\n', to);
}

// Nothing can be compared, or no longer.
static _Noreturn void astray(const char *form, ...)
{
    va_list given;
    fflush(stdout);
    va_start(given, form);
    say(stderr, form, given);
    exit(2);
}

// The emulator isn't like the machine, and how.
static void tell(const char *form, ...)
{
    va_list given;
    va_start(given, form);
    say(stdout, form, given);
    va_end(given);
}

// ---- Processes and their lines

static void start(source *s, const char *who, char **command, int given)
{
    int to[2] = {-1, -1}, from[2], failed[2], error = 0;
    if (pipe(from) || pipe(failed) || (given < 0 && pipe(to))) astray("no pipe");
    fcntl(failed[1], F_SETFD, FD_CLOEXEC);
    s->who = who;
    s->process = fork();
    if (s->process == 0) {
        dup2(given < 0 ? to[0] : given, 0);
        dup2(from[1], 1);
        if (given < 0) { close(to[0]); close(to[1]); }
        close(from[0]);
        close(from[1]);
        execvp(command[0], command);
        error = errno;
        _exit(write(failed[1], &error, sizeof error) == sizeof error ? 127 : 126);
    }
    close(from[1]);
    close(failed[1]);
    if (given < 0) close(to[0]);
    if (s->process < 0) astray("%s: %s", command[0], strerror(errno));
    if (read(failed[0], &error, sizeof error) == sizeof error) astray("%s: %s", command[0], strerror(error));
    close(failed[0]);
    s->from = from[0];
    s->to = to[1];
}

static void end(source *s)
{
    if (s->process > 0) {
        kill(s->process, SIGKILL);
        waitpid(s->process, NULL, 0);
    }
}

// The next line, without its end, or nothing after the last one.
static char *next_line(source *s)
{
    for (;;) {
        char *first = s->bytes + s->at, *found = memchr(first, '\n', s->size - s->at);
        size_t length = found ? (size_t)(found - first) : s->size - s->at;
        if (length > LONGEST_LINE) astray("line %ld of %s is too long", s->number + 1, s->who);
        if (found) {
            s->at += length + 1;
            s->number++;
            *found = 0;
            if (length > 0 && found[-1] == '\r') found[-1] = 0;
            return first;
        }
        if (s->ended && length > 0) astray("%s ends within a line, after line %ld", s->who, s->number);
        if (s->ended) return NULL;
        memmove(s->bytes, first, length);
        s->at = 0;
        s->size = length;
        struct pollfd waiting = {s->from, POLLIN, 0};
        if (poll(&waiting, 1, 1000 * limit) <= 0) astray("%s says nothing within %d s, after line %ld", s->who, limit, s->number);
        ssize_t taken = read(s->from, s->bytes + s->size, ROOM - s->size);
        s->ended = taken <= 0;
        if (taken > 0) s->size += (size_t)taken;
    }
}

// ---- Lines

// Reads a number of so many digits at most; false where none stands there.
static int read_number(const char **text, int base, int digits, uint32_t *number)
{
    const char *first = *text;
    *number = 0;
    for (; **text >= '0' && **text < '0' + base; ++*text) *number = *number * (uint32_t)base + (uint32_t)(**text - '0');
    return *text > first && *text - first <= digits && (**text == 0 || **text == ' ' || **text == '\t');
}

static void skip_blanks(const char **text) { *text += strspn(*text, " \t"); }

// Reads a line into its fields; false where it has no form.
static int read_line(const char *text, told *line)
{
    size_t length = strcspn(text, " \t");
    memset(line, 0, sizeof *line);
    while (line->kind < KINDS && (strlen(kind_names[line->kind]) != length || memcmp(kind_names[line->kind], text, length))) line->kind++;
    if (line->kind == KINDS) return 0;
    text += length;
    const char *form = forms[line->kind];
    for (int words = 0; *form; line->count++) {
        skip_blanks(&text);
        if (*form == 'W' && words == 0) {
            uint32_t module = line->fields[0];
            if (module < 1 || module > MODULES) return 0;
            words = first_latch[module] - first_latch[module - 1];
        }
        if (line->kind == TIME && line->count > 0 && text[0] == '-' && strchr(" \t", text[1])) {
            line->untold |= 1 << (line->count - 1);
            text++;
        } else if (!read_number(&text, *form == 'd' ? 10 : 8, *form == 'd' ? 7 : *form == 'W' ? 9 : *form - '0', &line->fields[line->count])) return 0;
        if (*form != 'W' || --words == 0) form++;
    }
    skip_blanks(&text);
    line->switched = line->kind == REPAIR && strncmp(text, "SWITCH", 6) == 0;
    if (line->switched) text += 6;
    skip_blanks(&text);
    return *text == 0;
}

static int is_end(const char *line)
{
    return (strncmp(line, "END", 3) == 0 && (line[3] == 0 || line[3] == ' ')) || (strncmp(line, "MORE", 4) == 0 && (line[4] == 0 || line[4] == ' '));
}

// ---- Steps

static void put_told(state *s, const told *line)
{
    const uint32_t *f = line->fields;
    int copy = line->kind == FAULT || line->kind == COPY ? (int)(3 * (f[0] - 1) + f[1] - 1) : 0;
    switch (line->kind) {
    case REPAIR: if (s->repairs < MOST_OF_A_KIND) s->repair[s->repairs++] = *line; break;
    case FAULT: s->faults |= 1u << (copy & 31); break;
    case VOTE:
        s->votes_told |= 1 << f[0];
        memcpy(s->votes + first_latch[f[0] - 1], f + 1, (size_t)(line->count - 1) * sizeof *f);
        break;
    case COPY:
        s->copies_told |= 1u << (copy & 31);
        memcpy(s->copies[copy % 3] + first_latch[f[0] - 1], f + 2, (size_t)(line->count - 2) * sizeof *f);
        break;
    default: if (s->exchanges < MOST_OF_A_KIND) s->exchange[s->exchanges++] = *line; break;
    }
}

// Begins a step after another one, whose votes stay until they are told anew.
static void begin_step(steps *s, const told *line)
{
    state *held = &s->held;
    held->number = (int)line->fields[0];
    held->exchanges = held->repairs = 0;
    held->faults = held->copies_told = 0;
    held->untold = line->untold;
    if (line->kind == TIME) memcpy(held->registers, line->fields + 1, sizeof held->registers);
    s->is_held = 1;
}

// Reads on to the end of a step; false where there is no more.
static int next_step(steps *s, state *found)
{
    while (!s->has_ended) {
        told line;
        char *text = next_line(s->from);
        if (!text) astray("%s ends without a line END or MORE, after line %ld", s->from->who, s->from->number);
        snprintf(s->last, sizeof s->last, "%s", text);
        int ends = is_end(text), is_read = !ends && read_line(text, &line), begins = is_read && (line.kind == STEP || line.kind == TIME);
        int was_held = s->is_held;
        if (was_held && (ends || begins)) *found = s->held;
        if (ends) { s->has_ended = 1; s->is_held = 0; return was_held; }
        int copy = is_read && (line.kind == FAULT || line.kind == COPY);
        if (!is_read || !(s->kinds >> line.kind & 1) || (!s->is_held && !begins)
            || (copy && (line.fields[0] < 1 || line.fields[0] > 7 || line.fields[1] < 1 || line.fields[1] > 3)))
            astray("line %ld of %s has no form, or stands where it may not: '%s'", s->from->number, s->from->who, text);
        if (!begins) { put_told(&s->held, &line); continue; }
        begin_step(s, &line);
        if (was_held) return 1;
    }
    return 0;
}

// ---- The machine

static source machine_lines, emulator_lines;
static steps machine = {&machine_lines, TRACE, 0, 0, {0}, ""};
static int window_first, window_count;

static char *ask(const char *words, int *status)
{
    char head[LONGEST_LINE];
    size_t length = (size_t)snprintf(head, sizeof head, "REQUEST %zu %s\n", input_size, words), written = 0;
    if (write(machine_lines.to, head, length) != (ssize_t)length) astray("the worker has gone");
    while (written < input_size) {
        ssize_t more = write(machine_lines.to, input + written, input_size - written);
        if (more <= 0) astray("the worker has gone");
        written += (size_t)more;
    }
    char *line = next_line(&machine_lines);
    if (!line || sscanf(line, "REPLY %d", status) != 1) astray("what stands for a worker answers no frame");
    return *status == 9 ? "" : next_line(&machine_lines);
}

static void ask_window(void)
{
    char words[LONGEST_LINE];
    int status;
    snprintf(words, sizeof words, "trace%s %d %d", through ? " --through" : "", window_first, window_count);
    char *title = ask(words, &status);
    machine.has_ended = 0;
    if (status == 1) astray("the worker has no traces");
    if (status != 0 && status != 5 && status != 6 && status != 10) astray("the machine refuses the deck: %s", title ? title : "");
}

// The machine's next step; false after the last one.
static int next_of_machine(state *found)
{
    for (;;) {
        if (window_count == 0) {
            window_count = FIRST_WINDOW;
            ask_window();
        }
        if (next_step(&machine, found)) return 1;
        if (strcmp(machine.last, "MORE") != 0) return 0;
        window_first += window_count;
        if (window_count < LARGEST_WINDOW) window_count *= 10;
        ask_window();
    }
}

// The registers after the machine's next instruction time; false after the last one.
static int next_time_of_machine(state *found)
{
    while (next_of_machine(found)) {
        if (found->number % 3 != 2) continue;
        const uint32_t *v = found->votes;
        found->number = found->number / 3 + 1;
        memcpy(found->registers, (uint32_t[]){v[6], v[8], (v[2] & PLACE_FIELDS) | (v[5] & DATA_FIELDS), v[3]}, sizeof found->registers);
        return 1;
    }
    return 0;
}

// ---- What differs

static int same_lines(const told *some, int count, const told *others, int other_count)
{
    return count == other_count && memcmp(some, others, (size_t)count * sizeof *some) == 0;
}

static int same_copies(const state *a, const state *b)
{
    if (a->copies_told != b->copies_told) return 0;
    for (int copy = 0; copy < COPIES; copy++)
        for (int i = first_latch[copy / 3]; (a->copies_told >> copy & 1) && i < first_latch[copy / 3 + 1]; i++)
            if (a->copies[copy % 3][i] != b->copies[copy % 3][i]) return 0;
    return 1;
}

static int is_same(const state *a, const state *b)
{
    if (a->number != b->number) return 0;
    for (int i = 0; i < 4; i++)
        if (kinds == REGISTERS && !(b->untold >> i & 1) && a->registers[i] != b->registers[i]) return 0;
    if (kinds == REGISTERS) return 1;
    if (!same_lines(a->exchange, a->exchanges, b->exchange, b->exchanges)) return 0;
    if (kinds & 1 << VOTE && (a->votes_told != b->votes_told || memcmp(a->votes, b->votes, sizeof a->votes))) return 0;
    return !(kinds & 1 << COPY) || (same_lines(a->repair, a->repairs, b->repair, b->repairs) && a->faults == b->faults && same_copies(a, b));
}

// ---- What is shown: a row for each thing that one of the three states has

typedef struct { char name[32], cells[3][LONGEST_LINE]; } row;
static row rows[64];
static int row_count;

static void add_row(const char *name, char cells[3][LONGEST_LINE])
{
    if (!cells[0][0] && !cells[1][0] && !cells[2][0]) return;
    row *r = &rows[row_count++];
    snprintf(r->name, sizeof r->name, "%s", name);
    for (int k = 0; k < 3; k++) snprintf(r->cells[k], LONGEST_LINE, "%s", cells[k][0] ? cells[k] : "-");
}

static void put_lines(char *cell, const told *lines, int count, int with_kind)
{
    cell[0] = 0;
    for (const told *line = lines; line < lines + count; line++) {
        char *at = cell + strlen(cell);
        at += sprintf(at, "%s%s%s", line > lines ? ", " : "", with_kind ? kind_names[line->kind] : "", with_kind ? " " : "");
        for (int i = 0; i < line->count; i++) {
            char digits = forms[line->kind][i];
            at += digits == 'd' ? sprintf(at, "%s%u", i ? " " : "", line->fields[i]) : sprintf(at, "%s%0*o", i ? " " : "", digits - '0', line->fields[i]);
        }
        if (line->switched) strcpy(at, " SWITCH");
    }
}

static void put_words(char *cell, const uint32_t *latches, int module)
{
    cell[0] = 0;
    for (int i = first_latch[module]; i < first_latch[module + 1]; i++) sprintf(cell + strlen(cell), "%s%09o", cell[0] ? " " : "", latches[i]);
}

static void add_rows(const state *shown[3])
{
    char cells[3][LONGEST_LINE], name[32];
    row_count = 0;
    for (int i = 0; kinds == REGISTERS && i < 4; i++) {
        for (int k = 0; k < 3; k++)
            if (shown[k] && !(shown[k]->untold >> i & 1)) sprintf(cells[k], "%09o", shown[k]->registers[i]); else cells[k][0] = 0;
        add_row(register_names[i], cells);
    }
    if (kinds == REGISTERS) return;
    for (int k = 0; k < 3; k++) put_lines(cells[k], shown[k] ? shown[k]->exchange : NULL, shown[k] ? shown[k]->exchanges : 0, 1);
    add_row("exchange", cells);
    for (int k = 0; k < 3; k++) put_lines(cells[k], shown[k] ? shown[k]->repair : NULL, shown[k] && kinds >> REPAIR & 1 ? shown[k]->repairs : 0, 0);
    add_row("REPAIR", cells);
    for (int copy = 0; kinds >> FAULT & 1 && copy < COPIES; copy++) {
        for (int k = 0; k < 3; k++) strcpy(cells[k], shown[k] && shown[k]->faults >> copy & 1 ? "wrong" : "");
        sprintf(name, "FAULT %d %d %s", copy / 3 + 1, copy % 3 + 1, module_names[copy / 3]);
        add_row(name, cells);
    }
    for (int module = 0; kinds >> VOTE & 1 && module < MODULES; module++) {
        for (int k = 0; k < 3; k++)
            if (shown[k] && shown[k]->votes_told >> (module + 1) & 1) put_words(cells[k], shown[k]->votes, module); else cells[k][0] = 0;
        sprintf(name, "VOTE %d %s", module + 1, module_names[module]);
        add_row(name, cells);
    }
    for (int copy = 0; kinds >> COPY & 1 && copy < COPIES; copy++) {
        for (int k = 0; k < 3; k++)
            if (shown[k] && shown[k]->copies_told >> copy & 1) put_words(cells[k], shown[k]->copies[copy % 3], copy / 3); else cells[k][0] = 0;
        sprintf(name, "COPY %d %d %s", copy / 3 + 1, copy % 3 + 1, module_names[copy / 3]);
        add_row(name, cells);
    }
}

// Is a row that of a register which the emulator doesn't tell?
static int is_untold(const state *theirs, const row *r)
{
    for (int i = 0; theirs && i < 4; i++) if (theirs->untold >> i & 1 && strcmp(r->name, register_names[i]) == 0) return 1;
    return 0;
}

// Shows what both had before, what the machine has and what the emulator has.
static void show(const state *before, const state *ours, const state *theirs)
{
    const state *shown[3] = {before, ours, theirs};
    const char *const heads[] = {"before", "machine", "emulator"};
    int widths[4] = {0, 6, 7, 8};
    add_rows(shown);
    for (row *r = rows; r < rows + row_count; r++) {
        if ((int)strlen(r->name) + 2 > widths[0]) widths[0] = (int)strlen(r->name) + 2;
        for (int k = 0; k < 3; k++) if ((int)strlen(r->cells[k]) > widths[k + 1]) widths[k + 1] = (int)strlen(r->cells[k]);
    }
    printf("%*s  %-*s  %-*s  %s\n", widths[0], "", widths[1], heads[0], widths[2], heads[1], heads[2]);
    for (row *r = rows; r < rows + row_count; r++)
        printf("%s%-*s  %-*s  %-*s  %s\n", strcmp(r->cells[1], r->cells[2]) && !is_untold(theirs, r) ? "> " : "  ", widths[0] - 2, r->name, widths[1], r->cells[0], widths[2],
               r->cells[1], r->cells[2]);
}

static const char *where(int number)
{
    static char text[2][64];
    static int turn;
    char *put = text[turn ^= 1];
    if (kinds == REGISTERS) snprintf(put, sizeof *text, "after %d times", number);
    else snprintf(put, sizeof *text, "step %d (phase %c of time %d)", number, "ABC"[number % 3], number / 3);
    return put;
}

// ---- The report behind the steps

static int is_saved(void) { return input_size > 11 && memcmp(input, "LVDC SAVE 1", 11) == 0 && (input[11] == '\n' || input[11] == '\r'); }

// Compares what the emulator writes behind its line END, from TIMES on, with the machine's report: counts, repairs and log with their numbers,
// memory. The exit status.
static int compare_report(char *line)
{
    int status, count = 0;
    char theirs[LONGEST_LINE + 1];
    if (is_saved() && through) astray("the machine writes no report of a saved text through every fault");
    ask(is_saved() ? "resume" : kinds == REGISTERS ? "run --plain" : through ? "run --through" : "run", &status);
    next_line(&machine_lines);
    close(machine_lines.to);
    for (; line; line = next_line(&emulator_lines), count++) {
        snprintf(theirs, sizeof theirs, "%s", line);
        char *ours = next_line(&machine_lines);
        if (ours && strcmp(ours, theirs) == 0) continue;
        tell("the steps are the same, and the report isn't:\nmachine   %s\nemulator  %s", ours ? ours : "(has ended)", theirs);
        return 1;
    }
    char *ours = next_line(&machine_lines);
    if (ours) tell("the steps are the same, and the report isn't:\nmachine   %s\nemulator  (has ended)", ours);
    return ours != NULL;
}

// ---- The comparison

static void read_title(void)
{
    static const struct { const char *word; int kinds; } titles[] = {{"REGISTERS", REGISTERS}, {"EXCHANGES", EXCHANGES}, {"VOTES", VOTES}, {"TRACE", TRACE}};
    char *line = next_line(&emulator_lines), *rest = line && strncmp(line, "LVDC ", 5) == 0 ? line + 5 : "";
    for (size_t k = 0; k < sizeof titles / sizeof *titles; k++) {
        size_t length = strlen(titles[k].word);
        if (strncmp(rest, titles[k].word, length)) continue;
        through = strcmp(rest + length, " THROUGH") == 0;
        if (rest[length] == 0 || through) { kinds = titles[k].kinds; return; }
    }
    astray("the first line of the emulator is none of LVDC REGISTERS, EXCHANGES, VOTES and TRACE");
}

static int compare(void)
{
    static steps emulator = {&emulator_lines, 0, 0, 0, {0}, ""};
    static state ours, theirs, before;
    int count = 0, (*next)(state *) = kinds == REGISTERS ? next_time_of_machine : next_of_machine;
    const char *unit = kinds == REGISTERS ? "times" : "steps";
    emulator.kinds = kinds;
    for (; next_step(&emulator, &theirs); count++) {
        int has_more = next(&ours);
        if (!has_more) tell("%s: the machine has ended, and the emulator goes on", where(theirs.number));
        else if (is_same(&ours, &theirs)) { before = ours; continue; }
        else if (ours.number == theirs.number) tell("%s differs", where(ours.number));
        else tell("%s differs, told as %s", where(ours.number), where(theirs.number));
        show(count ? &before : NULL, has_more ? &ours : NULL, &theirs);
        return 1;
    }
    if (strcmp(emulator.last, "MORE") == 0) {
        tell("the first %d %s are the same, and there the emulator leaves off", count, unit);
        return 0;
    }
    if (next(&ours)) tell("after %d %s that are the same the machine goes on, and the emulator has %s", count, unit, emulator.last);
    else if (strcmp(emulator.last, machine.last))
        tell("after %d %s that are the same the machine has %s, and the emulator has %s", count, unit, machine.last, emulator.last);
    else {
        char *more = next_line(&emulator_lines);
        if (more && strncmp(more, "TIMES ", 6) != 0) tell("the emulator writes more after %s", emulator.last);
        else if (more && compare_report(more)) return 1;
        else return tell("all %d %s%s are the same; %s", count, unit, more ? " and the report" : "", emulator.last), 0;
    }
    return 1;
}

static void read_input(void)
{
    FILE *file = fopen(input_name, "rb");
    size_t room = 0;
    if (!file) astray("%s", strerror(errno));
    do {
        if (input_size == room) input = realloc(input, room = room ? 2 * room : 65536);
        if (!input) astray("no memory");
        input_size += fread(input + input_size, 1, room - input_size, file);
    } while (!feof(file) && !ferror(file));
    fclose(file);
}

static void end_both(void) { end(&machine_lines); end(&emulator_lines); }

int main(int words, char **word)
{
    if (words < 5) return fputs("usage: lockstep WORKER LIMIT INPUT COMMAND..\n", stderr), 2;
    signal(SIGPIPE, SIG_IGN);
    limit = atoi(word[2]);
    input_name = word[3];
    read_input();
    atexit(end_both);
    int given = open(input_name, O_RDONLY);
    start(&emulator_lines, "the emulator", word + 4, given);
    close(given);
    read_title();
    start(&machine_lines, "the worker", (char *[]){word[1], NULL}, -1);
    return compare();
}
