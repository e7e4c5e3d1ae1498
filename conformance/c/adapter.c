// See adapter.h.
#include "adapter.h"
#include <stdarg.h>
#include <stdio.h>
#include <stdlib.h>
#include <string.h>

enum { NONE = -1, NOT_COVERED = 64, MOST_TIMES = 1000000, LAST_STEP = 2999999, MOST_EVENTS = 65536, MOST_ORDERS = 16, LONGEST_LINE = 120, MOST_TOKENS = 64 };
enum { MOST_INPUT = 1048576, MOST_SAVED = 134217728, LONGEST_FRAME = 255 };
enum { MOST_SCRIPTS = 256, MOST_SCRIPTS_OF_A_STUDY = 65536, MOST_TIMES_OF_A_CAMPAIGN = 10000, MOST_ASKED = 100000000, NAMES = 1 << 17 };
enum { PLACE_FIELDS = 0377776004, DATA_FIELDS = 01772 };
enum { IMAGE, START, SIMPLEX, PORTS, FAULTS, ORDER, RUN, DEBUG, SECTIONS };

typedef struct { const char *text; int length; } span;
typedef struct { int time, port, reads; uint32_t word; } port_line;
typedef struct { int step, bank, at, twin, switched; } repair;
typedef struct { uint32_t *words; int size, taken; } words_list;

struct lvdc_board lvdc;
static const struct lvdc_core *plain;
static const struct lvdc_voted *voted;
static const char *const kinds[] = {"FLIP", "FORCE", "LAG", "DEAF", "DAMAGE", "STICK", "DEAD"};
static const int first_latch[] = {0, 2, 4, 5, 6, 8, 13, 15};

// The input, line by line, and the answer.
static const char *input;
static size_t input_size, input_at;
static int line_number;
static span line, tokens[MOST_TOKENS];
static int token_count;
static FILE *out;

// What a deck or a saved text says beside the board, the devices, the log and the repairs.
static int count, run_line, heading_lines[SECTIONS], order_count, unplugged[LVDC_PORTS], unplug_count, unplugs[LVDC_PORTS];
static char orders[MOST_ORDERS][LVDC_COPIES + 1];
static words_list held[LVDC_PORTS];
static port_line *port_lines;
static repair *repairs;
static int log_size, repair_count;

static void *grown(void *list, int size, size_t item)
{
    if (size & (size - 1)) return list;
    list = realloc(list, (size ? 2 * (size_t)size : 1) * item);
    if (!list) exit(9);
    return list;
}

// ---- What a core may ask

int lvdc_bank(int module) { return module / 2 + (lvdc.simplex[module / 2] ? 4 * (module & 1) : 0); }

static uint32_t with_parity(uint32_t syllable) { return syllable | (uint32_t)!__builtin_parity(syllable) << 13; }
uint32_t lvdc_code(uint32_t word) { return with_parity(word >> 13) << 14 | with_parity(word & 017777); }

static void hold_word(int port, uint32_t word)
{
    words_list *list = &held[port];
    list->words = grown(list->words, list->size, sizeof *list->words);
    list->words[list->size++] = word;
}

static uint32_t device_word(int port, int time)
{
    words_list *list = &held[port];
    if (port < 014) return list->taken < list->size ? list->words[list->taken++] : 0;
    if (port < 016) return list->size ? list->words[list->size - 1] : 0;
    return port == 016 ? (uint32_t)time : 0;
}

uint32_t lvdc_port(int port, int reads, uint32_t word)
{
    int time = lvdc.steps / 3, is_there = unplugged[port] > time;
    if (reads) word = is_there ? device_word(port, time) : 0;
    else if (is_there && port >= 014 && port != 016) {
        if (port < 016) held[port].size = 0;
        hold_word(port, word);
    }
    port_lines = grown(port_lines, log_size, sizeof *port_lines);
    port_lines[log_size++] = (port_line){time, port, reads, word};
    return word;
}

void lvdc_repair(int bank, int at, int twin, int switched)
{
    repairs = grown(repairs, repair_count, sizeof *repairs);
    repairs[repair_count++] = (repair){lvdc.steps, bank, at, twin, switched};
}

// ---- What is written. printf is slow, and traces and logs are long.

static void put_text(const char *text) { while (*text) putc_unlocked(*text++, out); }

static void put_number(uint32_t number, uint32_t base, int digits)
{
    char text[16];
    int count = 0;
    for (; number || digits > 0; number /= base, digits--) text[count++] = (char)('0' + number % base);
    while (count > 0) putc_unlocked(text[--count], out);
}

// Puts a text in which %d is a decimal, and %1 to %9 are octal numbers of so many digits, %0 of ten.
static void put(const char *form, ...)
{
    va_list given;
    va_start(given, form);
    for (; *form; form++) {
        if (*form != '%') { putc_unlocked(*form, out); continue; }
        form++;
        if (*form == 'd') put_number(va_arg(given, uint32_t), 10, 1);
        else put_number(va_arg(given, uint32_t), 8, *form == '0' ? 10 : *form - '0');
    }
    va_end(given);
}

static void put_place(int bank, int at) { put("%1 %2 %3", bank, at >> 8, at & 0377); }

// ---- Lines and tokens

static void read_from(const char *text, size_t size)
{
    input = text;
    input_size = size;
    input_at = 0;
    line_number = 0;
}

// Takes the next line; false where none is left.
static int next_line(void)
{
    if (input_at == input_size) return 0;
    const char *end = memchr(input + input_at, '\n', input_size - input_at);
    size_t length = end ? (size_t)(end - input) - input_at : input_size - input_at;
    line = (span){input + input_at, (int)length};
    if (end && length > 0 && line.text[length - 1] == '\r') line.length--;
    input_at += length + (end != NULL);
    line_number++;
    return 1;
}

static int is_blank(char c) { return c == ' ' || c == '\t'; }

static void cut_tokens(void)
{
    token_count = 0;
    for (int i = 0; i < line.length && token_count < MOST_TOKENS;) {
        int first = i;
        while (i < line.length && !is_blank(line.text[i])) i++;
        if (i > first) tokens[token_count++] = (span){line.text + first, i - first};
        while (i < line.length && is_blank(line.text[i])) i++;
    }
}

static int is_span(span s, const char *text) { return s.length == (int)strlen(text) && memcmp(s.text, text, (size_t)s.length) == 0; }
static int is_word(int index, const char *text) { return index < token_count && is_span(tokens[index], text); }
static int is_line(const char *text) { return is_span(line, text); }
static int is_skipped(void) { return token_count == 0 || line.text[0] == '*'; }

// An octal number of so many digits at most, below a bound; or NONE.
static int64_t octal(int index, int digits, int64_t below)
{
    if (index >= token_count || tokens[index].length > digits) return NONE;
    int64_t number = 0;
    for (int i = 0; i < tokens[index].length; i++) {
        if (tokens[index].text[i] < '0' || tokens[index].text[i] > '7') return NONE;
        number = 8 * number + tokens[index].text[i] - '0';
    }
    return number < below ? number : NONE;
}

// An octal number of exactly so many digits.
static int64_t exact(int index, int digits, int64_t below)
{
    return index < token_count && tokens[index].length == digits ? octal(index, digits, below) : NONE;
}

// A decimal without a needless zero, up to a greatest one; or NONE.
static int64_t decimal(int index, int64_t most)
{
    if (index >= token_count || tokens[index].length > 10 || (tokens[index].length > 1 && tokens[index].text[0] == '0')) return NONE;
    int64_t number = 0;
    for (int i = 0; i < tokens[index].length; i++) {
        if (tokens[index].text[i] < '0' || tokens[index].text[i] > '9') return NONE;
        number = 10 * number + tokens[index].text[i] - '0';
    }
    return number <= most ? number : NONE;
}

// Answers a refusal: its status.
static int refuse(int status, const char *cause, int number)
{
    put_text("REFUSED ");
    put_text(cause);
    put(" %d\n", number);
    return status;
}

// ---- Fault lines, orders, places

static int place_in(int index)
{
    int64_t pair = octal(index, 1, 4), sector = octal(index + 1, 2, 16), location = octal(index + 2, 3, 256);
    return pair < 0 || sector < 0 || location < 0 ? NONE : (int)(pair << 12 | sector << 8 | location);
}

static int read_steps(struct lvdc_event *e, int first, int last)
{
    int64_t from = decimal(first, LAST_STEP), to = decimal(last, LAST_STEP);
    e->first = (int)from;
    e->last = (int)to;
    return from >= 0 && to >= from;
}

static int read_masks(struct lvdc_event *e, int index, int digits, int with_value)
{
    int64_t below = digits == 9 ? 1 << 26 : 1 << 28, mask = octal(index, digits, below), value = with_value ? octal(index + 1, digits, below) : 0;
    e->mask = (uint32_t)mask;
    e->value = (uint32_t)value;
    return mask >= 0 && value >= 0;
}

// Reads the tokens of a fault line; false where it is none.
static int read_event(struct lvdc_event *e)
{
    static const int sizes[] = {7, 8, 5, 5, 7, 9, 5};
    memset(e, 0, sizeof *e);
    while (e->kind < LVDC_KINDS && !is_word(0, kinds[e->kind])) e->kind++;
    if (e->kind == LVDC_KINDS || token_count != sizes[e->kind]) return 0;
    if (e->kind <= LVDC_DEAF) {
        int64_t module = decimal(1, 7), copy = decimal(2, 3), latch = e->kind <= LVDC_FORCE ? decimal(5, 9) : 0;
        if (module < 1 || copy < 1 || latch < 0 || !read_steps(e, 3, 4)) return 0;
        e->copy = (int)(3 * (module - 1) + copy - 1);
        e->latch = first_latch[module - 1] + (int)latch;
        return e->latch < first_latch[module] && (e->kind > LVDC_FORCE || read_masks(e, 6, 9, e->kind == LVDC_FORCE));
    }
    e->twin = (int)decimal(1, 1);
    if (e->kind == LVDC_DEAD) {
        e->place = (int)octal(2, 1, 4) << 12;
        return e->twin >= 0 && e->place >= 0 && read_steps(e, 3, 4);
    }
    e->place = place_in(2);
    if (e->twin < 0 || e->place < 0 || !read_steps(e, 5, e->kind == LVDC_STICK ? 6 : 5)) return 0;
    return e->kind == LVDC_STICK ? read_masks(e, 7, 10, 1) : read_masks(e, 6, 10, 0);
}

static void add_event(struct lvdc_event e)
{
    lvdc.events = grown(lvdc.events, lvdc.event_count, sizeof *lvdc.events);
    lvdc.events[lvdc.event_count++] = e;
}

// Reads an order line; false where it is none.
static int read_order(void)
{
    int letters = 0;
    if (token_count != 1 || tokens[0].length != LVDC_COPIES) return 0;
    for (int i = 0; i < LVDC_COPIES; i++)
        if (tokens[0].text[i] >= 'A' && tokens[0].text[i] <= 'U') letters |= 1 << (tokens[0].text[i] - 'A');
    return letters == (1 << LVDC_COPIES) - 1;
}

static void add_order(void) { memcpy(orders[order_count++], tokens[0].text, LVDC_COPIES); }

// ---- Images

static int is_spaced(void)
{
    for (int i = 0; i < line.length; i++)
        if (line.text[i] == '\t' || (line.text[i] == ' ' && (i == 0 || i + 1 == line.length || line.text[i + 1] == ' '))) return 0;
    return line.length > 0;
}

static int read_simplex_line(void)
{
    int last = NONE, pairs[LVDC_PAIRS] = {0};
    if (!is_word(0, "SIMPLEX") || token_count < 2 || token_count > 5) return 0;
    for (int i = 1; i < token_count; i++) {
        int64_t pair = octal(i, 1, 4);
        if (pair <= last) return 0;
        last = (int)pair;
        pairs[pair] = 1;
    }
    for (int pair = 0; pair < LVDC_PAIRS; pair++) lvdc.simplex[pair] |= pairs[pair];
    return 1;
}

static void (*load_word)(int bank, int at, uint32_t word);
static int is_bank(int64_t bank) { return bank < 4 || lvdc.simplex[bank - 4]; }

static int read_image(void)
{
    if (!next_line() || !(is_line("LVDC 1") || is_line("LVDC 2"))) return refuse(4, "BadImageLine", line_number ? line_number : 1);
    int version = line.text[5] - '0', last = NONE, is_first = version == 2;
    if (version == 2) {
        if (!next_line()) return refuse(4, "BadImageLine", line_number + 1);
        cut_tokens();
        int64_t start = exact(1, 9, 1 << 27);
        if (!is_spaced() || token_count != 2 || !is_word(0, "START") || start < 0) return refuse(4, "BadImageLine", line_number);
        if (start >> 26 || start & 1) return refuse(4, "BadWord", line_number);
        lvdc.start = (uint32_t)start;
    }
    while (next_line()) {
        cut_tokens();
        if (is_line("END")) return 0;
        if (is_first && is_spaced() && read_simplex_line()) { is_first = 0; continue; }
        is_first = 0;
        int64_t bank = exact(0, 1, 8), sector = exact(1, 2, 16), location = exact(2, 3, 256), word = exact(3, 9, 1 << 27);
        if (!is_spaced() || token_count != 4 || bank < 0 || sector < 0 || location < 0 || word < 0 || !is_bank(bank))
            return refuse(4, "BadImageLine", line_number);
        int at = (int)(bank << 12 | sector << 8 | location);
        if (at <= last) return refuse(4, "AddressOrder", line_number);
        if (word >> 26) return refuse(4, "BadWord", line_number);
        last = at;
        load_word((int)bank, at & 07777, (uint32_t)word);
    }
    return refuse(4, "BadImageLine", line_number + 1);
}

// ---- Decks

static void bring_devices(void)
{
    for (int port = 0; port < LVDC_PORTS; port++) {
        unplugged[port] = port < 020 ? INT32_MAX : 0;
        held[port].size = held[port].taken = 0;
    }
}

static int is_unplugged(int64_t port) { return port > 017 || unplugged[port] != INT32_MAX; }

static int read_port_line(void)
{
    int64_t port = octal(1, 3, 256);
    if (is_word(0, "TAPE") && port >= 0 && token_count > 2) {
        for (int i = 2; i < token_count; i++) if (octal(i, 9, 1 << 26) < 0) return refuse(2, "BadLine", line_number);
        if (is_unplugged(port) || port > 013) return refuse(2, "NoDevice", line_number);
        for (int i = 2; i < token_count; i++) hold_word((int)port, (uint32_t)octal(i, 9, 1 << 26));
        return 0;
    }
    int64_t time = decimal(2, MOST_TIMES);
    if (!is_word(0, "UNPLUG") || token_count != 3 || port < 0 || time < 0) return refuse(2, "BadLine", line_number);
    if (is_unplugged(port)) return refuse(2, "NoDevice", line_number);
    unplugged[port] = (int)time;
    unplugs[unplug_count++] = (int)port;
    return 0;
}

// RUN's count has one to nine digits, leading zeros among them.
static int read_run_line(void)
{
    int64_t number = 0;
    if (token_count != 2 || tokens[1].length > 9) return refuse(2, "BadLine", line_number);
    for (int i = 0; i < tokens[1].length; i++) {
        if (tokens[1].text[i] < '0' || tokens[1].text[i] > '9') return refuse(2, "BadLine", line_number);
        number = 10 * number + tokens[1].text[i] - '0';
    }
    if (number > MOST_TIMES) return refuse(2, "CountTooLarge", line_number);
    count = (int)number;
    run_line = line_number;
    return 0;
}

static int read_heading(int section)
{
    int64_t start;
    switch (section) {
    case START:
        start = octal(1, 9, 1 << 26);
        if (token_count != 2 || start < 0) return refuse(2, "BadLine", line_number);
        lvdc.start = (uint32_t)start & ~1u;
        return 0;
    case SIMPLEX: return read_simplex_line() ? 0 : refuse(2, "BadLine", line_number);
    case RUN: return read_run_line();
    default: return token_count == 1 ? 0 : refuse(2, "BadLine", line_number);
    }
}

static int read_section_line(int section)
{
    struct lvdc_event e;
    if (section == PORTS) return read_port_line();
    if (section == FAULTS) {
        if (!read_event(&e)) return refuse(2, "BadLine", line_number);
        if (lvdc.event_count == MOST_EVENTS) return refuse(2, "TooManyEvents", line_number);
        add_event(e);
        return 0;
    }
    if (section != ORDER) return refuse(2, "BadSection", line_number);
    if (!read_order() || order_count == MOST_ORDERS) return refuse(2, "BadLine", line_number);
    add_order();
    return 0;
}

static int read_sections(void)
{
    static const char *const names[] = {"IMAGE", "START", "SIMPLEX", "PORTS", "FAULTS", "ORDER", "RUN", "DEBUG"};
    int section = IMAGE, status = 0;
    while (status == 0 && next_line()) {
        cut_tokens();
        if (line.length > LONGEST_LINE) return refuse(2, "BadLine", line_number);
        if (is_skipped() || section == DEBUG) continue;
        int word = START;
        while (word < SECTIONS && !is_word(0, names[word])) word++;
        if (word == SECTIONS) { status = read_section_line(section); continue; }
        if (word <= section) return refuse(2, "BadSection", line_number);
        section = word;
        heading_lines[section] = line_number;
        status = read_heading(section);
    }
    if (status == 0 && count == NONE) return refuse(2, "BadSection", line_number + 1);
    return status;
}

// Reads a deck: 0, the status of a refusal, or NOT_COVERED.
static int read_deck(void)
{
    int is_found = 0;
    while (!is_found && next_line()) {
        cut_tokens();
        if (line.length > LONGEST_LINE) return refuse(2, "BadLine", line_number);
        is_found = !is_skipped();
    }
    if (!is_found) return refuse(2, "NoProgram", line_number + 1);
    if (token_count == 1 && is_word(0, "SOURCE")) return NOT_COVERED;
    if (token_count != 1 || !is_word(0, "IMAGE")) return refuse(2, "NoProgram", line_number);
    size_t image_at = input_at;
    int image_line = line_number, has_end = 0;
    while (!has_end && next_line()) {
        cut_tokens();
        has_end = token_count == 1 && is_word(0, "END");
    }
    if (!has_end) return refuse(2, "BadSection", image_line);
    size_t image_end = input_at, size = input_size;
    // the image's own start and pairs stand before those of the deck, but the deck is judged first
    uint32_t start = lvdc.start = 016 | 1;
    int simplex[LVDC_PAIRS], status = read_sections();
    if (status) return status;
    start = lvdc.start;
    memcpy(simplex, lvdc.simplex, sizeof simplex);
    memset(lvdc.simplex, 0, sizeof lvdc.simplex);
    lvdc.start = 016;
    input_at = image_at;
    input_size = image_end;
    line_number = image_line;
    status = read_image();
    if (status == 0 && next_line()) status = refuse(4, "BadImageLine", line_number);
    input_size = size;
    if (!(start & 1)) lvdc.start = start;
    for (int pair = 0; pair < LVDC_PAIRS; pair++) lvdc.simplex[pair] |= simplex[pair];
    return status;
}

// ---- Saved texts

static int bad_save(void) { return refuse(2, "BadSave", line_number); }

// Takes the next line of a saved text, with its tokens; a line that is missing has none.
static void next_saved(void)
{
    if (!next_line()) { line = (span){"", 0}; line_number++; }
    cut_tokens();
    if (!is_spaced()) token_count = 0;
}

static int read_number_line(const char *word, int64_t most, int *number)
{
    int64_t found = decimal(1, most);
    *number = (int)found;
    return token_count == 2 && is_word(0, word) && found >= 0;
}

static int read_copies(void)
{
    uint32_t low[LVDC_LATCHES][3];
    for (int copy = 0; copy < LVDC_COPIES; copy++, next_saved()) {
        int module = copy / 3, first = first_latch[module], latches = first_latch[module + 1] - first;
        int64_t times = decimal(3, lvdc.steps);
        if (!is_word(0, "COPY") || token_count != 4 + latches || decimal(1, 7) != module + 1 || decimal(2, 3) != copy % 3 + 1 || times < 0) return 0;
        voted->set_count(copy, (unsigned)times);
        for (int i = 0; i < latches; i++) {
            int64_t word = exact(4 + i, 9, 1 << 26);
            if (word < 0) return 0;
            voted->set_latch(copy % 3, first + i, (uint32_t)word);
            low[first + i][copy % 3] = (uint32_t)word & 3;
        }
        for (int other = 0; (module == 0 || module == 6) && other < copy % 3; other++)
            if (low[first][other] & low[first][copy % 3]) return 0;
    }
    return 1;
}

static int read_cells(void)
{
    for (int last = NONE; is_word(0, "CELL"); next_saved()) {
        int64_t twin = octal(1, 1, 2), pair = exact(2, 1, 4), sector = exact(3, 2, 16), location = exact(4, 3, 256), cell = exact(5, 10, 1 << 28);
        if (token_count != 6 || twin < 0 || pair < 0 || sector < 0 || location < 0 || cell < 0 || cell == lvdc_code(0)) return 0;
        int key = (int)(twin << 14 | pair << 12 | sector << 8 | location);
        if (key <= last) return 0;
        last = key;
        voted->set_cell((int)twin, key & 037777, (uint32_t)cell);
    }
    return 1;
}

static int address_in(int index)
{
    int64_t bank = exact(index, 1, 8), sector = exact(index + 1, 2, 16), location = exact(index + 2, 3, 256);
    return bank < 0 || sector < 0 || location < 0 || !is_bank(bank) ? NONE : (int)(bank << 12 | sector << 8 | location);
}

static int read_words(void)
{
    for (int last = NONE; is_word(0, "WORD"); next_saved()) {
        int64_t word = exact(4, 9, 1 << 26);
        int at = address_in(1);
        if (token_count != 5 || at <= last || word <= 0) return 0;
        last = at;
        load_word(at >> 12, at & 07777, (uint32_t)word);
    }
    return 1;
}

static int read_log(void)
{
    for (int last = 0; is_word(0, "IN") || is_word(0, "OUT"); next_saved()) {
        int64_t time = decimal(1, MOST_TIMES), port = exact(2, 3, 256), word = exact(3, 9, 1 << 26);
        if (token_count != 4 || time < last || time >= lvdc.steps / 3 || port < 0 || word < 0) return 0;
        last = (int)time;
        port_lines = grown(port_lines, log_size, sizeof *port_lines);
        port_lines[log_size++] = (port_line){(int)time, (int)port, is_word(0, "IN"), (uint32_t)word};
    }
    return 1;
}

static int read_repairs(void)
{
    for (int last = NONE; is_word(0, "REPAIR"); next_saved()) {
        int64_t step = decimal(1, LAST_STEP), twin = octal(5, 1, 2);
        int at = address_in(2), switched = is_word(6, "SWITCH");
        if (token_count != 6 + switched || step <= last || step >= lvdc.steps || at < 0 || twin < 0) return 0;
        last = (int)step;
        repairs = grown(repairs, repair_count, sizeof *repairs);
        repairs[repair_count++] = (repair){(int)step, at >> 12, at & 07777, (int)twin, switched};
    }
    return 1;
}

// The words of devices and the UNPLUG lines: 0, or the status of a refusal.
static int read_devices(void)
{
    int first_state[LVDC_PORTS], last = 0;
    memset(first_state, 0, sizeof first_state);
    for (; is_word(0, "STATE"); next_saved()) {
        int64_t port = exact(1, 3, 256), word = exact(2, 9, 1 << 26);
        if (token_count != 3 || port < last || word < 0 || ((port == 014 || port == 015) && first_state[port])) return bad_save();
        if (port > 017 || port == 016) return refuse(2, "NoDevice", line_number);
        last = (int)port;
        if (!first_state[port]) first_state[port] = line_number;
        hold_word((int)port, (uint32_t)word);
    }
    for (; is_word(0, "UNPLUG"); next_saved()) {
        int64_t port = exact(1, 3, 256), time = decimal(2, MOST_TIMES);
        if (token_count != 3 || port < 0 || time < 0) return bad_save();
        if (is_unplugged(port)) return refuse(2, "NoDevice", line_number);
        if (time < lvdc.steps / 3 && first_state[port]) return refuse(2, "NoDevice", first_state[port]);
        unplugged[port] = (int)time;
        unplugs[unplug_count++] = (int)port;
    }
    return 0;
}

static void put_event(const struct lvdc_event *e);

// Is the line the one spelling of this event?
static int is_spelled(const struct lvdc_event *e)
{
    char *text;
    size_t size;
    FILE *answer = out;
    out = open_memstream(&text, &size);
    if (!out) exit(9);
    put_event(e);
    fclose(out);
    out = answer;
    int same = size == (size_t)line.length + 1 && memcmp(text, line.text, (size_t)line.length) == 0;
    free(text);
    return same;
}

static int read_saved(void)
{
    struct lvdc_event e;
    next_saved();
    if (!is_line("LVDC SAVE 1")) return bad_save();
    next_saved();
    if (!read_number_line("STEPS", LAST_STEP + 1, &lvdc.steps) || lvdc.steps % 3) return bad_save();
    next_saved();
    if (!read_number_line("COUNT", MOST_TIMES, &count) || lvdc.steps > 3 * count) return bad_save();
    next_saved();
    if (read_simplex_line()) next_saved();
    if (!read_copies()) return bad_save();
    if (!is_word(0, "SELECT") || token_count != 5) return bad_save();
    for (int pair = 0; pair < LVDC_PAIRS; pair++) {
        int64_t twin = octal(1 + pair, 1, 2);
        if (twin < 0) return bad_save();
        voted->select(pair, (int)twin);
    }
    next_saved();
    if (!read_cells() || !read_words() || !read_log() || !read_repairs()) return bad_save();
    int status = read_devices();
    if (status) return status;
    for (; read_event(&e) && is_spelled(&e); next_saved()) {
        if (lvdc.event_count == MOST_EVENTS) return bad_save();
        add_event(e);
    }
    for (; read_order() && line.length == LVDC_COPIES; next_saved()) {
        if (order_count == MOST_ORDERS) return bad_save();
        add_order();
    }
    if (!is_line("END") || order_count == 0) return bad_save();
    if (next_line()) return bad_save();
    return 0;
}

// Goes to the last place of a sector that begins here, where nothing is in it. `at` counts over all banks from this one.
static int skips_sector(int (*is_unused)(int bank, int sector), int bank, int *at)
{
    if (*at & 0377 || !is_unused || !is_unused(bank + (*at >> 12), *at >> 8 & 15)) return 0;
    *at |= 0377;
    return 1;
}

// ---- The voted machine at its start

static void set_start(void)
{
    for (int copy = 0; copy < 3; copy++) {
        voted->set_latch(copy, first_latch[1], lvdc.start & PLACE_FIELDS);
        voted->set_latch(copy, first_latch[3], lvdc.start & DATA_FIELDS);
    }
    for (int bank = 0; bank < LVDC_BANKS; bank++)
        for (int at = 0; at < LVDC_WORDS; at++) {
            int pair = bank & 3, own = lvdc.simplex[pair] ? bank : pair;
            if (skips_sector(voted->is_unused, own, &at)) continue;
            uint32_t word = voted->word(own, at);
            if (word) voted->set_cell(bank >> 2, pair << 12 | at, lvdc_code(word));
        }
}

// ---- Reports

static uint32_t vote_of(int latch)
{
    uint32_t one = voted->latch(0, latch), two = voted->latch(1, latch), three = voted->latch(2, latch);
    return (one & two) | (one & three) | (two & three);
}

// Registers of the machine that ran: of the plain core where `is_plain`.
static uint32_t register_of(int which, int is_plain)
{
    if (is_plain) return plain->get(which);
    switch (which) {
    case LVDC_A: return vote_of(6);
    case LVDC_PQ: return vote_of(8);
    case LVDC_SAVER: return vote_of(3);
    default: return (vote_of(2) & PLACE_FIELDS) | (vote_of(5) & DATA_FIELDS);
    }
}

static void put_end(void)
{
    int step = lvdc.steps - (lvdc.end == LVDC_SHIFT || lvdc.end == LVDC_EXM);
    switch (lvdc.end) {
    case LVDC_GOES_ON: put("END DONE\n"); break;
    case LVDC_SHIFT: put("END STOPPED %d SHIFT\n", step); break;
    case LVDC_EXM: put("END STOPPED %d EXM\n", step); break;
    case LVDC_BAD_LOGIC: put("END INADMISSIBLE %d LOGIC %d\n", step, lvdc.end_module); break;
    default:
        put_text(lvdc.end == LVDC_NO_GOOD_CELL ? "END STOPPED " : "END INADMISSIBLE ");
        put("%d MEMORY ", step);
        put_place(lvdc.end_bank, lvdc.end_at);
        put("\n");
    }
}

static int status_now(void) { return lvdc.end == LVDC_GOES_ON ? 0 : lvdc.end < LVDC_BAD_LOGIC ? 6 : 5; }

static void put_memory(int is_plain)
{
    for (int bank = 0; bank < LVDC_BANKS; bank++)
        for (int at = 0; at < LVDC_WORDS && is_bank(bank); at++) {
            if (skips_sector(is_plain ? plain->is_unused : voted->is_unused, bank, &at)) continue;
            uint32_t word = is_plain ? plain->word(bank, at) : voted->word(bank, at);
            int known = is_plain || voted->is_known(bank, at);
            if (known && !word) continue;
            put("MEM ");
            put_place(bank, at);
            put(known ? " %9\n" : " ?\n", word);
        }
}

static void put_log(void)
{
    for (port_line *l = port_lines; l < port_lines + log_size; l++) put(l->reads ? "IN %d %3 %9\n" : "OUT %d %3 %9\n", l->time, l->port, l->word);
}

static void put_repairs(void)
{
    for (repair *r = repairs; r < repairs + repair_count; r++) {
        put("REPAIR %d ", r->step);
        put_place(r->bank, r->at);
        put(r->switched ? " %d SWITCH\n" : " %d\n", r->twin);
    }
}

// The lines of a report after END.
static void put_rest(int is_plain)
{
    uint32_t place = register_of(LVDC_PLACE, is_plain);
    put("TIMES %d\nPLACE %1 %2 %1 %3\n", lvdc.steps / 3, place >> 23 & 7, place >> 19 & 15, place >> 18 & 1, place >> 10 & 0377);
    put("DATA %1 %2\nDUP %1 %1\n", place >> 7 & 7, place >> 3 & 15, place >> 2 & 1, place >> 1 & 1);
    put("A %9\nPQ %9\nSAVER %9\n", register_of(LVDC_A, is_plain), register_of(LVDC_PQ, is_plain), register_of(LVDC_SAVER, is_plain));
    put_log();
    put_memory(is_plain);
    for (int copy = 0; !is_plain && copy < LVDC_COPIES; copy++)
        if (voted->count(copy)) put("WRONG %d %d %d\n", copy / 3 + 1, copy % 3 + 1, voted->count(copy));
    put_repairs();
}

static int put_report(const char *title, int is_plain)
{
    put_text(title);
    put_end();
    put_rest(is_plain);
    return status_now();
}

// ---- Runs

static void run_plain(int until)
{
    if (plain->run) { lvdc.end = plain->run(until - lvdc.steps / 3); return; }
    while (lvdc.steps < 3 * until && lvdc.end == LVDC_GOES_ON) {
        lvdc.end = plain->run_time();
        lvdc.steps += 3;
    }
}

static void run_voted(int way, int until)
{
    struct lvdc_exchange exchanged;
    if (voted->run) { lvdc.end = voted->run(way, until - lvdc.steps); return; }
    while (lvdc.steps < until && lvdc.end == LVDC_GOES_ON) lvdc.end = voted->step(way, &exchanged);
}

static void start_plain(void) { plain->set(LVDC_PLACE, lvdc.start & (PLACE_FIELDS | DATA_FIELDS)); }

static void start_voted(int is_saved)
{
    if (!is_saved) set_start();
    voted->begin();
}

// ---- Traces and registers

static uint32_t votes[LVDC_LATCHES], before[LVDC_LATCHES];

static void note_votes(void)
{
    memcpy(before, votes, sizeof before);
    for (int i = 0; i < LVDC_LATCHES; i++) votes[i] = vote_of(i);
}

static void put_latches(int module, int copy)
{
    for (int i = first_latch[module]; i < first_latch[module + 1]; i++) put(" %9", copy == NONE ? votes[i] : voted->latch(copy, i));
    put("\n");
}

static void put_exchange(struct lvdc_exchange x)
{
    static const char *const names[] = {"", "FETCH ", "OPERAND ", "STORE ", "OUT ", "IN "};
    if (x.kind == LVDC_NOTHING) return;
    put_text(names[x.kind]);
    if (x.kind < LVDC_OUT) put_place(x.bank, x.at); else put("%3", x.at);
    put(" %9\n", x.word);
}

static int is_wrong_in(int copy, int step)
{
    for (struct lvdc_event *e = lvdc.events; e < lvdc.events + lvdc.event_count; e++)
        if (e->kind <= LVDC_DEAF && e->copy == copy && e->first <= step && step <= e->last) return 1;
    return 0;
}

static void put_step(int step, int is_first, struct lvdc_exchange x, int repaired)
{
    put("STEP %d\n", step);
    put_exchange(x);
    for (repair *r = repairs + repaired; r < repairs + repair_count; r++) {
        put("REPAIR ");
        put_place(r->bank, r->at);
        put(r->switched ? " %d SWITCH\n" : " %d\n", r->twin);
    }
    for (int copy = 0; lvdc.event_count && copy < LVDC_COPIES; copy++)
        if (is_wrong_in(copy, step)) put("FAULT %d %d\n", copy / 3 + 1, copy % 3 + 1);
    for (int module = 0; module < 7; module++) {
        int first = first_latch[module];
        size_t size = (size_t)(first_latch[module + 1] - first) * sizeof *votes;
        if (!is_first && memcmp(votes + first, before + first, size) == 0) continue;
        put("VOTE %d", module + 1);
        put_latches(module, NONE);
    }
    for (int copy = 0; copy < LVDC_COPIES; copy++)
        for (int i = first_latch[copy / 3]; i < first_latch[copy / 3 + 1]; i++)
            if (voted->latch(copy % 3, i) != votes[i]) {
                put("COPY %d %d", copy / 3 + 1, copy % 3 + 1);
                put_latches(copy / 3, copy % 3);
                break;
            }
}

// Steps from the first to before the last one, as far as they are made; with the report behind it where that is wanted.
static int put_trace(int way, int first, int last, int with_report)
{
    put_text(way == LVDC_THROUGH ? "LVDC TRACE THROUGH\n" : "LVDC TRACE\n");
    if (first < lvdc.steps) { last += lvdc.steps - first; first = lvdc.steps; }
    if (last > 3 * count) last = 3 * count;
    note_votes();
    while (lvdc.steps < last && lvdc.end == LVDC_GOES_ON) {
        struct lvdc_exchange x;
        int step = lvdc.steps, repaired = repair_count;
        if (step < first) { run_voted(way, first < last ? first : last); note_votes(); continue; }
        lvdc.end = voted->step(way, &x);
        note_votes();
        if (lvdc.steps > step) put_step(step, step == first, x, repaired);
    }
    if (lvdc.end == LVDC_GOES_ON && lvdc.steps < 3 * count) put("MORE\n"); else put_end();
    if (with_report) put_rest(0);
    return status_now();
}

static int put_registers(void)
{
    put("LVDC REGISTERS\n");
    while (lvdc.steps < 3 * count && lvdc.end == LVDC_GOES_ON) {
        run_plain(lvdc.steps / 3 + 1);
        put("TIME %d %9 %9 %9 %9\n", lvdc.steps / 3, plain->get(LVDC_A), plain->get(LVDC_PQ), plain->get(LVDC_PLACE), plain->get(LVDC_SAVER));
    }
    put_end();
    return status_now();
}

// ---- Saved texts that are written

static void put_event(const struct lvdc_event *e)
{
    put_text(kinds[e->kind]);
    if (e->kind <= LVDC_DEAF) put(" %d %d %d %d", e->copy / 3 + 1, e->copy % 3 + 1, e->first, e->last);
    else if (e->kind == LVDC_DEAD) put(" %d %1 %d %d", e->twin, e->place >> 12, e->first, e->last);
    else {
        put(" %d ", e->twin);
        put_place(e->place >> 12, e->place & 07777);
        put(e->kind == LVDC_STICK ? " %d %d" : " %d", e->first, e->last);
    }
    if (e->kind <= LVDC_FORCE) put(" %d %9", e->latch - first_latch[e->copy / 3], e->mask);
    if (e->kind == LVDC_FORCE) put(" %9", e->value);
    if (e->kind == LVDC_DAMAGE || e->kind == LVDC_STICK) put(" %0", e->mask);
    if (e->kind == LVDC_STICK) put(" %0", e->value);
    put("\n");
}

static void put_states(void)
{
    for (int port = 0; port < 020; port++) {
        words_list *list = &held[port];
        if (unplugged[port] < lvdc.steps / 3 || port == 016) continue;
        if ((port == 014 || port == 015) && list->size == 0) put("STATE %3 000000000\n", port);
        for (int i = list->taken; i < list->size; i++) put("STATE %3 %9\n", port, list->words[i]);
    }
}

static int put_saved(void)
{
    int has_simplex = 0;
    put("LVDC SAVE 1\nSTEPS %d\nCOUNT %d\n", lvdc.steps, count);
    for (int pair = 0; pair < LVDC_PAIRS; pair++)
        if (lvdc.simplex[pair]) { put(has_simplex ? " %d" : "SIMPLEX %d", pair); has_simplex = 1; }
    if (has_simplex) put("\n");
    for (int copy = 0; copy < LVDC_COPIES; copy++) {
        put("COPY %d %d %d", copy / 3 + 1, copy % 3 + 1, voted->count(copy));
        put_latches(copy / 3, copy % 3);
    }
    put("SELECT %d %d %d %d\n", voted->selected(0), voted->selected(1), voted->selected(2), voted->selected(3));
    for (int at = 0; at < 2 * LVDC_PAIRS * LVDC_WORDS; at++) {
        int twin = at >> 14, place = at & 037777;
        if (skips_sector(voted->is_unused, 0, &at)) continue;
        if (voted->cell(twin, place) == lvdc_code(0)) continue;
        put("CELL %d ", twin);
        put_place(place >> 12, place & 07777);
        put(" %0\n", voted->cell(twin, place));
    }
    for (int at = 0; at < LVDC_BANKS * LVDC_WORDS; at++) {
        if (skips_sector(voted->is_unused, 0, &at)) continue;
        if (!is_bank(at >> 12) || !voted->word(at >> 12, at & 07777)) continue;
        put("WORD ");
        put_place(at >> 12, at & 07777);
        put(" %9\n", voted->word(at >> 12, at & 07777));
    }
    put_log();
    put_repairs();
    put_states();
    for (int i = 0; i < unplug_count; i++) put("UNPLUG %3 %d\n", unplugs[i], unplugged[unplugs[i]]);
    for (int i = 0; i < lvdc.event_count; i++) put_event(&lvdc.events[i]);
    for (int i = 0; i < order_count; i++) { put_text(orders[i]); put("\n"); }
    if (order_count == 0) put("ABCDEFGHIJKLMNOPQRSTU\n");
    put("END\n");
    return 0;
}

// ---- Commands

static void clear(void)
{
    free(lvdc.events);
    memset(&lvdc, 0, sizeof lvdc);
    log_size = repair_count = order_count = unplug_count = 0;
    count = run_line = NONE;
    memset(heading_lines, 0, sizeof heading_lines);
    free(port_lines);
    free(repairs);
    port_lines = NULL;
    repairs = NULL;
    memset(orders, 0, sizeof orders);
    bring_devices();
    if (plain) plain->clear();
    if (voted) voted->clear();
}

// Is the input a saved text? Its first line says so.
static int saves(void)
{
    if (input_size < 11 || memcmp(input, "LVDC SAVE 1", 11) != 0) return 0;
    return input_size == 11 || input[11] == '\n' || (input_size > 12 && input[11] == '\r' && input[12] == '\n');
}

// A run over a deck by the plain core: `run --plain`, and where no voted core is there, runs without faults.
static int answer_plain(const char *title, int with_registers)
{
    load_word = plain->load;
    int status = read_deck();
    if (status) return status;
    if (!with_registers && strcmp(title, "LVDC PLAIN\n") && lvdc.event_count) return NOT_COVERED;
    start_plain();
    if (with_registers) return put_registers();
    run_plain(count);
    return put_report(title, 1);
}

// A run over a deck or a saved text by the voted core: a report, a trace from a first step on where one is named, or both.
static int answer_voted(const char *title, int way, int first, int told, int with_report)
{
    int is_saved = first != NONE && way == LVDC_GUARDED && saves();
    load_word = voted->load;
    int status = is_saved ? read_saved() : read_deck();
    if (status) return status;
    start_voted(is_saved);
    if (first != NONE) return put_trace(way, first, first + told, with_report);
    run_voted(way, 3 * count);
    return put_report(title, 0);
}

static int answer_saved(void)
{
    load_word = voted->load;
    int status = read_saved();
    if (status) return status;
    start_voted(1);
    run_voted(LVDC_GUARDED, 3 * count);
    return put_report("LVDC RUN\n", 0);
}

static int answer_save(int times)
{
    load_word = voted->load;
    int status = read_deck();
    if (status) return status;
    if (times > count) return refuse(2, "CountTooLarge", run_line);
    start_voted(0);
    run_voted(LVDC_GUARDED, 3 * times);
    note_votes();
    return lvdc.end ? put_report("LVDC RUN\n", 0) : put_saved();
}

// ---- Forms

// Does an event act in the run at all?
static int begins(const struct lvdc_event *e) { return e->first < 3 * count; }

static int bits_of(uint32_t half) { return __builtin_popcount(half & 037777); }

static int is_of_a_cell(const struct lvdc_event *e) { return e->kind == LVDC_DAMAGE || e->kind == LVDC_STICK; }

// May two events both stand in a script of a form: 0, or the condition that they don't meet?
static int condition_of_two(const struct lvdc_event *a, const struct lvdc_event *b)
{
    if (a->kind <= LVDC_DEAF && b->kind <= LVDC_DEAF)
        return a->copy / 3 == b->copy / 3 && a->copy != b->copy && a->first <= b->last && b->first <= a->last ? 1 : 0;
    if (a->kind <= LVDC_DEAF || b->kind <= LVDC_DEAF) return 0;
    if (is_of_a_cell(a) && is_of_a_cell(b)) return a->place == b->place ? 3 : 0;
    return a->place >> 12 == b->place >> 12 && a->twin != b->twin ? 4 : 0;
}

// May an event stand in a script of a form: 0, or the least condition that it doesn't meet?
static int condition_of_one(const struct lvdc_event *e)
{
    int low = bits_of(e->mask), high = bits_of(e->mask >> 14);
    if (e->kind <= LVDC_DEAF) return 0;
    if (lvdc.simplex[e->place >> 12]) return 2;
    if (e->kind == LVDC_DAMAGE) return (low | high) & 1 ? 0 : 3;
    if (e->kind == LVDC_STICK) return low > 1 || high > 1 ? 3 : 0;
    return e->last < 3 * count - 1 ? 4 : 0;
}

static int lesser(int one, int other) { return one == 0 || (other && other < one) ? other : one; }

// The least condition that the script doesn't meet; 0 where it masks by form.
static int unmet_condition(void)
{
    int least = 0;
    for (struct lvdc_event *e = lvdc.events; e < lvdc.events + lvdc.event_count; e++) {
        if (!begins(e)) continue;
        least = lesser(least, condition_of_one(e));
        for (struct lvdc_event *other = lvdc.events; other < e; other++)
            if (begins(other)) least = lesser(least, condition_of_two(e, other));
    }
    return least;
}

static int answer_form(void)
{
    load_word = voted->load;
    int status = read_deck();
    if (status) return status;
    int least = unmet_condition();
    put(least ? "FORM NO %d\n" : "FORM YES\n", least);
    return 0;
}

// ---- Campaigns and studies

typedef struct { char name[9]; int first, size; } script;
typedef struct { int end, step, log_size; port_line *log; uint32_t registers[4], words[LVDC_BANKS][LVDC_WORDS]; } result;

static script *scripts;
static struct lvdc_event *script_events;
static int script_count, script_event_count;
static uint64_t names[NAMES], name_places[MOST_SCRIPTS_OF_A_STUDY + 1];
static int name_count;

// Goes behind the line CAMPAIGN; where that line begins, or where the input ends.
static size_t find_campaign(void)
{
    int has_end = 0;
    size_t at = input_at;
    for (; next_line(); at = input_at) {
        cut_tokens();
        if (has_end && line.length <= LONGEST_LINE && token_count == 1 && is_word(0, "CAMPAIGN")) return at;
        if (token_count == 1 && is_word(0, "END")) has_end = 1;
    }
    return input_size;
}

// Keeps the name of a script; false where it is none, or known.
static int keep_name(span name)
{
    uint64_t key = 0, at;
    if (name.length > 8 || name.text[0] < 'A' || name.text[0] > 'Z') return 0;
    for (int i = 0; i < name.length; i++) {
        if (!((name.text[i] >= 'A' && name.text[i] <= 'Z') || (name.text[i] >= '0' && name.text[i] <= '9'))) return 0;
        key = key << 8 | (unsigned char)name.text[i];
    }
    for (at = key * 0x9e3779b97f4a7c15 >> 47; names[at]; at = (at + 1) % NAMES) if (names[at] == key) return 0;
    names[at] = key;
    name_places[name_count++] = at;
    return 1;
}

static int read_scripts(int most)
{
    struct lvdc_event e;
    script_count = script_event_count = 0;
    while (name_count > 0) names[name_places[--name_count]] = 0;
    while (next_line()) {
        cut_tokens();
        if (line.length > LONGEST_LINE) return refuse(2, "BadLine", line_number);
        if (is_skipped()) continue;
        if (is_word(0, "SCRIPT")) {
            if (token_count != 2 || !keep_name(tokens[1])) return refuse(2, "BadLine", line_number);
            if (script_count == most) return refuse(2, "TooManyScripts", line_number);
            scripts = grown(scripts, script_count, sizeof *scripts);
            script *s = &scripts[script_count++];
            memset(s, 0, sizeof *s);
            memcpy(s->name, tokens[1].text, (size_t)tokens[1].length);
            s->first = script_event_count;
            continue;
        }
        if (script_count == 0 || !read_event(&e)) return refuse(2, "BadLine", line_number);
        if (script_event_count == MOST_EVENTS) return refuse(2, "TooManyEvents", line_number);
        script_events = grown(script_events, script_event_count, sizeof *script_events);
        script_events[script_event_count++] = e;
        scripts[script_count - 1].size++;
    }
    return 0;
}

// Reads a campaign or a study, whose deck ends at a place: 0, or the status of a refusal.
static int read_campaign(int is_study, size_t *deck_end)
{
    size_t size = input_size, behind;
    int found = 0, number;
    *deck_end = find_campaign();
    behind = input_at;
    number = line_number;
    read_from(input, *deck_end);
    load_word = voted->load;
    int status = read_deck();
    if (status) return status;
    for (int section = PORTS; section <= DEBUG; section++)
        if (heading_lines[section] && (section == FAULTS || section == DEBUG || (section == PORTS && !is_study)) && (!found || heading_lines[section] < found))
            found = heading_lines[section];
    if (found) return refuse(2, "BadSection", found);
    if (!is_study && count > MOST_TIMES_OF_A_CAMPAIGN) return refuse(2, "CountTooLarge", run_line);
    input_size = size;
    input_at = behind;
    line_number = number;
    if (*deck_end == size) return refuse(2, "BadSection", number + 1);
    status = read_scripts(is_study ? MOST_SCRIPTS_OF_A_STUDY : MOST_SCRIPTS);
    if (status == 0 && is_study && (int64_t)count * script_count > MOST_ASKED) return refuse(2, "CountTooLarge", run_line);
    return status;
}

// Makes all ready for a run of the deck that ends at a place, under a script or none.
static void open_run(size_t deck_end, const script *s, int is_study, void (*load)(int, int, uint32_t))
{
    clear();
    load_word = load;
    read_from(input, deck_end);
    read_deck();
    for (int i = 0; s && i < s->size; i++) add_event(script_events[s->first + i]);
    for (int port = 0; !is_study && port < LVDC_PORTS; port++) unplugged[port] = 0;
}

static void run_healthy(size_t deck_end, int is_study, result *healthy)
{
    static const int which[] = {LVDC_A, LVDC_PQ, LVDC_SAVER, LVDC_PLACE};
    open_run(deck_end, NULL, is_study, plain->load);
    start_plain();
    run_plain(count);
    healthy->end = lvdc.end;
    healthy->step = lvdc.steps;
    healthy->log_size = log_size;
    healthy->log = port_lines;
    port_lines = NULL;
    for (int i = 0; i < 4; i++) healthy->registers[i] = register_of(which[i], 1);
    for (int bank = 0; bank < LVDC_BANKS; bank++) for (int at = 0; at < LVDC_WORDS; at++) healthy->words[bank][at] = plain->word(bank, at);
}

static int time_in(const port_line *log, int size, int index) { return index < size ? log[index].time : INT32_MAX; }

// Puts what the run through every fault has come to otherwise than the healthy one; true where that is nothing.
static int put_outcome(const result *healthy, int is_study)
{
    static const int which[] = {LVDC_A, LVDC_PQ, LVDC_SAVER, LVDC_PLACE};
    int index = 0, bank = 0, at = 0, registers = 1;
    const char *differs = is_study ? " DIFFERS " : " DIFFERS";
    if (lvdc.end != healthy->end || (lvdc.end != LVDC_GOES_ON && lvdc.steps != healthy->step)) {
        put_text(differs);
        if (is_study) put_text("END");
        return 0;
    }
    while (index < log_size && index < healthy->log_size && memcmp(&port_lines[index], &healthy->log[index], sizeof *port_lines) == 0) index++;
    if (index < log_size || index < healthy->log_size) {
        int one = time_in(port_lines, log_size, index), other = time_in(healthy->log, healthy->log_size, index);
        put_text(differs);
        if (is_study) put("PORT %d", one < other ? one : other);
        return 0;
    }
    for (int i = 0; i < 4; i++) registers &= register_of(which[i], 0) == healthy->registers[i];
    if (!registers) {
        put_text(differs);
        if (is_study) put_text("REGISTERS");
        return 0;
    }
    for (bank = 0; bank < LVDC_BANKS; bank++)
        for (at = 0; at < LVDC_WORDS && is_bank(bank); at++)
            if (voted->word(bank, at) != healthy->words[bank][at]) {
                put_text(differs);
                if (is_study) { put_text("WORDS "); put_place(bank, at); }
                return 0;
            }
    put_text(" SAME");
    return 1;
}

// Puts the row of a script, and adds what it is to the counts: admissible, the same, masking by form.
static void put_row(size_t deck_end, const script *s, int is_study, const result *healthy, int *counts)
{
    open_run(deck_end, s, is_study, voted->load);
    start_voted(0);
    run_voted(LVDC_GUARDED, 3 * count);
    put_text("SCRIPT ");
    put_text(s->name);
    if (lvdc.end == LVDC_BAD_LOGIC) put(" LOGIC %d %d", lvdc.steps, lvdc.end_module);
    else if (lvdc.end == LVDC_BAD_MEMORY) { put(" MEMORY %d ", lvdc.steps); put_place(lvdc.end_bank, lvdc.end_at); }
    else { put_text(" ADMISSIBLE"); counts[0]++; }
    open_run(deck_end, s, is_study, voted->load);
    start_voted(0);
    run_voted(LVDC_THROUGH, 3 * count);
    counts[1] += put_outcome(healthy, is_study);
    if (is_study) {
        uint32_t differed = 0;
        int masks = unmet_condition() == 0;
        for (int copy = 0; copy < LVDC_COPIES; copy++) differed += voted->count(copy);
        put(" COPIES %d REPAIRS %d ", differed, repair_count);
        if (repair_count) put("%d", repairs[0].step); else put("-");
        put_text(masks ? " FORM YES" : " FORM NO");
        counts[2] += masks;
    }
    put("\n");
}

static int answer_campaign(int is_study)
{
    static result healthy;
    size_t deck_end;
    int counts[3] = {0};
    int status = read_campaign(is_study, &deck_end);
    if (status) return status;
    int asked = script_count;
    run_healthy(deck_end, is_study, &healthy);
    for (int i = 0; i < asked; i++) put_row(deck_end, &scripts[i], is_study, &healthy, counts);
    free(healthy.log);
    put(is_study ? "STUDY %d ADMISSIBLE %d SAME %d" : "CAMPAIGN %d ADMISSIBLE %d SAME %d", asked, counts[0], counts[1]);
    if (is_study) put(" FORM %d", counts[2]);
    put("\n");
    return 0;
}

static int is(int words, char **word, int size, const char *first, const char *second)
{
    return words == size && strcmp(word[0], first) == 0 && (!second || strcmp(word[1], second) == 0);
}

static int number_of(const char *text, int digits, int leading_zeros, int most)
{
    size_t length = strlen(text);
    if (length == 0 || length > (size_t)digits || strspn(text, "0123456789") != length) return NONE;
    if (!leading_zeros && length > 1 && text[0] == '0') return NONE;
    long number = strtol(text, NULL, 10);
    return number <= most ? (int)number : NONE;
}

static int answer_trace(int words, char **word, int with_report)
{
    int through = words > 1 && strcmp(word[1], "--through") == 0, way = through ? LVDC_THROUGH : LVDC_GUARDED;
    if (with_report) return words == 1 + through ? answer_voted(NULL, way, 0, 3 * MOST_TIMES, 1) : NOT_COVERED;
    int first = words == 3 + through ? number_of(word[1 + through], 7, 0, 3 * MOST_TIMES) : NONE;
    int told = words == 3 + through ? number_of(word[2 + through], 6, 0, 100000) : NONE;
    return first == NONE || told < 1 ? NOT_COVERED : answer_voted(NULL, way, first, told, 0);
}

// Answers a request: a status.
static int answer(int words, char **word)
{
    clear();
    if (words == 0) return NOT_COVERED;
    if (input_size > (strcmp(word[0], "resume") ? MOST_INPUT : MOST_SAVED) && strcmp(word[0], "soak")) { put("REFUSED TooLong\n"); return 11; }
    if (is(words, word, 2, "run", "--plain")) return plain ? answer_plain("LVDC PLAIN\n", 0) : NOT_COVERED;
    if (is(words, word, 1, "registers", NULL)) return plain ? answer_plain(NULL, 1) : NOT_COVERED;
    if (is(words, word, 1, "run", NULL)) return voted ? answer_voted("LVDC RUN\n", LVDC_GUARDED, NONE, 0, 0) : answer_plain("LVDC RUN\n", 0);
    if (is(words, word, 2, "run", "--through"))
        return voted ? answer_voted("LVDC THROUGH\n", LVDC_THROUGH, NONE, 0, 0) : answer_plain("LVDC THROUGH\n", 0);
    if (!voted) return NOT_COVERED;
    if (is(words, word, 1, "form", NULL)) return answer_form();
    if (is(words, word, 1, "campaign", NULL) || is(words, word, 1, "study", NULL)) return plain ? answer_campaign(word[0][0] == 's') : NOT_COVERED;
    if (strcmp(word[0], "trace") == 0) return answer_trace(words, word, 0);
    if (strcmp(word[0], "whole") == 0) return answer_trace(words, word, 1);
    if (is(words, word, 1, "resume", NULL)) return answer_saved();
    int times = is(words, word, 2, "save", NULL) ? number_of(word[1], 7, 1, 9999999) : NONE;
    return times == NONE ? NOT_COVERED : answer_save(times);
}

static char *read_all(FILE *from, size_t *size)
{
    char *text = NULL;
    size_t room = 0;
    *size = 0;
    do {
        if (*size == room) text = realloc(text, room = room ? 2 * room : 65536);
        if (!text) exit(9);
        *size += fread(text + *size, 1, room - *size, from);
    } while (!feof(from) && !ferror(from));
    return text;
}

void lvdc_use(const struct lvdc_core *core, const struct lvdc_voted *machine)
{
    plain = core;
    voted = machine;
}

int lvdc_answer(int words, char **word, const char *given, size_t size, char **text, size_t *length)
{
    read_from(given, size);
    out = open_memstream(text, length);
    if (!out) exit(9);
    int status = answer(words, word);
    fclose(out);
    return status;
}

// Answers frames, one after another.
static int serve(void)
{
    char head[LONGEST_FRAME + 2], *word[9];
    while (fgets(head, sizeof head, stdin)) {
        char *text, *given, *rest, *token = strtok(head, " \n");
        size_t size, length;
        int words = 0;
        if (!token || strcmp(token, "REQUEST") || !(token = strtok(NULL, " \n"))) return 2;
        length = strtoul(token, &rest, 10);
        while (words < 9 && (token = strtok(NULL, " \n"))) word[words++] = token;
        if (*rest || words == 0 || words == 9 || !(given = malloc(length + 1))) return 2;
        if (fread(given, 1, length, stdin) != length) return 2;
        int status = lvdc_answer(words, word, given, length, &text, &size);
        printf("REPLY %d %zu\n", status, size);
        fwrite(text, 1, size, stdout);
        fflush(stdout);
        free(text);
        free(given);
    }
    return 0;
}

int lvdc_main(int words, char **word, const struct lvdc_core *core, const struct lvdc_voted *machine)
{
    static char buffer[1 << 16];
    lvdc_use(core, machine);
    setvbuf(stdout, buffer, _IOFBF, sizeof buffer);
    if (words == 1) return serve();
    size_t size;
    char *text = read_all(stdin, &size);
    read_from(text, size);
    out = stdout;
    int status = answer(words - 1, word + 1);
    fflush(stdout);
    return status;
}
