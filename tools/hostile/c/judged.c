// The worker, in one process with what judges it: for a mutator that is led by coverage, as afl-fuzz (tools/hostile/mutate builds and calls it).
//
// A test is bytes. Where they begin with `REQUEST ` they are what the worker reads; else they are requests, cut by zero bytes: words up to an LF, and
// then an input, which are framed here, so that a change of length breaks no frame. The worker is asked once, and each reply is judged by the rules of
// docs/FORMATS.md: whether it is one, its status and text, and where tools/bench/peer.c covers the request each byte. What is wrong ends in abort(), and so
// does a run-time check of the worker, which are left in.
#include "../../../conformance/c/adapter.h"
#include <errno.h>
#include <stdarg.h>
#include <stdio.h>
#include <stdlib.h>
#include <string.h>
#include <sys/types.h>
#include <unistd.h>

enum { LONGEST_HEAD = 255, MOST_WORDS = 8, MOST_SIZE = 134217728, MOST_INPUT = 1048576, NOT_COVERED = 64, TESTS_OF_A_PROCESS = 2000, LEAST_ROOM = 4096 };
enum { IS_A_FRAME, IS_THE_END, IS_NONE };
enum { DONE, USAGE, DECK_REFUSED, ASSEMBLY_REFUSED, IMAGE_REFUSED, INADMISSIBLE, STOPPED, TOO_LONG = 11 };

struct bytes { char *at; size_t size, room, taken; };
struct frame { char head[LONGEST_HEAD + 1], *word[MOST_WORDS]; int words; const char *input; size_t size; };

extern const struct lvdc_core lvdc_plain_machine;
extern const struct lvdc_voted lvdc_voted_machine;
int worker_main(void);

static const char usage[] =
    "usage: lvdc-worker\nrequests: the commands of lvdc\n          trace [--through] FIRST COUNT\n          form\n          study\n";
static struct bytes asked, told;

static _Noreturn void wrong(const char *form, ...)
{
    va_list given;
    va_start(given, form);
    vfprintf(stderr, form, given);
    fputc('\n', stderr);
    va_end(given);
    abort();
}

// ---- The worker's streams

static void add(struct bytes *b, const void *bytes, size_t size)
{
    if (b->size + size + 1 > b->room) b->at = realloc(b->at, b->room = 2 * (b->size + size) + LEAST_ROOM);
    if (!b->at) exit(9);
    memcpy(b->at + b->size, bytes, size);
    b->size += size;
    b->at[b->size] = 0;
}

ssize_t judged_read(int stream, void *into, size_t size)
{
    size_t left = asked.size - asked.taken, count = size < left ? size : left;
    if (stream != 0) wrong("the stream %d is read", stream);
    memcpy(into, asked.at + asked.taken, count);
    asked.taken += count;
    return (ssize_t)count;
}

ssize_t judged_write(int stream, const void *from, size_t size)
{
    if (stream != 1) wrong("the stream %d is written", stream);
    add(&told, from, size);
    return (ssize_t)size;
}

off_t judged_lseek(int stream, off_t at, int from)
{
    (void)stream, (void)at, (void)from;
    errno = ESPIPE;
    return -1;
}

// ---- Frames

// Cuts the head of a frame at its spaces; false where its parts aren't those of a frame.
static int cut_head(struct frame *f)
{
    char *rest = f->head, *part[MOST_WORDS + 3];
    int parts = 0;
    while (rest && parts < MOST_WORDS + 3) part[parts++] = strsep(&rest, " ");
    if (rest || parts < 3 || parts > MOST_WORDS + 2 || strcmp(part[0], "REQUEST") != 0) return 0;
    size_t digits = strspn(part[1], "0123456789");
    if (digits == 0 || part[1][digits] || digits > 9 || (digits > 1 && part[1][0] == '0') || atol(part[1]) > MOST_SIZE) return 0;
    f->size = (size_t)atol(part[1]);
    f->words = parts - 2;
    memcpy(f->word, part + 2, (size_t)f->words * sizeof *part);
    for (int i = 0; i < f->words; i++) if (!*f->word[i]) return 0;
    return 1;
}

static int is_printed(const char *text, size_t size)
{
    for (size_t i = 0; i < size; i++) if (text[i] < 32 || text[i] > 126) return 0;
    return 1;
}

// The frame at a place, behind which that place then is.
static int frame_at(size_t *at, struct frame *f)
{
    const char *first = asked.at + *at, *end;
    size_t left = asked.size - *at;
    if (left == 0) return IS_THE_END;
    end = memchr(first, '\n', left < LONGEST_HEAD + 1 ? left : LONGEST_HEAD + 1);
    if (!end || !is_printed(first, (size_t)(end - first))) return IS_NONE;
    memcpy(f->head, first, (size_t)(end - first));
    f->head[end - first] = 0;
    left -= (size_t)(end - first) + 1;
    if (!cut_head(f) || f->size > left) return IS_NONE;
    f->input = end + 1;
    *at = (size_t)(end + 1 - asked.at) + f->size;
    return IS_A_FRAME;
}

// ---- What is due

static int is_decimal(const char *word, size_t digits, int leading_zeros, unsigned long least, unsigned long most)
{
    size_t length = strlen(word);
    if (length == 0 || length > digits || strspn(word, "0123456789") != length || (!leading_zeros && length > 1 && *word == '0')) return 0;
    return strtoul(word, NULL, 10) >= least && strtoul(word, NULL, 10) <= most;
}

// Are these words those of a request?
static int is_request(const struct frame *f)
{
    static const char *const alone[] = {"run", "asm", "debug", "resume", "campaign", "uplink", "macro", "form", "study"};
    static const char *const two[][2] = {{"run", "--through"}, {"run", "--plain"}, {"asm", "--image"}, {"macro", "--image"}};
    int through = f->words > 1 && strcmp(f->word[1], "--through") == 0;
    if (f->words == 1) for (size_t i = 0; i < sizeof alone / sizeof *alone; i++) if (strcmp(f->word[0], alone[i]) == 0) return 1;
    if (f->words == 2) for (size_t i = 0; i < sizeof two / sizeof *two; i++) if (!strcmp(f->word[0], two[i][0]) && !strcmp(f->word[1], two[i][1])) return 1;
    if (f->words == 2 && strcmp(f->word[0], "save") == 0) return is_decimal(f->word[1], 7, 1, 0, 9999999);
    if (f->words == 2 && strcmp(f->word[0], "soak") == 0) return is_decimal(f->word[1], 10, 1, 0, UINT32_MAX);
    return f->words == 3 + through && strcmp(f->word[0], "trace") == 0 && is_decimal(f->word[1 + through], 7, 0, 0, 3000000)
        && is_decimal(f->word[2 + through], 6, 0, 1, 100000);
}

static int has(const char *text, const char *part) { return strstr(text, part) != NULL; }

// Is this a refusal by its one line, of a status?
static int is_refusal(int status, const char *text, size_t size)
{
    static const char *const causes[] = {
        [DECK_REFUSED] = " NoProgram BadSection BadLine CountTooLarge NoDevice TooManyEvents TooManyScripts BadSave ",
        [ASSEMBLY_REFUSED] = " LineTooLong BadLabel UnknownOperation ExecuteModified BadDirective BadOperand MissingEnd AfterEnd DuplicateName NoRoom"
            " Overlap UndefinedName OutOfRange OutOfSector BadMacro TooDeep TooManyCalls ExpansionTooLong ",
        [IMAGE_REFUSED] = " BadImageLine AddressOrder BadWord "};
    char cause[LONGEST_HEAD], sought[LONGEST_HEAD + 2];
    unsigned long line;
    int length = 0;
    if (sscanf(text, "REFUSED %60s %lu%n", cause, &line, &length) != 2 || (size_t)length + 1 != size || text[length] != '\n' || line == 0) return 0;
    snprintf(sought, sizeof sought, " %s ", cause);
    return has(causes[status], sought);
}

// May this be answered to a request that C doesn't cover?
static int may_be(int status, const char *text, size_t size)
{
    switch (status) {
    case DONE: return strncmp(text, "REFUSED", 7) != 0 && (size == 0 || text[size - 1] == '\n');
    case DECK_REFUSED: case ASSEMBLY_REFUSED: case IMAGE_REFUSED: return is_refusal(status, text, size);
    case INADMISSIBLE: return has(text, "INADMISSIBLE ");
    case STOPPED: return has(text, "STOPPED ");
    default: return 0;
    }
}

// Does a study ask for so many times that C, which runs all of them, would take seconds for its scripts?
static int is_long_study(const struct frame *f)
{
    enum { MOST_TIMES = 20000 };
    const char *end = f->input + f->size, *line = f->input, *next;
    for (; strcmp(f->word[0], "study") == 0 && line < end; line = next ? next + 1 : end) {
        next = memchr(line, '\n', (size_t)(end - line));
        while (line < end && (*line == ' ' || *line == '\t')) line++;
        if (end - line > 4 && memcmp(line, "RUN", 3) == 0 && strtoul(line + 3, NULL, 10) > MOST_TIMES) return 1;
    }
    return 0;
}

// Compares a reply with what C answers; false where C doesn't cover the request.
static int is_judged_by_c(const struct frame *f, int status, const char *text, size_t size)
{
    char *due, *word[MOST_WORDS];
    size_t due_size;
    memcpy(word, f->word, sizeof word);
    int wanted = lvdc_answer(f->words, word, f->input, f->size, &due, &due_size), is_covered = wanted != NOT_COVERED;
    if (is_covered && (wanted != status || due_size != size || memcmp(due, text, size) != 0))
        wrong("%s: status %d and\n%s\nC has %d and\n%s", f->word[0], status, text, wanted, due);
    free(due);
    return is_covered;
}

static void judge(const struct frame *f, int status, const char *text, size_t size)
{
    if (!is_request(f)) {
        if (status != USAGE || size != strlen(usage) || memcmp(text, usage, size) != 0) wrong("%s isn't answered by the usage text", f->word[0]);
        return;
    }
    if ((is_long_study(f) || !is_judged_by_c(f, status, text, size)) && !may_be(status, text, size)) wrong("%s: status %d and\n%s", f->word[0], status, text);
}

// Takes the next reply: its status. Its text is ended by a zero byte, in place of the byte that is held for it.
static int take_reply(char **text, size_t *size)
{
    char head[LONGEST_HEAD], *first = told.at + told.taken, *end = told.size > told.taken ? memchr(first, '\n', told.size - told.taken) : NULL;
    unsigned status;
    if (!end || sscanf(first, "REPLY %u %zu", &status, size) != 2) wrong("there is no reply where one is due");
    snprintf(head, sizeof head, "REPLY %u %zu\n", status, *size);
    if (strlen(head) != (size_t)(end + 1 - first) || memcmp(head, first, strlen(head)) != 0) wrong("the head of a reply isn't one");
    if (*size > told.size - told.taken - strlen(head)) wrong("a reply is too short");
    *text = end + 1;
    told.taken += strlen(head) + *size;
    return (int)status;
}

static void judge_one(const struct frame *f)
{
    char *text, held;
    size_t size;
    int status = take_reply(&text, &size);
    held = text[size];
    text[size] = 0;
    judge(f, status, text, size);
    text[size] = held;
}

static void judge_all(int ended)
{
    struct frame f;
    size_t at = 0, size;
    unsigned number = 1;
    int kind;
    char *text, due[LONGEST_HEAD];
    for (; (kind = frame_at(&at, &f)) == IS_A_FRAME; number++) judge_one(&f);
    if (kind == IS_NONE) {
        snprintf(due, sizeof due, "REFUSED BadFrame %u\n", number);
        if (take_reply(&text, &size) != 2 || size != strlen(due) || memcmp(text, due, size) != 0) wrong("a frame that is none isn't refused");
    }
    if (told.taken != told.size) wrong("more is written than is due");
    if (ended != (kind == IS_NONE ? 2 : 0)) wrong("the worker ends with %d", ended);
}

// ---- Tests

// Frames the requests of a test.
static void put_frames(const char *test, size_t size)
{
    char head[LEAST_ROOM];
    for (const char *end = test + size, *next; test < end; test = next + 1) {
        next = memchr(test, 0, (size_t)(end - test));
        if (!next) next = end;
        const char *line = memchr(test, '\n', (size_t)(next - test)), *input = line ? line + 1 : next;
        if (!line) line = next;
        int length = snprintf(head, sizeof head, "REQUEST %zu %.*s\n", (size_t)(next - input), (int)(line - test > 2000 ? 2000 : line - test), test);
        add(&asked, head, (size_t)length);
        add(&asked, input, (size_t)(next - input));
    }
}

static void try_one(const char *test, size_t size)
{
    asked.size = asked.taken = told.size = told.taken = 0;
    if (size >= 8 && memcmp(test, "REQUEST ", 8) == 0) add(&asked, test, size);
    else put_frames(test, size);
    add(&told, "", 0);
    add(&asked, "", 0);
    judge_all(worker_main());
}

#ifdef __AFL_COMPILER
__AFL_FUZZ_INIT();
#endif

int main(void)
{
    lvdc_use(&lvdc_plain_machine, &lvdc_voted_machine);
#ifdef __AFL_COMPILER
    __AFL_INIT();
    const char *test = (const char *)__AFL_FUZZ_TESTCASE_BUF;
    while (__AFL_LOOP(TESTS_OF_A_PROCESS)) try_one(test, (size_t)__AFL_FUZZ_TESTCASE_LEN);
#else
    static char test[MOST_INPUT];
    try_one(test, fread(test, 1, sizeof test, stdin));
#endif
    return 0;
}
