// Asks one worker and the machine in C (tools/bench/peer.c) the same requests, and compares each reply byte for byte: millions WORKER COUNT NUMBER FOLDER
//
// tools/hostile/millions builds and calls it. The requests are those that drawing.c draws from so many numbers from NUMBER times 2^32 on. What differs is
// kept in FOLDER, and so are tables of what was asked so far: the requests by kind and by what is answered, and the refusals. They are written
// anew after each hundred thousand.
#define _GNU_SOURCE  // for F_SETPIPE_SZ
#include "drawing.h"
#include "../../../conformance/c/adapter.h"
#include <errno.h>
#include <fcntl.h>
#include <poll.h>
#include <signal.h>
#include <stdio.h>
#include <stdlib.h>
#include <string.h>
#include <sys/resource.h>
#include <sys/stat.h>
#include <sys/wait.h>
#include <time.h>
#include <unistd.h>

enum { QUEUE = 4096, PIECE = 1 << 16, ROOM = 1 << 20, MOST_WORDS = 8, NOT_COVERED = 64, MOST_KEPT = 100, TOLD = 100000 };
enum { DONE, MORE, SHIFT, EXM, NO_CELL, LOGIC, MEMORY, SAVED, FORM_YES, FORM_NO, ROWS, USAGE, REFUSED, ENDS };
enum { CAUSES = 13 };

static const char usage[] =
    "usage: lvdc-worker\nrequests: the commands of lvdc\n          trace [--through] FIRST COUNT\n          form\n          study\n";
static const char *const end_names[] = {
    "DONE", "MORE", "SHIFT", "EXM", "no good cell", "LOGIC", "MEMORY", "saved", "FORM YES", "FORM NO", "rows", "usage", "refused"};
static const char *const ends[] = {
    "END DONE", "MORE", "END STOPPED # SHIFT", "END STOPPED # EXM", "END STOPPED # MEMORY", "END INADMISSIBLE # LOGIC", "END INADMISSIBLE # MEMORY",
    "LVDC SAVE", "FORM YES", "FORM NO", "#", "usage", "REFUSED"};
static const char *const causes[CAUSES] = {
    "NoProgram", "BadSection", "BadLine", "CountTooLarge", "NoDevice", "TooManyEvents", "TooManyScripts", "BadImageLine", "AddressOrder", "BadWord",
    "BadSave", "TooLong", "another"};

extern const struct lvdc_core lvdc_plain_machine;
extern const struct lvdc_voted lvdc_voted_machine;

// A request that was sent, and what is due.
typedef struct { struct request request; uint64_t number; int status; char *due; size_t due_size; } asked;

static asked queue[QUEUE];
static int first_asked, asked_count;
static pid_t worker;
static int to, from;
static struct text sent, taken;
static size_t sent_at, taken_at;
static const char *folder;

static uint64_t counts[REQUESTS][ENDS], refusals[REQUESTS][CAUSES], marks[MARKS], scripts[3], differ, distinct, *hashes, hash_mask;

static _Noreturn void astray(const char *what)
{
    fprintf(stderr, "millions: %s\n", what);
    exit(2);
}

// ---- The machine in C

int answer_of(const char *words, const struct text *input, char **text, size_t *size)
{
    char held[LONGEST_WORDS], *word[MOST_WORDS], *rest = held;
    int count = 0;
    snprintf(held, sizeof held, "%s", words);
    while (count < MOST_WORDS && (word[count] = strtok_r(rest, " ", &rest))) count++;
    return lvdc_answer(count, word, input->bytes, input->size, text, size);
}

// What is due: of words that are no request the usage text, else what the machine in C answers.
static void work_out(asked *a)
{
    a->status = answer_of(a->request.words, &a->request.input, &a->due, &a->due_size);
    if (a->request.kind != OTHER) return;
    free(a->due);
    a->status = 1;
    a->due = strdup(usage);
    a->due_size = strlen(usage);
}

// ---- The worker

static void start(char *program)
{
    int into[2], out_of[2];
    if (pipe(into) || pipe(out_of)) astray("no pipe");
    worker = fork();
    if (worker == 0) {
        dup2(into[0], 0);
        dup2(out_of[1], 1);
        close(into[0]), close(into[1]), close(out_of[0]), close(out_of[1]);
        execl(program, program, (char *)NULL);
        _exit(127);
    }
    if (worker < 0) astray("no process");
    close(into[0]);
    close(out_of[1]);
    to = into[1];
    from = out_of[0];
    // so that neither waits for the other often; where there is no such room it is slower
    fcntl(to, F_SETPIPE_SZ, ROOM);
    fcntl(from, F_SETPIPE_SZ, ROOM);
    fcntl(to, F_SETFL, O_NONBLOCK);
    fcntl(from, F_SETFL, O_NONBLOCK);
}

static void add(struct text *t, const char *bytes, size_t size)
{
    if (t->size + size > t->room) t->bytes = realloc(t->bytes, t->room = 2 * (t->size + size));
    if (!t->bytes) astray("no memory");
    memcpy(t->bytes + t->size, bytes, size);
    t->size += size;
}

// Forgets the bytes before a place.
static void forget(struct text *t, size_t *at)
{
    if (*at < PIECE && *at < t->size) return;
    memmove(t->bytes, t->bytes + *at, t->size - *at);
    t->size -= *at;
    *at = 0;
}

static void send_some(void)
{
    while (sent_at < sent.size) {
        ssize_t count = write(to, sent.bytes + sent_at, sent.size - sent_at);
        if (count < 0 && errno == EAGAIN) break;
        if (count <= 0) astray("the worker takes nothing more");
        sent_at += (size_t)count;
    }
    forget(&sent, &sent_at);
}

static void take_some(void)
{
    char piece[PIECE];
    ssize_t count;
    while ((count = read(from, piece, sizeof piece)) > 0) add(&taken, piece, (size_t)count);
    if (count == 0) astray("the worker has ended");
    if (errno != EAGAIN) astray("the worker can't be read");
}

// ---- What was answered

static void keep_file(const char *place, const char *name, const char *bytes, size_t size)
{
    char path[PIECE];
    snprintf(path, sizeof path, "%s/%s", place, name);
    FILE *file = fopen(path, "w");
    if (!file || fwrite(bytes, 1, size, file) != size || fclose(file)) astray("what differs can't be kept");
}

static void keep(const asked *a, int status, const char *text, size_t size)
{
    char place[PIECE / 2];
    printf("millions: request %llu, %s: status %d, and %d by C, or another text\n", (unsigned long long)a->number, a->request.words, status, a->status);
    fflush(stdout);
    if (differ++ >= MOST_KEPT) return;
    snprintf(place, sizeof place, "%s/%llu", folder, (unsigned long long)a->number);
    mkdir(place, 0777);
    keep_file(place, "words", a->request.words, strlen(a->request.words));
    keep_file(place, "input", a->request.input.bytes, a->request.input.size);
    keep_file(place, "due", a->due, a->due_size);
    keep_file(place, "written", text, size);
}

// Does a line begin with a form, in which # is a word?
static int begins(const char *line, const char *form)
{
    for (; *form; form++) {
        if (*form == '#') while (*line > ' ') line++;
        else if (*line++ != *form) return 0;
    }
    return 1;
}

// The line of a text that says how it ended: the last one of a trace, the second of a report, else the first.
static const char *ending_of(const asked *a)
{
    const char *text = a->due, *last = text + a->due_size;
    if (begins(text, "LVDC TRACE")) {
        for (last--; last > text && last[-1] != '\n'; last--) {}
        return last;
    }
    return begins(text, "LVDC") && !begins(text, "LVDC SAVE") ? strchr(text, '\n') + 1 : text;
}

static void count_rows(const asked *a)
{
    const char *last = a->due + a->due_size - 1;
    unsigned long told[3];
    while (last > a->due && last[-1] != '\n') last--;
    if (sscanf(last, "%*s %lu ADMISSIBLE %lu SAME %lu", &told[0], &told[1], &told[2]) == 3)
        for (int i = 0; i < 3; i++) scripts[i] += told[i];
}

static void count_one(const asked *a)
{
    const char *line = ending_of(a);
    int end = 0, cause = 0;
    while (end < REFUSED && (end == ROWS || !begins(line, ends[end]))) end++;
    if (end == REFUSED && !begins(line, "REFUSED")) { end = ROWS; count_rows(a); }
    counts[a->request.kind][end]++;
    for (int i = 0; i < MARKS; i++) marks[i] += a->request.marks >> i & 1;
    if (end != REFUSED) return;
    while (cause < CAUSES - 1 && !begins(line + strlen("REFUSED "), causes[cause])) cause++;
    refusals[a->request.kind][cause]++;
}

// Notes whether a request is one that wasn't asked before.
static void note_hash(const struct request *r)
{
    uint64_t hash = 14695981039346656037u, at;
    for (const char *c = r->words; *c; c++) hash = (hash ^ (unsigned char)*c) * 1099511628211u;
    hash = (hash ^ 0400) * 1099511628211u;
    for (size_t i = 0; i < r->input.size; i++) hash = (hash ^ (unsigned char)r->input.bytes[i]) * 1099511628211u;
    hash += !hash;
    for (at = hash >> 20 & hash_mask; hashes[at] && hashes[at] != hash; at = (at + 1) & hash_mask) {}
    distinct += !hashes[at];
    hashes[at] = hash;
}

// Compares the reply to the request that was sent first with what is due, if it is there whole.
static int compare(void)
{
    unsigned status, size;
    int head = 0;
    const char *reply = taken.bytes + taken_at, *end = memchr(reply, '\n', taken.size - taken_at);
    if (!end) return 0;
    if (sscanf(reply, "REPLY %u %u%n", &status, &size, &head) != 2 || reply + head != end) astray("the worker writes no reply");
    if (taken.size - taken_at < (size_t)head + 1 + size) return 0;
    asked *a = &queue[first_asked];
    if ((int)status != a->status || size != a->due_size || memcmp(end + 1, a->due, size) != 0) keep(a, (int)status, end + 1, size);
    count_one(a);
    free(a->due);
    taken_at += (size_t)head + 1 + size;
    first_asked = (first_asked + 1) % QUEUE;
    asked_count--;
    return 1;
}

static void compare_some(int waits)
{
    struct pollfd polled[2] = {{from, POLLIN, 0}, {to, POLLOUT, 0}};
    if (waits) poll(polled, sent_at < sent.size ? 2 : 1, -1);
    send_some();
    take_some();
    while (asked_count > 0 && taken_at < taken.size && compare()) {}
    forget(&taken, &taken_at);
}

// ---- The whole

static void ask(uint64_t number)
{
    asked *a = &queue[(first_asked + asked_count) % QUEUE];
    char head[LONGEST_WORDS + 32];
    a->number = number;
    draw(number, &a->request);
    add(&sent, head, (size_t)snprintf(head, sizeof head, "REQUEST %zu %s\n", a->request.input.size, a->request.words));
    add(&sent, a->request.input.bytes, a->request.input.size);
    send_some();
    work_out(a);
    if (a->status == NOT_COVERED) astray("a request was drawn that C doesn't answer");
    note_hash(&a->request);
    asked_count++;
}

static double seconds_of(int who)
{
    struct rusage used;
    getrusage(who, &used);
    return (double)(used.ru_utime.tv_sec + used.ru_stime.tv_sec) + 1e-6 * (double)(used.ru_utime.tv_usec + used.ru_stime.tv_usec);
}

static void put_table(FILE *file, const char *title, size_t columns, const char *const *names, uint64_t of[][columns])
{
    uint64_t total[ENDS + CAUSES] = {0};
    for (int kind = 0; kind < REQUESTS; kind++) for (size_t i = 0; i < columns; i++) total[i] += of[kind][i];
    fprintf(file, "| %s |", title);
    for (size_t i = 0; i < columns; i++) if (total[i]) fprintf(file, " %s |", names[i]);
    fprintf(file, "\n|---|");
    for (size_t i = 0; i < columns; i++) if (total[i]) fprintf(file, "---|");
    for (int kind = 0; kind <= REQUESTS; kind++) {
        fprintf(file, "\n| %s |", kind < REQUESTS ? request_names[kind] : "all");
        for (size_t i = 0; i < columns; i++) if (total[i]) fprintf(file, " %llu |", (unsigned long long)(kind < REQUESTS ? of[kind][i] : total[i]));
    }
    fprintf(file, "\n\n");
}

static void put_tables(FILE *file)
{
    put_table(file, "request", ENDS, end_names, counts);
    put_table(file, "refused", CAUSES, causes, refusals);
    fprintf(file, "| the input has | requests |\n|---|---|\n");
    for (int i = 0; i < MARKS; i++) fprintf(file, "| %s | %llu |\n", mark_names[i], (unsigned long long)marks[i]);
}

static void put_sentence(FILE *file, uint64_t count, uint64_t number, long seconds)
{
    fprintf(file, "%llu requests were drawn by the number %llu and asked of one worker, %llu of them different; %llu scripts of campaigns and studies"
            " were among them, %llu of which are admissible and %llu come to the same. %llu replies differ. C and the drawing took %.0f seconds of a"
            " processor, %ld by the clock.\n\n", (unsigned long long)count, (unsigned long long)number, (unsigned long long)distinct,
            (unsigned long long)scripts[0], (unsigned long long)scripts[1], (unsigned long long)scripts[2], (unsigned long long)differ,
            seconds_of(RUSAGE_SELF), seconds);
}

// Writes what was asked so far into the file `table`, whole or not at all.
static void keep_tables(uint64_t count, uint64_t number, long seconds)
{
    char path[PIECE], beside[PIECE];
    snprintf(path, sizeof path, "%s/table", folder);
    snprintf(beside, sizeof beside, "%s/table.new", folder);
    FILE *file = fopen(beside, "w");
    if (!file) astray("the tables can't be kept");
    put_sentence(file, count, number, seconds);
    put_tables(file);
    if (fclose(file) || rename(beside, path)) astray("the tables can't be kept");
}

static void make_room(uint64_t count)
{
    uint64_t room = 1;
    while (room < count + count / 2) room *= 2;
    hashes = calloc(room, sizeof *hashes);
    hash_mask = room - 1;
    if (!hashes) astray("no memory");
}

int main(int words, char **word)
{
    int status;
    time_t began = time(NULL);
    if (words != 5) astray("usage: millions WORKER COUNT NUMBER FOLDER");
    uint64_t count = strtoull(word[2], NULL, 10), number = strtoull(word[3], NULL, 10);
    folder = word[4];
    signal(SIGPIPE, SIG_IGN);
    make_room(count);
    lvdc_use(&lvdc_plain_machine, &lvdc_voted_machine);
    start(word[1]);
    for (uint64_t i = 0; i < count; i++) {
        ask(number << 32 | i);
        do compare_some(asked_count == QUEUE); while (asked_count == QUEUE);
        if ((i + 1) % TOLD == 0) keep_tables(i + 1 - (uint64_t)asked_count, number, (long)(time(NULL) - began));
    }
    while (asked_count > 0) compare_some(1);
    close(to);
    if (waitpid(worker, &status, 0) < 0 || status != 0) astray("the worker ends with another status than 0");
    keep_tables(count, number, (long)(time(NULL) - began));
    put_sentence(stdout, count, number, (long)(time(NULL) - began));
    put_tables(stdout);
    printf("the worker took %.0f seconds of a processor\n", seconds_of(RUSAGE_CHILDREN));
    return differ > 0;
}
