/* Compares the registers of an emulator with those of the worker: compare WORKER IMAGE <REGISTERS

   IMAGE is a file with the text of an image. Each line of REGISTERS has a number of instruction times, and then what the
   emulator has in A and PQ after them, in octal digits. The first line that differs is told, and the exit status is 1. */
#include <signal.h>
#include "worker.h"

enum { MOST = 1 << 20 };

/* The word behind this name in a report, or -1. */
static long word_of(const char *report, const char *name)
{
    char line[16];
    snprintf(line, sizeof line, "\n%s ", name);
    const char *found = strstr(report, line);
    return found ? strtol(found + strlen(line), NULL, 8) : -1;
}

int main(int count, char **words)
{
    static char image[MOST], deck[MOST + 64];
    struct lvdc_worker worker;
    struct lvdc_reply reply;
    unsigned long times, accumulator, product;
    int differs = 0;
    FILE *file = count == 3 ? fopen(words[2], "r") : NULL;
    if (!file)
        return fputs("usage: compare WORKER IMAGE <REGISTERS\n", stderr), 2;
    image[fread(image, 1, MOST - 1, file)] = 0;
    fclose(file);
    signal(SIGPIPE, SIG_IGN);
    if (lvdc_start(&worker, words[1]) != 0)
        return perror(words[1]), 2;
    while (!differs && scanf("%lu %lo %lo", &times, &accumulator, &product) == 3) {
        int length = snprintf(deck, sizeof deck, "IMAGE\n%sRUN %lu\n", image, times);
        if (lvdc_ask(&worker, "run --plain", deck, length, &reply) != 0)
            return fputs("the worker has gone\n", stderr), 2;
        if (reply.status != 0 && reply.status != 6) {
            printf("after %lu times: %s", times, reply.text);
            differs = 1;
        } else if (word_of(reply.text, "A") != (long)accumulator || word_of(reply.text, "PQ") != (long)product) {
            printf("after %lu times: A %09lo and PQ %09lo, not %09lo and %09lo\n", times, accumulator, product,
                   word_of(reply.text, "A"), word_of(reply.text, "PQ"));
            differs = 1;
        }
        free(reply.text);
    }
    if (lvdc_end(&worker) != 0)
        return 2;
    return differs;
}
