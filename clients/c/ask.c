/* Asks one worker with the same words over each of some files: ask WORKER WORDS FILE..

   WORDS is one argument, as "run --plain". The texts of the replies are written one behind the other. The exit status is 2 where a
   file can't be read or the worker has gone. */
#include <signal.h>
#include "worker.h"

/* The bytes of a file, which are the caller's to free, or nothing. */
static char *bytes_of(const char *name, size_t *length)
{
    FILE *file = fopen(name, "rb");
    char *bytes = NULL;
    long end;
    if (file && fseek(file, 0, SEEK_END) == 0 && (end = ftell(file)) >= 0 && (bytes = malloc(end + 1))) {
        rewind(file);
        *length = fread(bytes, 1, end, file);
    }
    if (file)
        fclose(file);
    return bytes;
}

int main(int count, char **words)
{
    struct lvdc_worker worker;
    struct lvdc_reply reply;
    if (count < 4)
        return fputs("usage: ask WORKER WORDS FILE..\n", stderr), 2;
    signal(SIGPIPE, SIG_IGN);
    if (lvdc_start(&worker, words[1]) != 0)
        return perror(words[1]), 2;
    for (int at = 3; at < count; at++) {
        size_t length;
        char *bytes = bytes_of(words[at], &length);
        if (!bytes)
            return perror(words[at]), 2;
        if (lvdc_ask(&worker, words[2], bytes, length, &reply) != 0)
            return fputs("the worker has gone\n", stderr), 2;
        fwrite(reply.text, 1, reply.length, stdout);
        free(bytes), free(reply.text);
    }
    return lvdc_end(&worker) == 0 ? 0 : 2;
}
