/* Asks lvdc-worker: one process, many requests. POSIX alone. Each call answers 0, or -1 where the worker could not be
   started or has gone; a program that writes to a worker which may go should ignore SIGPIPE. */
#ifndef LVDC_WORKER_H
#define LVDC_WORKER_H

#include <stdio.h>
#include <stdlib.h>
#include <string.h>
#include <sys/types.h>
#include <sys/wait.h>
#include <unistd.h>

struct lvdc_worker {
    pid_t process;
    FILE *to, *from;
};

/* What a request is answered: a status, and a text that is ended by a zero byte beyond its length. */
struct lvdc_reply {
    int status;
    size_t length;
    char *text;
};

/* Starts the program at this path, with pipes that block: to a worker a stream that doesn't is one that fails when it would wait. */
static int lvdc_start(struct lvdc_worker *worker, const char *program)
{
    int to[2], from[2];
    if (pipe(to) != 0)
        return -1;
    if (pipe(from) != 0)
        return close(to[0]), close(to[1]), -1;
    worker->process = fork();
    if (worker->process == 0) {
        dup2(to[0], 0), dup2(from[1], 1);
        close(to[0]), close(to[1]), close(from[0]), close(from[1]);
        execl(program, program, (char *)NULL);
        _exit(127);
    }
    close(to[0]), close(from[1]);
    if (worker->process < 0)
        return close(to[1]), close(from[0]), -1;
    worker->to = fdopen(to[1], "w"), worker->from = fdopen(from[0], "r");
    return worker->to && worker->from ? 0 : -1;
}

/* Asks with these words, as "run --plain", and this input. The reply's text is the caller's to free. */
static int lvdc_ask(struct lvdc_worker *worker, const char *words, const char *input, size_t length, struct lvdc_reply *reply)
{
    reply->text = NULL;
    if (fprintf(worker->to, "REQUEST %zu %s\n", length, words) < 0 || fwrite(input, 1, length, worker->to) != length)
        return -1;
    if (fflush(worker->to) != 0 || fscanf(worker->from, "REPLY %d %zu", &reply->status, &reply->length) != 2)
        return -1;
    if (fgetc(worker->from) != '\n' || !(reply->text = malloc(reply->length + 1)))
        return -1;
    reply->text[reply->length] = 0;
    return fread(reply->text, 1, reply->length, worker->from) == reply->length ? 0 : -1;
}

/* Ends the worker, and answers its exit status. */
static int lvdc_end(struct lvdc_worker *worker)
{
    int status;
    fclose(worker->to), fclose(worker->from);
    return waitpid(worker->process, &status, 0) > 0 && WIFEXITED(status) ? WEXITSTATUS(status) : -1;
}

#endif
