// Requests that are drawn from a number: decks with faults of every kind, campaigns, studies, forms and saved texts, of which a share is changed
// by a line, a word or a byte. Each number draws one request, the same each time by one compiler. What is drawn is what conformance/drawing draws, with shorter
// runs. Nothing here knows what is answered, but for `resume` and a trace of a saved text: theirs is what tools/bench/peer.c answers to `save`.
#ifndef LVDC_DRAWING_H
#define LVDC_DRAWING_H

#include <stddef.h>
#include <stdint.h>

enum { RUN, PLAIN, THROUGH, SAVE, RESUME, TRACE, TRACE_THROUGH, FORM, CAMPAIGN, STUDY, OTHER, REQUESTS };
// What an input has: a bit for each kind of fault line (those of adapter.h) and for each of these.
enum { HAS_ORDERS = 7, HAS_SIMPLEX, HAS_TAPES, HAS_UNPLUGS, IS_CHANGED, IS_LONG, IS_SAVED, MARKS };
enum { LONGEST_WORDS = 40 };

struct text { char *bytes; size_t size, room; };
struct request { int kind, marks; char words[LONGEST_WORDS]; struct text input; };

extern const char *const request_names[REQUESTS];
extern const char *const mark_names[MARKS];

void draw(uint64_t number, struct request *into);

// What the machine in C answers to words: a status, and a text that is the caller's to free.
int answer_of(const char *words, const struct text *input, char **text, size_t *size);

#endif
