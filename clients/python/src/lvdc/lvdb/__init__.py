"""lvdb: a debugger that one sits at, over traces, sessions and reports of lvdc-worker.

It computes nothing of the machine. The state is the deck and how many steps of its run are made: going on, going back and injecting a
fault are each a replay, and every word, register and difference that is shown comes from a text of the worker."""
