"""How much is read."""
# of a file: what lvdc reads of a deck, a source or an image
MOST_BYTES = 1_048_576
# of a line that is typed, and of an expression
MOST_CHARACTERS = 1_000
