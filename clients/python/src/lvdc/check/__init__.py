"""lvdc-check: a file is given to the proved program, and each refusal is shown with its line, the field, and what to look at first.

What is refused the program says alone. The sentences go by the form of the line."""
