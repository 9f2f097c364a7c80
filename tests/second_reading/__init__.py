"""A second reading of what `mask` does, written from the rules alone. It shares no text with the program, and the tests
compare the two. `answer.answer` is the whole: what a command line and a file give."""
