"""Gadget files and command lines made at random, right ones and ones with one thing wrong. The same seed and number
give the same case. `cases.make` is the whole."""
