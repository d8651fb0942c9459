"""A judge of document 01, written from that document alone, to be read beside it.

book: the book and refusals 1 to 8.   plan: states, let lists and blocks.   words: tree words, the
room (9) and words that are no tree (11).   walk: readings (10, 12) and walks.   sets: sets (16).
"""
