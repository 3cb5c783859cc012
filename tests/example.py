"""The worked example of docs/FORMAT.md, word by word."""

ENTRIES = [5, 4, 0, 0, 0, 65536, 589833, 90, 4, 18, 65536, 524296, 80, 1, 16, 131074, 458759, 0, 2, 0, 196608, 1900564, 3, 3, 0,
           6, 0, 0, 0, 0, 0, 0, 0, 0, 0]
LEVELS = [3, 2, 2, 9, 1, 0, 1, 0, 3, 4, 3, 2, 0, 0, 0, 0, 0, 0, 0, 0]


def changed(words, at, word):
    return words[:at] + [word] + words[at + 1:]
