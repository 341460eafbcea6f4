"""Streams of frames that end badly or well: a small frame, and what may stand behind any number of it, with what was worked out by hand."""

# A frame of kind 6 whose body has three bytes: it ends within its first field.
SMALL = bytes.fromhex("4e42010600000003616263")

# So many small frames stand before the end of a stream; and in pieces of so many bytes: they end within each byte of a header, and behind many
# frames. A stream of a thousand comes in a few of them.
BEFORE = 0, 1, 1000
PIECES = 1, 2, 3, 4, 5, 6, 7, 8, 9, 13, 100, 65_536
FEW_PIECES = 1, 7, 100, 65_536

# The end of a stream; how many whole frames stand in it; where it is no frame, why, the place of that from the front of the end, and how many of
# its bytes have come by then, one at a time. Each byte of a header is wrong in turn, and good ones stand beside them.
ENDS = (
    ("4f42010600000003616263", 0, "bad magic 79", 0, 1),
    ("00", 0, "bad magic 0", 0, 1),
    ("4e4e42010600000003616263", 0, "bad magic 78", 1, 2),
    ("4e42020600000003616263", 0, "bad version 2", 2, 3),
    ("4e4200", 0, "bad version 0", 2, 3),
    ("4e42010000000003616263", 0, "bad kind 0", 3, 4),
    ("4e420111", 0, "bad kind 17", 3, 4),
    ("4e4201ff00000003616263", 0, "bad kind 255", 3, 4),
    ("4e42010601000003616263", 0, "too long 16777219", 4, 8),
    ("4e42010600100001616263", 0, "too long 1048577", 4, 8),
    ("4e420106ffffffff", 0, "too long 4294967295", 4, 8),
    ("4e420106ffffff", 0, None, None, 7),
    ("4e42010600100000616263", 0, None, None, 11),
    ("4e42010600000103616263", 0, None, None, 11),
    ("4e42010600000004616263", 0, None, None, 11),
    ("4e42010600000003616263", 1, None, None, 11),
    ("4e420106000000036162634e43", 1, "bad magic 67", 12, 13),
    # a frame, at each of its bytes
    *((SMALL[:size].hex(), 0, None, None, size) for size in range(len(SMALL))),
)
