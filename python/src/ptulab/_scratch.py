"""Memory of short life, for loops over pieces of a file."""

import numpy as np

KEPT = 1 << 24  # bytes


def keep_scratch() -> None:
    """Makes the C library keep blocks of memory that are freed, for the next ones, in the place of giving each back.

    A piece of a file needs some arrays of half a megabyte for a moment. By default glibc maps such a block anew each
    time, which costs more than what is done in it. It goes by the greatest block that was freed so far, up to 32 MiB
    (M_MMAP_THRESHOLD in mallopt(3)); so one is freed here. It isn't touched, and so takes no memory.
    """
    np.empty(KEPT, dtype=np.uint8)
