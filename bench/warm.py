"""Free memory that was touched just before: what the scripts that measure large inputs call before each run.

The host of a virtual machine may take free memory back, and what touches it next waits for the host. Which of two programs meets that is
chance, so each run of a large input begins with as much memory that is there."""
import mmap, os


def warm(size):
    """Touches so many MiB of memory, or as many as WARM says, and lets them go."""
    size = int(os.environ.get("WARM", size)) << 20
    if size:
        with mmap.mmap(-1, size) as room:
            for page in range(0, size, mmap.PAGESIZE):
                room[page] = 1
