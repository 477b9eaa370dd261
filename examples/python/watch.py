"""What Linux counts of a process: the bytes that it reads, and its memory."""

import os


def memory(name):
    """A line of /proc/self/status in bytes: `VmRSS` is the memory in use, `VmHWM` its peak."""
    with open("/proc/self/status") as file:
        return 1024 * int(next(line for line in file if line.startswith(name)).split()[1])


class Watch:
    """The bytes that this process has read, and its memory at most, since the watch was made."""

    def __init__(self):
        with open("/proc/self/clear_refs", "w") as file:
            file.write("5")  # the peak begins anew
        self.memory_before = memory("VmRSS")
        self.counters = os.open("/proc/self/io", os.O_RDONLY)
        read, own = self.look()
        self.read_before = read + own

    def look(self):
        """The bytes of all reads before this one, which is one of the counters, and its own."""
        text = os.pread(self.counters, 4096, 0)
        return int(text.split()[1]), len(text)

    def bytes_read(self):
        return self.look()[0] - self.read_before

    def more_memory(self):
        return memory("VmHWM") - self.memory_before
