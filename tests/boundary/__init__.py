"""The archive for C beside the model: every answer, and every byte that no answer promises.

    driver.c, places.c      lists of events through the archive, everything that is lent against unreadable pages; beside
                            a read-only guard the guard
    changes.c, faults       entries with a fault each, which the driver must see; the names of these faults
    memories.c              memories of zeros, longer ones and those that somebody else wrote; it needs no model
    memories_changes.c      entries with a fault each at such memories
    lists, lengths          lists from seeds, two side by side; calls, replies and images of every length
    compare, sample         both through the driver, a list that differs is shortened; a few lists to test the driver by

`run` builds these, sees the faults and compares. By hand, from the directory above: python3 -m boundary.compare DRIVER
"""
