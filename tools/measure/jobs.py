"""How long a job of many tasks takes, what it moves and what memory it needs: by a formula from measured rates, and by tasks that are drawn."""
import collections
import dataclasses
import heapq
import math
import random
import statistics

WIDE = 64  # the most files that one merge joins
PAUSES = (1, 4, 16)  # seconds before a task that died is started again in its slot
MEDIANS, LEAST_WAIT = 5, 30  # a task is slow if it has run as many medians, and at least as many seconds


@dataclasses.dataclass
class Rates:
    """What one core takes, all of them at work. Times are in seconds, sizes in bytes."""
    record_bytes: float  # of a record of the input
    row_bytes: float  # of a saved row
    listing: float  # of an input, when the job is made
    start: float  # of a task or a merge that has nothing to do
    byte: float  # of a byte of input
    run_row: float  # of a row that a task writes
    merge_row: float  # of a row that a merge reads
    new_row: float  # of a row that a merge writes
    run_memory: float  # of a task with few rows
    run_row_memory: float  # of each row more
    merge_memory: float  # of a merge of few rows
    merge_row_memory: float  # of each row more that it writes


@dataclasses.dataclass
class Job:
    """A sum for each key over records with keys that are drawn evenly."""
    size: float  # bytes of input
    task_size: float
    keys: float
    cores: int

    def rows(self, records):
        """The distinct keys of so many records."""
        return -self.keys * math.expm1(-records / self.keys)


# Tasks that are alike: how many; the seconds and the memory of each; what all of them read of files of tables and write to such.
Stage = collections.namedtuple("Stage", "tasks seconds memory read written")


def stages(job, rates):
    """The tasks, and then each level of the merge."""
    count, records = math.ceil(job.size / job.task_size), min(job.size, job.task_size) / rates.record_bytes
    rows = job.rows(records)
    seconds = rates.start + min(job.size, job.task_size) * rates.byte + rows * rates.run_row
    made = [Stage(count, seconds, rates.run_memory + rows * rates.run_row_memory, 0, count * rows * rates.row_bytes)]
    while count > 1 or len(made) == 1:
        wide, groups = min(count, WIDE), math.ceil(count / WIDE)
        records *= wide
        made.append(merge_stage(count, wide, groups, rows, job.rows(records), rates))
        count, rows = groups, job.rows(records)
    return made


def merge_stage(files, wide, groups, file_rows, rows, rates):
    """A level of the merge, each of whose merges but the last joins as many files. A merge holds its rows and one file."""
    seconds = rates.start + wide * file_rows * rates.merge_row + rows * rates.new_row
    memory = rates.merge_memory + rows * rates.merge_row_memory + file_rows * rates.row_bytes
    return Stage(groups, seconds, memory, files * file_rows * rates.row_bytes, groups * rows * rates.row_bytes)


def passed(stage, cores):
    """The wall time of a stage whose tasks all take the same."""
    return math.ceil(stage.tasks / cores) * stage.seconds


@dataclasses.dataclass
class Chances:
    spread: float = 0.1  # the standard deviation of the times of equal tasks, as a part of their mean
    slow: float = 0.01  # the part of the attempts that take longer
    slower: float = 10  # how many times as long
    dying: float = 0.001  # the part of the attempts that die, each at any moment


def held(seconds, chances, draw):
    """How long one task holds its slot: an attempt that ends well, and before it those that died, with the pauses after them."""
    lost = 0
    for pause in (*PAUSES, None):
        length = seconds * max(0.1, draw.gauss(1, chances.spread)) * (chances.slower if draw.random() < chances.slow else 1)
        if pause is None or draw.random() >= chances.dying:
            return lost + length
        lost += length * draw.random() + pause


def clock(stage, cores, chances, seed, speculates):
    """The wall time of a stage whose tasks are drawn, each begun in order as a slot gets free. What is slow is started once more, if asked for."""
    slots, begun, ended, draw = [0.0] * cores, [], [], random.Random(seed)
    for _ in range(stage.tasks):
        begun.append(slots[0])
        ended.append(slots[0] + held(stage.seconds, chances, draw))
        heapq.heapreplace(slots, ended[-1])
    if speculates:
        start_again(slots, begun, ended, lambda: held(stage.seconds, chances, draw))
    return max(ended)


def start_again(slots, begun, ended, draw_one):
    """Starts slow tasks once more, each when no task waits and a slot is free, and changes when they have ended."""
    wait = max(LEAST_WAIT, MEDIANS * statistics.median(end - begin for begin, end in zip(begun, ended)))
    slow = sorted((max(begun[-1], begin + wait), at) for at, begin in enumerate(begun) if begin + wait < ended[at])
    for asked, at in slow:
        start = max(asked, slots[0])
        if start < ended[at]:
            copied = start + draw_one()
            heapq.heapreplace(slots, copied)
            ended[at] = min(ended[at], copied)
