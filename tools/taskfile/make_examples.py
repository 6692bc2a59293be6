"""Write the example task files into the folder examples of the repository.

A block lies in the cache set whose number is the block modulo the sets.
"""

from pathlib import Path

from reference import Point, Task, read, write

HERE = Path(__file__).parent.parent.parent / "examples"

# Blocks of the radio task: code from 0x0800, data from 0x2000
RADIO_ENTER, RADIO_LOOP, RADIO_FIFO = 0x0800, 0x0801, 0x0802
RADIO_SUM, RADIO_STORE, RADIO_EXIT = 0x0803, 0x0804, 0x0805
RADIO_TABLE, RADIO_ERRORS, RADIO_BUFFER = 0x2005, 0x200e, 0x2014

RADIO_RECEIVE = Task(
    sets=8, ways=2, reload=24,
    points=(
        Point(RADIO_ENTER, (1,)),       # 0  enter                       set 0
        Point(RADIO_LOOP, (2,)),        # 1  wait: code of the loop      set 1
        Point(None, (1, 3, 11)),        # 2  status register, uncached:
                                        #    not ready, ready, time over
        Point(RADIO_FIFO, (4,)),        # 3  read FIFO: code             set 2
        Point(None, (5,)),              # 4  FIFO register, uncached
        Point(RADIO_SUM, (6,)),         # 5  check sum: code             set 3
        Point(RADIO_TABLE, (7, 9)),     # 6  check sum: table;           set 5
                                        #    good, bad
        Point(RADIO_STORE, (8,)),       # 7  store: code                 set 4
        Point(RADIO_BUFFER, (10,)),     # 8  store: packet buffer        set 4
        Point(RADIO_ERRORS, (10,)),     # 9  count the error             set 6
        Point(RADIO_LOOP, (1, 11)),     # 10 loop back, or packet whole  set 1
        Point(RADIO_EXIT, ()),          # 11 exit                        set 5
    ),
    # The pump control task
    evicting=(
        0x0c01,                         # code: read the float switch    set 1
        0x0c02,                         # code: step of the control      set 2
        0x0c03,                         # code: set the pump             set 3
        0x3007,                         # data: wanted pressure          set 7
        0x300d,                         # data: state of the control     set 5
        0x3017,                         # data: hours run                set 7
    ),
)

MOISTURE_FILTER = Task(
    sets=4, ways=4, reload=18,
    points=(
        Point(0x0500, (1,)),            # 0  enter                       set 0
        Point(0x0501, (2, 14)),         # 1  outer loop: next sample,    set 1
                                        #    or all done
        Point(0x1800, (3,)),            # 2  load the sample             set 0
        Point(None, (4,)),              # 3  sum = 0, in a register
        Point(0x0502, (5, 8)),          # 4  inner loop: next weight,    set 2
                                        #    or window done
        Point(0x1903, (6,)),            # 5  load the weight             set 3
        Point(0x1801, (7,)),            # 6  load the earlier sample     set 1
        Point(0x0503, (4,)),            # 7  multiply, add, loop back    set 3
        Point(0x0504, (9, 11)),         # 8  branch: out of bounds or    set 0
                                        #    in bounds
        Point(0x0505, (10,)),           # 9  out: code                   set 1
        Point(0x1a02, (13,)),           # 10 out: repeat the last value  set 2
        Point(0x0506, (12,)),           # 11 in: scale the sum           set 2
        Point(0x1a06, (13,)),           # 12 in: store the new value     set 2
        Point(None, (1,)),              # 13 step the index, loop back
        Point(0x1a07, (15,)),           # 14 write the result            set 3
        Point(0x0507, ()),              # 15 exit                        set 3
    ),
    # The radio task
    evicting=(RADIO_ENTER, RADIO_LOOP, RADIO_FIFO, RADIO_SUM, RADIO_STORE, RADIO_EXIT,
              RADIO_TABLE, RADIO_ERRORS, RADIO_BUFFER),
)


def reachable(task):
    seen, todo = set(), [0]
    while todo:
        at = todo.pop()
        if at not in seen:
            seen.add(at)
            todo.extend(task.points[at].successors)
    return seen


def main():
    HERE.mkdir(exist_ok=True)
    for name, task in (("radio-receive", RADIO_RECEIVE), ("moisture-filter", MOISTURE_FILTER)):
        data = write(task)
        assert read(data) == ("accepted", task)
        assert reachable(task) == set(range(len(task.points)))
        assert any(not point.successors for point in task.points)
        (HERE / f"{name}.task").write_bytes(data)
        own = {p.block % task.sets for p in task.points if p.block is not None}
        shared = sorted(own & {b % task.sets for b in task.evicting})
        print(f"{name}: {len(data)} bytes, {len(task.points)} points, "
              f"{len(task.evicting)} evicting blocks, sets shared: {shared}")


if __name__ == "__main__":
    main()
