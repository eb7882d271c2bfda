"""Tests all schedules of small runs: no thread sleeps for ever, and no call for space is lost.

The threads are a feed for each of two or three tables, which puts a few blocks and the ending, and
the writer, which takes from the rings in order. Each takes the steps of `crates/oim_ring/src`
(`backlog`, `waiting`, `feed`, `drain`), one access to what is shared at a time, by an own reading
of that code. From each state every thread that can go on takes its next step. A drain that sleeps
is woken only by its feed, as if the time of its sleep were never over.

A state is wrong if not all threads have ended and none can go on. It is also wrong if a feed sleeps
while there is space, and no thread is about to look, to put a block or to call a feed. With two
steps swapped, or one left out, the same search must find a wrong state.
"""
from __future__ import annotations

from typing import Any, NamedTuple

from tests.harness import CaseTest, for_each

# Parts of a state: the facts that wait, the writer's table, the count of feeds that are held back.
WAITING, TURN, HELD = range(3)
# Then for each table: whether its feed was woken since its announcement, whether it has announced
# that it may sleep, is counted as held back, and was called; the items of its ring, whether the
# ending is there, at how many items the feed is woken, and whether feed and drain were woken.
TABLE_PARTS = 9
WOKEN, ANNOUNCED, COUNTED, CALLED, ITEMS, CLOSED, FEW, FEED_WOKEN, DRAIN_WOKEN = range(TABLE_PARTS)
# Then for each thread: its next step, the blocks that a feed has yet to put or the writer's table,
# from which table and how far it looks for a feed to call, the step after that, and what it read.
THREAD_PARTS = 6
STEP, LEFT, FROM, AHEAD, AFTER, READ = range(THREAD_PARTS)
ANY = 99
END = "end"
# What a feed does that neither looks nor puts a block next, and has no call to make.
BUSY = {"decode", "push", "tell_of", "ask", "tell", "park", "close", "tell_close", "sleep", END}
# Steps that follow the one before at once in runs of three tables: all but the first of an
# announcement, a look, a call and so on. Runs of two tables take each access by itself.
JOINED = {
    *("is_full", "epoch", "not_called", "count_one", "count_all", "look_full", "leave"),
    *("leave_call", "drop_key", "call_full", "call_turn", "call_held", "call_swap"),
    *("call_waiters", "call_wake", "push", "tell_of", "tell", "tell_close", "wake"),
    *("count_left", "compare", "give"),
}

State = tuple[Any, ...]


class Run(NamedTuple):
    """The blocks of each table, how many facts may wait, and how many blocks in one ring."""

    blocks: tuple[int, ...]
    most: int
    room: int
    change: str = ""


class Threads:
    """The threads of a run. A method is a step, and returns the next one, or None if it waits."""

    def __init__(self, run: Run) -> None:
        """Prepares the steps of a run."""
        self.run = run
        self.feeds = len(run.blocks)
        self.parts: list[Any] = []
        self.me = 0
        self.table = 0
        self.at = 0

    def start(self) -> State:
        """Returns the state in which nothing was done."""
        tables = [0, 0, 0, 0, 0, 0, ANY, 0, 0] * self.feeds
        feeds = [it for left in self.run.blocks for it in ("decode", left, 0, 0, "", 0)]
        return (0, 0, 0, *tables, *feeds, "take_turn", 0, 0, 0, "", 0)

    def thread(self, number: int) -> int:
        """Returns where the parts of a thread begin."""
        return 3 + TABLE_PARTS * self.feeds + THREAD_PARTS * number

    def after(self, state: State, number: int) -> State | None:
        """Returns the state after the next step of a thread, or None if it waits or has ended."""
        self.me = self.thread(number)
        step = state[self.me]
        if step == END:
            return None
        self.parts = list(state)
        self.at = number if number < self.feeds else self.parts[self.me + LEFT]
        self.table = 3 + TABLE_PARTS * self.at
        found = getattr(self, str(step))()
        if found is None:
            return None
        while self.feeds > 2 and found in JOINED:
            found = getattr(self, found)()
        self.parts[self.me + STEP] = found
        return tuple(self.parts)

    def call_then(self, after: str) -> str:
        """Begins to call a feed, and names the step after that."""
        self.parts[self.me + AFTER] = after
        return after if self.run.change == "no call" else "call"

    # A feed waits for its turn (backlog.rt).

    def decode(self) -> str:
        """Begins the next block, or the ending."""
        return "is_held" if self.parts[self.me + LEFT] else "close"

    def is_held(self) -> str:
        """Reads the turn, before any announcement."""
        return "is_full" if self.parts[TURN] < self.at else "slots"

    def is_full(self) -> str:
        """Reads the count of facts, before any announcement."""
        if self.parts[WAITING] < self.run.most:
            return "slots"
        return "look_turn" if self.run.change == "look first" else "prepare_wait"

    def prepare_wait(self) -> str:
        """Announces a sleep to those that wake."""
        self.parts[self.table + ANNOUNCED] = 1
        return "epoch"

    def epoch(self) -> str:
        """Takes the key with which the feed will sleep."""
        self.parts[self.table + WOKEN] = 0
        return "not_called"

    def not_called(self) -> str:
        """Forgets an earlier call."""
        self.parts[self.table + CALLED] = 0
        return "count_one"

    def count_feed(self, by: int) -> None:
        """Changes the count of the place."""
        self.parts[self.table + COUNTED] += by

    def count_one(self) -> str:
        """Counts the feed as held back at its place."""
        self.count_feed(1)
        return "count_all"

    def count_all(self) -> str:
        """Counts the feed as held back in the report."""
        self.parts[HELD] += 1
        return "sleep" if self.run.change in ("no look", "look first") else "look_turn"

    def look_turn(self) -> str:
        """Reads the turn, after the announcement."""
        if self.parts[TURN] < self.at:
            return "look_full"
        return "slots" if self.run.change == "look first" else "leave_all"

    def look_full(self) -> str:
        """Reads the count of facts, after the announcement."""
        first = self.run.change == "look first"
        if self.parts[WAITING] < self.run.most:
            return "slots" if first else "leave_all"
        return "prepare_wait" if first else "sleep"

    def sleep(self) -> str | None:
        """Sleeps until a wake after the key was taken."""
        return "leave_all" if self.parts[self.table + WOKEN] else None

    def leave_all(self) -> str:
        """Counts the feed as held back in the report no more."""
        self.parts[HELD] -= 1
        return "leave"

    def leave(self) -> str:
        """Counts the feed as held back at its place no more."""
        self.count_feed(-1)
        return "leave_call"

    def leave_call(self) -> str:
        """Forgets the call."""
        self.parts[self.table + CALLED] = 0
        return "drop_key"

    def drop_key(self) -> str:
        """Takes the announcement back."""
        self.parts[self.table + ANNOUNCED] = 0
        return "is_held"

    # A thread calls a feed (backlog.rt).

    def after_call(self) -> str:
        """Returns the step after the call."""
        return str(self.parts[self.me + AFTER])

    def call(self) -> str:
        """Reads whether a feed is held back."""
        return "call_full" if self.parts[HELD] else self.after_call()

    def call_full(self) -> str:
        """Reads whether there is space."""
        is_space = self.parts[WAITING] < self.run.most
        return "call_turn" if is_space else self.after_call()

    def call_turn(self) -> str:
        """Reads where to begin."""
        self.parts[self.me + FROM] = self.parts[TURN]
        self.parts[self.me + AHEAD] = 0
        return "call_held"

    def called_place(self) -> int:
        """Returns where the parts of the place begin at which a thread looks for a feed."""
        place: int = (self.parts[self.me + FROM] + self.parts[self.me + AHEAD]) % self.feeds
        return 3 + TABLE_PARTS * place

    def call_later(self) -> str:
        """Goes to the next place."""
        self.parts[self.me + AHEAD] += 1
        is_last = self.parts[self.me + AHEAD] == self.feeds
        return self.after_call() if is_last else "call_held"

    def call_held(self) -> str:
        """Reads whether a feed is held back at a place."""
        return "call_swap" if self.parts[self.called_place() + COUNTED] else self.call_later()

    def call_swap(self) -> str:
        """Says that it calls the feed of a place, unless another thread has."""
        place = self.called_place()
        if self.parts[place + CALLED]:
            return self.call_later()
        self.parts[place + CALLED] = 1
        return "call_waiters"

    def call_waiters(self) -> str:
        """Reads whether the feed has announced a sleep."""
        is_there = self.parts[self.called_place() + ANNOUNCED]
        return "call_wake" if is_there else self.after_call()

    def call_wake(self) -> str:
        """Wakes the feed."""
        self.parts[self.called_place() + WOKEN] = 1
        return self.after_call()

    # A feed puts a block (feed.rt, waiting.rt).

    def slots(self) -> str:
        """Reads how many items wait in the ring."""
        self.parts[self.me + READ] = self.parts[self.table + ITEMS]
        if self.parts[self.table + ITEMS] < self.run.room:
            return "more"
        return "ask" if self.run.change == "not passed on" else self.call_then("ask")

    def more(self) -> str:
        """Counts a fact that waits, and then calls."""
        self.parts[WAITING] += 1
        return self.call_then("push")

    def push(self) -> str:
        """Puts the item into the ring."""
        self.parts[self.table + ITEMS] += 1
        return "tell_of"

    def tell_of(self) -> str:
        """Wakes the drain if three quarters wait."""
        if self.parts[self.me + READ] + 1 >= self.run.room - self.run.room // 4:
            self.parts[self.table + DRAIN_WOKEN] = 1
        self.parts[self.me + LEFT] -= 1
        return "decode"

    def ask(self) -> str:
        """Says at how many items the feed is to be woken."""
        self.parts[self.table + FEW] = self.run.room // 4
        return "tell"

    def tell(self) -> str:
        """Wakes the drain."""
        self.parts[self.table + DRAIN_WOKEN] = 1
        return "park"

    def park(self) -> str | None:
        """Sleeps until a wake since the last sleep."""
        if not self.parts[self.table + FEED_WOKEN]:
            return None
        self.parts[self.table + FEED_WOKEN] = 0
        return "is_held"

    def close(self) -> str:
        """Puts the ending into the ring."""
        self.parts[self.table + ITEMS] += 1
        self.parts[self.table + CLOSED] = 1
        return "tell_close"

    def tell_close(self) -> str:
        """Wakes the drain at the end."""
        self.parts[self.table + DRAIN_WOKEN] = 1
        return END

    # The writer takes an item (drain.rt, waiting.rt).

    def take_turn(self) -> str:
        """Reads whether the turn is that of this table."""
        if self.parts[TURN] == self.at:
            return "pop"
        return "wake_waiters" if self.run.change == "wake first" else "set_turn"

    def set_turn(self) -> str:
        """Says that it is."""
        self.parts[TURN] = self.at
        return "pop" if self.run.change == "wake first" else "wake_waiters"

    def woken_turn(self) -> str:
        """Goes on after the wake."""
        return "set_turn" if self.run.change == "wake first" else "pop"

    def wake_waiters(self) -> str:
        """Reads whether the feed of this table has announced a sleep."""
        return "wake" if self.parts[self.table + ANNOUNCED] else self.woken_turn()

    def wake(self) -> str:
        """Wakes it."""
        self.parts[self.table + WOKEN] = 1
        return self.woken_turn()

    def pop(self) -> str:
        """Takes an item, if one is there."""
        items = self.parts[self.table + ITEMS]
        if not items:
            return "drain_park"
        self.parts[self.table + ITEMS] = items - 1
        is_ending = items == 1 and self.parts[self.table + CLOSED]
        self.parts[self.me + READ] = ANY if is_ending else 0
        if is_ending:
            return "count_left"
        return self.call_then("less") if self.run.change == "call first" else "less"

    def less(self) -> str:
        """Counts a fact that waits no more, and then calls."""
        self.parts[WAITING] -= 1
        return "count_left" if self.run.change == "call first" else self.call_then("count_left")

    def count_left(self) -> str:
        """Reads how many items are left."""
        self.parts[self.me + READ] += self.parts[self.table + ITEMS]
        return "compare"

    def compare(self) -> str:
        """Reads at how many the feed is to be woken."""
        if self.parts[self.me + READ] % ANY <= self.parts[self.table + FEW]:
            return self.next_take() if self.run.change == "no give" else "give"
        return self.next_take()

    def give(self) -> str:
        """Wakes the feed of this ring."""
        self.parts[self.table + FEED_WOKEN] = 1
        return self.next_take()

    def next_take(self) -> str:
        """Goes on with the same table, or after its ending with the next one."""
        if self.parts[self.me + READ] < ANY:
            return "take_turn"
        self.parts[self.me + LEFT] += 1
        return END if self.parts[self.me + LEFT] == self.feeds else "take_turn"

    def drain_park(self) -> str | None:
        """Sleeps until a wake since the last sleep."""
        if not self.parts[self.table + DRAIN_WOKEN]:
            return None
        self.parts[self.table + DRAIN_WOKEN] = 0
        return "take_turn"

    # What is wrong with a state.

    def is_coming(self, state: State, number: int) -> bool:
        """Returns whether a thread is about to look, to put a block or to call a feed."""
        step = str(state[self.thread(number)])
        if number == self.feeds:
            return step.startswith("call")
        if step == "sleep":
            return bool(state[3 + TABLE_PARTS * number + WOKEN])
        return step not in BUSY

    def leaves_space(self, state: State) -> bool:
        """Returns whether a feed sleeps while there is space, and no thread is on its way."""
        if state[WAITING] >= self.run.most:
            return False
        if all(state[self.thread(it)] != "sleep" for it in range(self.feeds)):
            return False
        return not any(self.is_coming(state, it) for it in range(self.feeds + 1))


def first_wrong(run: Run) -> tuple[int, str]:
    """Returns how many states there are up to the first wrong one, and what is wrong with it."""
    threads = Threads(run)
    begin = threads.start()
    seen = {begin}
    to_do = [begin]
    everyone = range(threads.feeds + 1)
    while to_do:
        state = to_do.pop()
        later = {it for it in (threads.after(state, one) for one in everyone) if it is not None}
        if not later and any(state[threads.thread(it)] != END for it in everyone):
            return len(seen), "all sleep"
        if threads.leaves_space(state):
            return len(seen), "space is left"
        to_do += later - seen
        seen |= later
    return len(seen), ""


@for_each(
    (f"{run.blocks} blocks, {run.most} may wait, rings of {run.room}", (run,))
    for run in (
        Run((1, 1), 1, 1),
        Run((2, 0), 1, 1),
        Run((0, 3), 1, 2),
        Run((0, 1, 1), 1, 1),
        Run((1, 2, 1), 2, 1),
    )
)
class TestSchedules(CaseTest):
    """Finds nothing wrong in any schedule."""

    def check(self, run: Run) -> None:
        """Looks at each state."""
        count, wrong = first_wrong(run)
        self.assertEqual(wrong, "")
        self.assertGreater(count, 1_000)


@for_each(
    (run.change, (run, wrong))
    for run, wrong in (
        (Run((1, 1), 1, 1, "look first"), "space is left"),
        (Run((1, 1), 1, 1, "no look"), "space is left"),
        (Run((1, 1), 1, 1, "no call"), "space is left"),
        (Run((1, 1), 1, 1, "call first"), "space is left"),
        (Run((2, 0), 1, 1, "no give"), "all sleep"),
        (Run((0, 1, 1), 1, 1, "wake first"), "all sleep"),
        (Run((1, 2, 1), 2, 1, "not passed on"), "space is left"),
    )
)
class TestWrongSteps(CaseTest):
    """Finds a wrong state if two steps are swapped or one is left out."""

    def check(self, run: Run, wrong: str) -> None:
        """Looks for the first wrong state."""
        self.assertEqual(first_wrong(run)[1], wrong)
