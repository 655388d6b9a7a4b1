"""A day of work over one server, in figures: the seconds of a call of each kind, and octets.

All servers have the same day. Calls that only Tosculai has are left out for the others.
"""

import itertools
import random
from statistics import median
from time import perf_counter

from cards import rows
from wire import Failure

CALLS = 200  # calls of one kind are at most this many, beside the puts that fill the book
CHANGES = 10  # cards that change between two syncs


def mean(times):
    return sum(times) / len(times)


def seconds_of(action, *arguments):
    begun = perf_counter()
    action(*arguments)
    return perf_counter() - begun


def until(seconds, numbers):
    """The first number, and then one number after the other until the seconds are over."""
    end = perf_counter() + seconds
    for number in numbers:
        yield number
        if perf_counter() > end:
            break


class Day:
    """The day over a server whose book is empty at first."""

    def __init__(self, server, cards, seconds):
        """`cards` is how many the book has once it is filled. Calls of one kind are made for
        about `seconds`, beside the puts that fill the book."""
        self.server, self.cards, self.seconds = server, cards, seconds
        self.editions = itertools.count(1)
        # The same cards are picked on each day, from all over the book.
        self.picked = random.Random(cards).sample(range(cards), min(CALLS, cards // 4))
        self.figures, self.token = {}, ""

    def run(self):
        """Runs the day, and returns its figures by name."""
        try:
            self.server.start()
            self.write()
            self.read()
            self.sync()
            self.remove()
            self.figures["memory"] = self.server.most_memory()
        finally:
            self.server.stop()
        self.figures.update(self.server.room())
        self.start_again()
        return self.figures

    def write(self):
        """Fills the book, and changes some of its cards."""
        put, figures = self.server.put, self.figures
        figures["new"] = mean([seconds_of(put, number) for number in range(self.cards)])
        figures["change"] = mean(self._times(self._change))
        figures["alone"] = mean(self._times(lambda number: self._change(number, alone=True)))
        figures["condition"] = self._put_on_condition()

    def read(self):
        self.figures["get"] = median(self._times(self.server.get))
        for name in ("tally", "miss"):
            if hasattr(self.server, name):
                call = getattr(self.server, name)
                self.figures[name] = median(self._times(lambda _: call()))
        if hasattr(self.server, "export"):
            self.figures["export"] = median(self._times(self._export))

    def sync(self):
        self.figures["first"] = median(self._times(lambda _: self._sync("", self.cards)))
        self.figures["same"] = median(self._times(lambda _: self._sync(self.token, 0)))
        self.figures["later"] = self._sync_after_changes()

    def remove(self):
        """Deletes some cards, and moves others to another book."""
        half = len(self.picked) // 2
        self.figures["delete"] = median(self._times(self.server.delete, self.picked[:half]))
        if hasattr(self.server, "move"):
            self.figures["move"] = median(self._times(self.server.move, self.picked[half:]))

    def start_again(self):
        """Starts the server over the cards that are there, and imports others into another book."""
        try:
            self.figures["start"] = seconds_of(self.server.start)
            self.figures["opened"] = self.server.most_memory()
            if hasattr(self.server, "load"):
                self.figures["import"] = seconds_of(self.server.load, rows(self.cards))
                self.figures["loaded"] = self.server.most_memory()
        finally:
            self.server.stop()

    def _times(self, action, numbers=None):
        """The seconds of each call of the action, for the numbers of the cards that were picked."""
        numbers = self.picked if numbers is None else numbers
        return [seconds_of(action, number) for number in until(self.seconds, numbers)]

    def _change(self, number, alone=False):
        self.server.put(number, next(self.editions), alone=alone)

    def _put_on_condition(self):
        """The median of puts that name the card's version, which a get has found before."""
        times = []
        for number in until(self.seconds, self.picked):
            tag = self.server.get(number)
            times.append(seconds_of(self.server.put, number, next(self.editions), tag))
        return median(times)

    def _export(self, _):
        if self.server.export() != self.cards:
            raise Failure("an export lacks cards")

    def _sync(self, token, changed):
        """Syncs from the token, since which this many cards have changed; keeps the new token."""
        self.token, count = self.server.sync(token)
        if count != changed:
            raise Failure(f"a sync has {count} cards where {changed} have changed")

    def _sync_after_changes(self):
        """The median of syncs, each after ten puts that are not timed."""
        times = []
        for _ in until(2 * self.seconds, range(CALLS)):
            for number in self.picked[:CHANGES]:
                self._change(number)
            times.append(seconds_of(self._sync, self.token, CHANGES))
        return median(times)
