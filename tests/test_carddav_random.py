"""Phones and an office change one book at the same time, while both processes are killed.

Three phones (one of vCard 3.0 that drops what it doesn't know, one of 4.0, one whose groups are
categories), Thunderbird, which changes cards without a condition, and the desk add numbers to
cards, take numbers away, add and remove cards, and put people into groups and out of them. The
desk edits older copies, and puts edits together by its own merge. Meanwhile the gateway and the
server are killed and started again, the book forgets removals, and the file is resynced. In the end
all copies are equal, and each edit that got its 2xx is there, unless a later one took it away.

`SEEDS=20 ./test carddav_random` runs more of them.
"""

import os
import random
import threading
import time
import unittest

from carddav_client import CATEGORIES, STAFF, Stack
from carddav_desk import Merger
from carddav_devices import (OFFICE, CategoryPhone, Desk, Ledger, Phone, Unseeing, categories,
                             numbers, teams)
from http_requests import card
from program import Folder
from python_client import office
from resynced import can_resync

from tosculai import Conflict, Error, lines_of

EDITS = 12  # that each device of a seed has to get acknowledged
KILLS = 6  # of processes, at least, and requests to forget
AHEAD = 8  # changes by which the desk, which needs no gateway, is ahead of the slowest phone
BETWEEN = 2  # acknowledged edits of phones between two kills, or
PAUSE = 20  # seconds
PATIENCE = 600  # seconds that this may take on a busy machine


class Random(unittest.TestCase):
    def test_seeds(self):
        for seed in range(int(os.environ.get("SEEDS", "1"))):
            with self.subTest(seed=seed), Folder(in_memory=True) as folder:
                stack = Stack(folder, CATEGORIES)
                try:
                    with Merger() as merge:
                        self.run_seed(stack, seed, merge)
                finally:
                    stack.stop()

    def run_seed(self, stack, seed, merge):
        ledger, staff = Ledger(), stack.books[0]
        for number in range(6):
            uid = f"office-{number}"
            staff.put(card(uid, "Office", *OFFICE))
            ledger.made[uid] = True
        phones = [Phone("three", ledger, seed, stack.place, "3.0"),
                  Phone("four", ledger, seed, stack.place, "4.0"),
                  CategoryPhone("cat", ledger, seed, stack.place, "3.0"),
                  Unseeing("thunderbird", ledger, seed, stack.place, "3.0")]
        desk = Desk("desk", ledger, seed, stack.server, merge)
        devices = [*phones, desk]
        faults = self.run_devices(devices, stack, random.Random(f"killer {seed}"), ledger)
        self.assertEqual([], faults)
        self.assertTrue(all(it.done >= EDITS for it in devices), [it.done for it in devices])
        self.compare(phones, desk, stack, ledger)

    def run_devices(self, devices, stack, killer, ledger):
        end, faults, is_over = time.monotonic() + PATIENCE, [], threading.Event()

        def live(device):
            while not is_over.is_set() and not faults:
                try:
                    device.step()
                except (OSError, Error):
                    time.sleep(0.02)  # a process is down
                except Exception as fault:
                    faults.append(f"{device.name}: {fault!r}")
                time.sleep(device.pause)
                while (device is devices[-1] and not is_over.is_set() and not faults
                       and device.done > min(it.done for it in devices) + AHEAD):
                    time.sleep(0.02)

        threads = [threading.Thread(target=live, args=(it,)) for it in devices]
        for it in threads:
            it.start()
        kills, harms = 0, [stack.restart, stack.restart_server, lambda: self.forget(stack)]
        harms += [stack.resync] * can_resync()
        while time.monotonic() < end and not faults and (
                kills < KILLS or any(it.done < EDITS for it in devices)):
            time.sleep(killer.uniform(0.1, 0.5))
            done, until = sum(it.done for it in devices[:-1]), min(end, time.monotonic() + PAUSE)
            while (sum(it.done for it in devices[:-1]) < done + BETWEEN
                   and time.monotonic() < until and not faults):
                time.sleep(0.02)
            killer.choice(harms)()
            kills += 1
        is_over.set()
        for it in threads:
            it.join()
        return faults

    def forget(self, stack):
        try:
            staff = stack.office.book("staff")
            staff.forget(staff.tally()["number"])
        except Error:
            pass

    def compare(self, phones, desk, stack, ledger):
        """All copies have what the server has, and the server has what the ledger wants."""
        fresh = [Phone("fresh3", ledger, 0, stack.place, "3.0"),
                 Phone("fresh4", ledger, 0, stack.place, "4.0"),
                 CategoryPhone("freshcat", ledger, 0, stack.place, "3.0"),
                 Unseeing("freshbird", ledger, 0, stack.place, "3.0")]
        phones[2].pull()  # what a killed gateway has left is done by this
        desk.copy = {}
        desk.seen()
        server = {uid: it.text for uid, it in sorted(desk.copy.items())}
        self.assertEqual([], ledger.check(server))
        self.compare_groups(phones[2], server)
        for old, new in zip(phones, fresh):
            old.pull()
            new.pull()
            self.assertEqual(new.copy, old.copy)
            found = {next(it[4:] for it in lines_of(text) if it.startswith("UID:")): numbers(text)
                     for _, text in new.copy.values()}
            wanted = desk.people() if old is phones[2] else server
            self.assertEqual({uid: numbers(server[uid]) for uid in wanted}, found)
            old.dav.close()
            new.dav.close()

    def compare_groups(self, phone, server):
        """The phone shows each person with the groups that have it."""
        names = teams(server)
        for _, text in phone.copy.values():
            uid = next(it[4:] for it in lines_of(text) if it.startswith("UID:"))
            self.assertEqual(names[uid], categories(text), uid)


class OneCard(unittest.TestCase):
    """Five phones and the office edit one card, each until it is taken. Thunderbird edits it, too:
    without a condition, and what it has read some edits ago."""

    EDITS = 10

    def test_no_edit_is_lost(self):
        with Folder(in_memory=True) as folder:
            stack = Stack(folder)
            try:
                self.run_phones(stack)
            finally:
                stack.stop()

    def phone(self, stack, name, done, faults):
        dav = stack.client(program=f"phone{name}/1.0")
        for number in range(self.EDITS):
            reply = None
            while reply is None or reply.status == 412:
                got = dav.ask("GET", STAFF + "a.vcf")
                line = f"TEL:+{name}-{number}\r\nEND:VCARD"
                reply = dav.ask("PUT", STAFF + "a.vcf", got.text.replace("END:VCARD", line),
                                If_Match=got.etag)
            done.append(f"+{name}-{number}")
            faults += [] if reply.status == 204 else [reply]
        dav.close()

    def thunderbird(self, stack, done, faults):
        dav = stack.client(program=Unseeing.agent)
        for number in range(self.EDITS):
            got = dav.ask("GET", STAFF + "a.vcf")
            time.sleep(0.05)
            line = f"TEL:+bird-{number}\r\nEND:VCARD"
            reply = dav.ask("PUT", STAFF + "a.vcf", got.text.replace("END:VCARD", line))
            done.append(f"+bird-{number}")
            faults += [] if reply.status == 204 else [reply]
        dav.close()

    def desk(self, stack, done):
        book, number = office(stack.server).book("staff"), 0
        while number < self.EDITS:
            there = book.get("a")
            line = f"TEL:+desk-{number}\r\nEND:VCARD"
            try:
                book.put(there.text.replace("END:VCARD", line), there.version)
            except Conflict:
                continue
            done.append(f"+desk-{number}")
            number += 1

    def run_phones(self, stack):
        staff, done, faults = stack.books[0], [], []
        staff.put(card("a", "Ann", *OFFICE))
        threads = [threading.Thread(target=self.phone, args=(stack, it, done, faults))
                   for it in range(5)]
        threads.append(threading.Thread(target=self.desk, args=(stack, done)))
        threads.append(threading.Thread(target=self.thunderbird, args=(stack, done, faults)))
        for it in threads:
            it.start()
        for it in threads:
            it.join()
        self.assertEqual([], faults)
        self.assertEqual(7 * self.EDITS, len(done))
        text = staff.get("a").text
        self.assertEqual(set(done), numbers(text))
        for line in OFFICE:
            self.assertIn(line, lines_of(text))


if __name__ == "__main__":
    unittest.main()
