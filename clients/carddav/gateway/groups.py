"""A book for programs that know groups as categories alone: a view of it, and their edits.

The person's card is written first, under the version that was seen. Then each group is written
under its own version, again and again while others change it. What is to be done with groups is
kept before that as a wish (shown.py). After a stop in between, the next look at the book finds the
wish, and does it if the person's card was written.
"""

import threading
import uuid
from typing import Callable, List, Optional, Tuple

from tosculai import Conflict, InvalidToken, Refused, lines_of, uid_of

from gateway import categories, edits
from gateway.books import AddressBook, Changes, epoch_in
from gateway.cards import BadText, bare_uid
from gateway.categories import Edit
from gateway.edits import Conditions, Failed, Sent, Stored, UidInUse
from gateway.photos import Fitted, NoRoom
from gateway.shown import Shown, Wish, digest_of
from gateway.state import Entry

ROUNDS = 20  # attempts of a change of a group, if others change it meanwhile
TOKEN, EPOCH = "urn:tosculai:categories:", "?categories="
making = threading.Lock()


def view_of(book: AddressBook) -> "CategoryBook":
    with making:
        if not isinstance(book.view, CategoryBook):
            book.view = CategoryBook(book)
        return book.view


class CategoryBook(AddressBook):
    """A book whose groups are categories of its people. Groups themselves aren't shown."""

    def __init__(self, book: AddressBook) -> None:
        super().__init__(book.shelf, book.name, book.number)
        self._plain, self.lock, self.shown = book, book.lock, Shown(book.state, book.number)

    @property
    def plain(self) -> AddressBook:
        return self._plain

    def refresh(self) -> str:
        with self.lock:
            epoch = epoch_in(self.plain.refresh())
            number = self.shown.follow()
            for wish in self.shown.wishes():
                self._repair(wish)
                number = self.shown.follow()
            return self._token(number, epoch)

    def _follow(self) -> int:
        self.plain.refresh()
        return self.shown.follow()

    def _token(self, number: int, epoch: str) -> str:
        return f"{TOKEN}{number}{EPOCH}{epoch}"

    def suspect(self, uid: str, old: Optional[Entry]) -> None:
        self.plain.suspect(uid, old)

    # Reading.

    def entries(self) -> List[Entry]:
        with self.lock:
            self.shown.follow()
            return self.shown.entries()

    def named(self, name: str) -> Optional[Entry]:
        with self.lock:
            self.shown.follow()
            return self.shown.entry("names.name", name)

    def card(self, column: str, value: str) -> Optional[Tuple[Entry, str]]:
        with self.lock:
            self.shown.follow()
            return self.shown.card(column, value)

    def text(self, entry: Entry) -> Optional[str]:
        found = self.card("cards.uid", entry.uid)
        return found[1] if found and found[0].etag == entry.etag else None

    def changes(self, wrapped: str, limit: Optional[int] = None) -> Changes:
        with self.lock:
            now = self.refresh()
            epoch = now.rpartition(EPOCH)[2]
            last = self._number(now, epoch)
            since = self._number(wrapped, epoch) if wrapped else 0
            if since > last:
                raise refused()
            rows = self.shown.since(since, -1 if limit is None else limit + 1)
            truncated = limit is not None and len(rows) > limit
            rows = rows[:limit]
            found = [self.shown.entry("cards.uid", it.uid) for it in rows if it.is_there]
            old = [it for row in rows for it in self.state.names(self.number, row.uid)]
            gone = [it for it in dict.fromkeys(old) if not self.named(it)] if wrapped else []
            token = self._token(rows[-1].number, epoch) if truncated else now
            return Changes([it for it in found if it], gone, token, truncated)

    def _number(self, wrapped: str, epoch: str) -> int:
        token, _, own = wrapped.rpartition(EPOCH)
        number = token[len(TOKEN):]
        if not (token.startswith(TOKEN) and own == epoch and number.isdecimal()
                and len(number) < 16):
            raise refused()
        return int(number)

    # Changing groups.

    def repair(self) -> None:
        """Does what was left to do when the gateway stopped."""
        if self.shown.wishes():
            self.refresh()

    def _repair(self, wish: Wish) -> None:
        """Does what is left to do; but not with groups that were changed since.

        That was done by this very wish, or by others, whose changes it mustn't undo so late.
        """
        found = self.state.text(self.number, wish.uid)
        same = {it for it, seen in wish.teams.items() if self.shown.versions(it) == seen}
        try:
            if found and digest_of(found[1]) == wish.digest:
                self.settle(wish._replace(joins=[it for it in wish.joins if it in same],
                                          leaves=[it for it in wish.leaves if it in same]))
        except Failed as fault:
            self.shelf.say(f"{self.name}: {wish.uid}: {fault}")
            return
        except Refused as refusal:
            if may_pass(refusal):
                raise
            self.shelf.say(f"{self.name}: the groups of {wish.uid} stay as they are: {refusal}")
        self.shown.forget(wish.uid)

    def settle(self, wish: Wish, user: str = "") -> None:
        """Lets the person leave and join groups, and forgets the wish; unless the server fails."""
        try:
            for name in wish.leaves:
                self._until(lambda it=name: self._leave(it, wish.uid, user))  # type: ignore[misc]
            for name in wish.joins:
                self._until(lambda it=name: self._join(it, wish.uid, user))  # type: ignore[misc]
        except Refused as refusal:
            if not may_pass(refusal):
                self.shown.forget(wish.uid)
            raise
        self.shown.forget(wish.uid)

    def _until(self, is_done: Callable[[], bool]) -> None:
        for _ in range(ROUNDS):
            self._follow()
            if is_done():
                return
        raise Failed("others change the groups all the time")

    def _leave(self, name: str, uid: str, user: str) -> bool:
        """Whether no group of this name has the person; else takes it out of one after another."""
        teams = [team for team, has in self.shown.teams(name, bare_uid(uid)) if has]
        for team in teams:
            self._rewrite(team, lambda text: categories.left(text, bare_uid(uid)), user)
        return not teams

    def _join(self, name: str, uid: str, user: str) -> bool:
        """Whether a group of this name has the person; else puts it into one, or makes one."""
        teams = self.shown.teams(name, bare_uid(uid))
        if any(has for _, has in teams):
            return True
        if teams:
            self._rewrite(teams[0][0], lambda text: categories.joined(text, uid), user)
        else:
            team = f"urn:uuid:{uuid.uuid4()}"
            self._write(categories.new_team(team, name, uid), 0, team, user)
        return False

    def _rewrite(self, team: str, change: Callable[[str], str], user: str) -> None:
        old, found = self.state.entry(self.number, team), self.state.text(self.number, team)
        if old and found:
            try:
                self._write(change(found[1]), old.version, team, user)
            except Conflict:
                self.plain.suspect(team, old)

    def _write(self, text: str, version: int, team: str, user: str) -> None:
        with self.shelf.offices.one(user) as office:
            office.book(self.name).put(text, version, team)


def may_pass(refusal: Refused) -> bool:
    """Whether the same request may be taken later."""
    return refusal.status in (500, 502, 503, 504)


def refused() -> InvalidToken:
    return InvalidToken(403, {"fault": "valid-sync-token", "number": 10, "cause": 1})


def put(view: AddressBook, name: str, sent: Sent, conditions: Conditions) -> Stored:
    """Stores the card that a client sends, and changes its groups."""
    assert isinstance(view, CategoryBook)
    with view.lock:
        for _ in range(edits.ROUNDS):
            view.refresh()
            shown, old = view.named(name), view.plain.named(name)
            if old and not shown:
                raise UidInUse("a group of the book has this name", name)
            base = (view.plain.text(old) or "") if old else ""
            fault = conditions.fault(shown)
            if fault and not (shown and conditions.match):
                raise fault
            made = edits.with_edits_of_others(view, sent, conditions, shown)
            edit = categories.edit_of(made.text, base, view.shown.names(old.uid) if old else [])
            plain = sent._replace(text=edit.text, known=frozenset(["CATEGORIES"]))
            fitted = edits.merged(view.plain, name, plain, old, base)
            lines = lines_of(fitted.text)
            if categories.is_group(lines):
                raise BadText("groups are categories for this user (--groups)")
            if fault and (lines != lines_of(base) or edit.joins or edit.leaves):
                raise fault  # else the edit was made before, and its reply was lost
            if _put_once(view, name, plain, old, base, fitted, edit):
                return _stored(view, name, shown is None, sent.text)
            view.suspect(uid_of(fitted.text), old)
            if conditions.any:
                raise Failed("somebody else changed the card at the same moment")
    raise Failed("others change the card all the time")


def _put_once(view: CategoryBook, name: str, plain: Sent, old: Optional[Entry], base: str,
              fitted: Fitted, edit: Edit) -> bool:
    """One attempt; whether nobody else was faster."""
    teams = {it: view.shown.versions(it) for it in (*edit.joins, *edit.leaves)}
    wish = Wish(uid_of(fitted.text), digest_of(fitted.text), edit.joins, edit.leaves, teams)
    edits.check_uid(view.plain, name, old, wish.uid)
    has_wish = bool(wish.joins or wish.leaves)
    if has_wish:
        view.shown.wish(wish)
    try:
        is_done = edits.put_once(view.plain, name, plain, old, base, fitted) is not None
    except (Refused, NoRoom):
        view.shown.forget(wish.uid)
        raise
    if has_wish and is_done:
        view.settle(wish, plain.user)
    elif has_wish:
        view.shown.forget(wish.uid)
    return is_done


def _stored(view: CategoryBook, name: str, is_new: bool, text: str) -> Stored:
    view.refresh()
    new = view.named(name)
    is_read = new is not None and edits.is_same(view, view.text(new) or "", text)
    return Stored(is_new, new.etag if new and is_read else "")
