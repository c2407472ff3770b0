"""Carries uploads out in a room, each as one group, and takes the last ones back.

An upload is planned on the map, and sent with the number of its last entry. So the room refuses it if another author
changed since what it would change. If the room refuses the group, somebody was quicker: the plan is made again on the
map as it is then, so that a conflict is always reported by a plan, in the API's words.

The room compares parts of elements, and the API elements. If an entry in between changed another part of an element of
the upload, or was by another program of the same author, the group is taken back and planned again."""
import asyncio
import contextlib
import time
from collections.abc import AsyncIterator, Awaitable, Callable, Iterator, Mapping, Sequence
from dataclasses import dataclass, replace
from typing import TypeVar

from .connection import MISSED, OVERTAKEN, UNKNOWN, Accepted, Answer, Refusal, RoomConnection
from .documents import Change, ChangeAction, ResultRow
from .elements import GONE_DIGEST, is_same, references
from .errors import ApiError, bad_request, no_connection
from .ids import KINDS_BY_WORD, api_id, kind_of, room_name
from .ledger import FIRST_VERSION, Known, PendingUpload
from .planner import Plan, Planned, Planner
from .room_map import RoomMap, Watch, last_of, rows_are
from .taking_back import Group, Left, TakingBack
from .working import worked

MOST_TRIES = 4

# How many steps are planned at once, which takes a few milliseconds.
STEPS_AT_ONCE = 50

# For how many seconds an upload waits for a session of its author. It has not been sent then, and no other upload
# waits for it.
SESSION_SECONDS = 10.0

# How many answers are kept for requests that are repeated because an answer was lost, and how many uploads of an author
# for undos.
MOST_KEPT, MOST_DONE = 100, 1_000

# After how many seconds an editor has the answer to its upload.
ANSWERED_SECONDS = 10.0

# How many elements an error names at most.
MOST_NAMED = 20

BROKEN = (
    "The connection to the room broke. Nothing of this upload stays in the room: if the room accepted it, it "
    "is undone."
)
LOST = (
    "The server was restarted while the upload was on its way, and cannot be reached since. Update the data to "
    "see whether the room has the upload."
)
BUSY = "An upload is still under way. Nothing was done."
NO_SESSION = "No worker of the server is free, so nothing was done. Try again later, or ask who runs the server for more workers."
UNSETTLED = "An earlier upload is still on its way to the room. Nothing of this upload was sent."
FULL = (
    "The room's journal is full, so nothing was uploaded. Ask who runs the server to save the map and start it "
    "again."
)

Result = TypeVar("Result")


@dataclass(frozen=True)
class Upload:
    """What is uploaded: who uploads it, and where to. `request` identifies the request of the editor, and
    `first_number` is the number of its first new element, if a plan does not choose it."""

    author: str
    changeset: int
    changes: Sequence[Change]
    request: str
    first_number: int | None = None


@dataclass(frozen=True)
class Draft:
    """A plan that is not sent yet, with the last entry and the run of the server that the map had when it was begun."""

    plan: Plan
    seq: int
    run: int


@dataclass(frozen=True)
class Outcome:
    """What became of a plan: the room's refusal, or the versions of its elements."""

    refusal: Refusal | None
    versions: Mapping[str, int]


@dataclass(frozen=True)
class Attempt:
    """A plan that is sent, and what the map was when it was made: its last entry, the run of the server, what the
    ledger knew of the elements that the plan touches, and the versions of those that it names. `watch` has what entries
    do to these elements since."""

    upload: Upload
    plan: Plan
    seen: int
    run: int
    before: dict[str, Known]
    versions: dict[str, int]
    watch: Watch


@dataclass(frozen=True)
class Done:
    """An upload that the room accepted."""

    seq: int
    changeset: int
    count: int
    time: float

    @property
    def in_words(self) -> str:
        """The upload, for its author."""
        return f"changeset {self.changeset}, {self.count} change{'' if self.count == 1 else 's'}"


class Uploads:
    """Uploads of all authors to one room. Several are planned at a time, and one is under way: it holds a lock."""

    def __init__(
        self, room: RoomConnection, room_map: RoomMap, seconds: float, note: Callable[[str], None] = lambda line: None
    ) -> None:
        self._room, self._map, self._seconds, self._note = room, room_map, seconds, note
        self._taking_back = TakingBack(room, room_map, note)
        self._ledger = room_map.ledger
        self._done: dict[str, list[Done]] = {}
        self._undone: dict[str, list[Done]] = {}
        self._kept: dict[str, list[ResultRow]] = {}
        self._settling: asyncio.Task[None] | None = None
        self._run = room_map.run
        self._lock = asyncio.Lock()

    @contextlib.asynccontextmanager
    async def _alone(self, author: str) -> AsyncIterator[None]:
        """Has an author's upload or undo be the only one under way. Raises ApiError 503.

        The author's session comes first: it may wait for a worker of the server, and then nobody else waits for it."""
        try:
            async with asyncio.timeout(min(SESSION_SECONDS, self._seconds)):
                await self._room.join(author)
        except TimeoutError:
            raise no_connection(NO_SESSION) from None
        try:
            async with asyncio.timeout(self._seconds):
                await self._lock.acquire()
        except TimeoutError:
            raise no_connection(BUSY) from None
        try:
            await self.settled()
            yield
        finally:
            self._lock.release()

    # uploads

    async def upload(self, upload: Upload) -> list[ResultRow]:
        """Carries out an upload, and returns what became of its elements.

        Raises ApiError: what `plan_upload` raises; 400 if the journal is full; 409 if the room refuses the upload
        again and again, or if it was overtaken and something of it stays; 503 if the connection breaks, or no worker
        of the server or no turn of the uploads comes in time, and then nothing of the upload stays."""
        if upload.request in self._kept:
            return self._kept.pop(upload.request)
        await self.settled()
        count = sum(change.action is ChangeAction.CREATE for change in upload.changes)
        with self._map.reserved(count) as first_number:
            upload = replace(upload, first_number=first_number)
            draft = await self._first_draft(upload)
            if draft and not draft.plan.actions:
                return results_of(draft.plan.results, self._present_versions(draft.plan))
            async with self._alone(upload.author):
                try:
                    return await self._uploaded(upload, draft)
                finally:
                    if self._settling is None:
                        self._map.unwatch()

    async def _first_draft(self, upload: Upload) -> Draft | None:
        """Plans an upload, while another may be under way. Returns None if the API refuses it then, since the other
        may be taken back."""
        try:
            return await self._drafted(upload)
        except ApiError:
            if self._lock.locked() or self._settling:
                return None
            raise

    async def _uploaded(self, upload: Upload, draft: Draft | None) -> list[ResultRow]:
        """Sends an upload that was planned. Plans and sends it again if another was quicker."""
        refusal: Refusal | None = None
        for _ in range(MOST_TRIES):
            plan, draft = await self._settled_plan(upload, draft), None
            attempt = self._attempt(upload, plan)
            outcome = await self._carried_out(attempt) if plan.actions else Outcome(None, attempt.versions)
            if outcome.refusal is None:
                return results_of(plan.results, outcome.versions)
            refusal = outcome.refusal
            if refusal.why == "full":
                raise bad_request(FULL)
            if refusal.why == "memory":
                raise no_connection("The server is out of memory, so nothing was uploaded")
        assert refusal is not None
        raise ApiError(409, f"The room refused the upload {MOST_TRIES} times: {refusal.in_words(self._room.authors)}")

    async def _settled_plan(self, upload: Upload, draft: Draft | None) -> Plan:
        """Returns the plan of an upload on the present map.

        If it builds on an entry that another bridge may still take back, it waits until that is over. Otherwise the
        entry could not be undone any more, and the upload would count on what was never meant to stay."""
        began = time.monotonic()
        while True:
            if draft is None or not self._holds(draft):
                draft = await self._drafted(upload)
            plan = draft.plan
            unsettled = self._map.unsettled(began) if plan.actions else {}
            entry = await worked(last_of, unsettled, names_in(plan)) if unsettled else None
            if entry:
                await self._map.settled(entry)
            elif self._holds(draft):  # others may have changed its elements meanwhile
                return plan

    async def _drafted(self, upload: Upload) -> Draft:
        """Plans an upload on the present map. Others go on meanwhile. If they change elements of the upload, it is
        planned again. It is so too if the API refuses it and the map has changed, since the plan may have seen half of
        that. Raises ApiError, and 409 if others change the elements again and again."""
        refusal = ApiError(409, "Others change the elements of this upload at the moment. Nothing was uploaded.")
        for _ in range(MOST_TRIES):
            await self._in_time(self._room.catch_up(), no_connection(BROKEN))
            seq, run, changes = self._map.seq, self._map.run, self._map.changes
            try:
                draft = Draft(await self._planned(upload), seq, run)
            except ApiError as fault:
                if self._map.changes == changes:
                    raise
                refusal = fault
                continue
            if self._holds(draft):
                return draft
        raise refusal

    async def _planned(self, upload: Upload) -> Plan:
        """Plans an upload, a few steps at a time. Raises what `plan_upload` raises."""
        planner = Planner(self._map, upload.changeset, first_number=upload.first_number)
        for start in range(0, len(upload.changes), STEPS_AT_ONCE):
            await worked(planner.add_all, upload.changes[start : start + STEPS_AT_ONCE])
        return await worked(planner.whole)

    def _holds(self, draft: Draft) -> bool:
        """Returns whether nobody changed the elements of a draft since it was begun."""
        return self._map.is_same_since(draft.plan.rows.keys(), draft.seq, draft.run)

    def _attempt(self, upload: Upload, plan: Plan) -> Attempt:
        """Returns an attempt with a plan, on the present map."""
        return Attempt(
            upload,
            plan,
            self._map.seq,
            self._map.run,
            self._map.states_before(plan.rows),
            self._present_versions(plan),
            self._map.watch(plan.rows),
        )

    def _present_versions(self, plan: Plan) -> dict[str, int]:
        """Returns the present versions of the elements that the results of a plan name."""
        return {name: self._map.version(name) or FIRST_VERSION for name in plan.digests}

    async def _carried_out(self, attempt: Attempt) -> Outcome:
        """Sends a plan. If it is accepted although others changed its elements in between, it is taken back, and that
        is reported as a conflict."""
        self._map.expect(attempt.plan.created)
        try:
            answer = await self._send(attempt)
            if isinstance(answer, Refusal):
                if answer.why == "nothing" and "action" not in answer.fields:  # the actions cancel each other out
                    return Outcome(None, attempt.versions)
                if answer.why != UNKNOWN:
                    return Outcome(answer, {})
                await self._in_time(
                    self._room.catch_up(), ApiError(409, LOST), lambda: self._ledger.settle(attempt.upload.request)
                )
                return self._after_restart(attempt)
            group = self._accepted(attempt, answer)
            await self._in_time(
                self._taking_back.seen(group.seq, group.run),
                no_connection(BROKEN),
                lambda: self._settle_soon(self._taken_back(attempt, group)),
            )
            if self._map.run != group.run:
                return self._after_restart(attempt)
            outcome = self._compared(attempt, group)
            if outcome.refusal is None:
                self._settle_later(attempt.upload.request)
                self._map.note_own(group.seq, True)
                self._remember(attempt.upload, group.seq)
                return Outcome(None, {**attempt.versions, **outcome.versions})
            await self._take_back(attempt, group, outcome.refusal)
            return outcome
        finally:
            self._map.expect(())

    def _accepted(self, attempt: Attempt, answer: Accepted) -> Group:
        """Returns the group of a plan that the room accepted. The room forgets what its author could redo."""
        author = attempt.upload.author
        self._map.note_own(answer.seq)
        self._undone.pop(author, None)
        return Group(author, answer.seq, attempt.run if answer.run is None else answer.run, attempt.watch)

    async def _send(self, attempt: Attempt) -> Answer:
        """Sends a plan as a group. The ledger has it until it is answered, so that after a kill the bridge can ask the
        room what became of it."""
        upload, plan = attempt.upload, attempt.plan
        results = tuple(
            (each.kind.value, each.old_id, each.name, plan.digests[each.name] if each.name else GONE_DIGEST)
            for each in plan.results
        )

        is_announced = False

        def announce(message: int) -> None:
            nonlocal is_announced
            if sent.cancelling():
                raise asyncio.CancelledError
            is_announced = True
            pending = PendingUpload(upload.request, upload.author, upload.changeset, message, results, attempt.seen)
            self._ledger.begin(pending)

        def give_up() -> None:
            if is_announced:
                self._settle_soon(self._give_up(attempt, sent))
            else:  # it waits for a session of its author, and was not sent
                sent.cancel()

        sent = asyncio.create_task(self._room.send_group(upload.author, plan.actions, announce, attempt.seen))
        answer = await self._in_time(asyncio.shield(sent), no_connection(BROKEN), give_up)
        if isinstance(answer, Refusal) and answer.why != UNKNOWN:
            self._ledger.settle(upload.request)
        return answer

    def _settle_later(self, request: str) -> None:
        """Has the ledger note that nobody overtook an upload, and forget it after a while. If the bridge is killed
        before the editor has the answer, the next bridge can still give it."""
        pending = replace(self._ledger.pending[request], seen=None)
        self._ledger.begin(pending)

        def settle() -> None:
            if self._ledger.pending.get(request) is pending:
                self._ledger.settle(request)

        asyncio.get_running_loop().call_later(ANSWERED_SECONDS, settle)

    def _compared(self, attempt: Attempt, group: Group) -> Outcome:
        """Returns the versions that a group gave, or a conflict.

        It is a conflict if another entry changed an element of the plan after the plan was made, and before the group;
        or if some entries in between were missed, so that nobody knows."""
        rows = attempt.plan.rows
        if group.run == attempt.run:
            between = attempt.watch.between(attempt.seen, group.seq)
        else:  # the room knew the message, so it is the same run, but nobody could ask that when the map came anew
            between = [] if group.seq == attempt.seen + 1 and rows_are(self._map, rows) else None
        if between is None:
            return Outcome(Refusal(MISSED), {})
        if between:
            fields = {"with": between[0].entry.seq, "at": min(between[0].after)}
            return Outcome(Refusal(OVERTAKEN, fields), {})
        step = attempt.watch.step(group.seq)
        return Outcome(None, step.entry.versions if step else self._map.versions_of(rows))

    async def _take_back(self, attempt: Attempt, group: Group, conflict: Refusal) -> None:
        """Takes a group back that was accepted over others' changes. Raises ApiError 409 if something of it stays."""
        why = conflict.in_words(self._room.authors)
        self._note(f"entry {group.seq} of {group.author}, an upload, is taken back: {why}")
        taking_back = asyncio.create_task(self._taken_back(attempt, group))
        left = await self._in_time(
            asyncio.shield(taking_back), no_connection(BROKEN), lambda: self._settle_soon(taking_back)
        )
        if not left.names:
            return
        if left.is_whole:
            self._remember(attempt.upload, group.seq)
        assert left.refusal is not None
        authors, what = self._room.authors, "The upload" if left.is_whole else "A part of the upload"
        names = ", ".join(f"{kind_of(name).value} {api_id(name)}" for name in left.names[:MOST_NAMED])
        raise ApiError(
            409,
            f"{what} stays in the room, although {conflict.in_words(authors)}: "
            f"{left.refusal.in_words(authors)}. Update the data, and look at {names}",
        )

    async def _taken_back(self, attempt: Attempt, group: Group) -> Left:
        """Takes a group back, and returns what is left. Versions are as before, for elements that nobody saw."""
        left = await self._taking_back.take_back(group)
        self._ledger.settle(attempt.upload.request)
        self._map.restore(attempt.before, attempt.watch)
        if left.names and left.refusal:
            why = left.refusal.in_words(self._room.authors)
            self._note(f"entry {group.seq} of {group.author} stays, with {len(left.names)} elements: {why}")
        return left

    def _after_restart(self, attempt: Attempt) -> Outcome:
        """Finds out whether the room accepted a group before the server was restarted.

        The room has all of the group or nothing. The map shows which: it has an element that the group created, or all
        elements are as the group left them."""
        plan = attempt.plan
        created = [(self._map.row(name), plan.rows[name]) for name in plan.created if plan.rows[name]]
        if any(is_same(row, planned) for row, planned in created) or rows_are(self._map, plan.rows):
            self._note(f"{attempt.upload.author}'s upload was accepted before the server was restarted")
            self._settle_later(attempt.upload.request)
            return Outcome(None, {**attempt.versions, **self._map.versions_of(plan.rows)})
        self._ledger.settle(attempt.upload.request)
        self._map.restore(attempt.before, attempt.watch)
        return Outcome(Refusal(UNKNOWN), {})

    # what is cut off in the middle

    async def _in_time(
        self, awaited: Awaitable[Result], fault: ApiError, give_up: Callable[[], None] = lambda: None
    ) -> Result:
        """Waits for the room, but no longer than an upload may take."""
        try:
            return await asyncio.wait_for(awaited, self._seconds)
        except asyncio.TimeoutError:
            give_up()
            raise fault from None

    async def settled(self) -> None:
        """Waits until an upload that was given up is settled. Raises ApiError 503 if that takes too long."""
        if self._settling:
            await self._in_time(asyncio.shield(self._settling), no_connection(UNSETTLED))
        self._forget_other_run()

    def _forget_other_run(self) -> None:
        """Forgets uploads of another run of the server, whose entries are not those of this one."""
        if self._run != self._map.run:
            self._run = self._map.run
            self._done.clear()
            self._undone.clear()

    def _settle_soon(self, settling: Awaitable[object]) -> None:
        """Starts to settle an upload that was given up, in the background."""

        async def settle() -> None:
            try:
                await settling
            except Exception as fault:  # nobody else waits for it
                self._note(f"an upload was not settled: {fault!r}")
            finally:
                self._settling = None
                self._map.unwatch()

        self._settling = asyncio.get_running_loop().create_task(settle())

    async def _give_up(self, attempt: Attempt, sent: "asyncio.Task[Answer]") -> None:
        """Waits for the answer to an upload that was given up, and takes it back if the room accepted it."""
        answer = await sent
        if isinstance(answer, Accepted):
            await self._taken_back(attempt, self._accepted(attempt, answer))
        else:
            self._ledger.settle(attempt.upload.request)

    async def recover(self) -> list[PendingUpload]:
        """Asks the room about the uploads that a killed bridge had sent. The answers of those that it accepted are
        kept, since the editor may repeat the request. Returns those uploads.

        An upload that may be overtaken is undone instead, and the editor's next try is planned anew.
        If the server was restarted as well, it does not know the message. Then the map shows whether it was accepted,
        and the upload cannot be undone."""
        accepted = []
        for pending in list(self._ledger.pending.values()):
            seq = await self._room.entry_of(pending.author, pending.message)
            planned = [Planned(KINDS_BY_WORD[word], old, name) for word, old, name, _ in pending.results]
            if seq is not None and pending.may_be_overtaken(seq) and await self._is_undone(pending.author, seq):
                self._ledger.settle(pending.request)
                continue
            if seq is not None:
                self._remember(Upload(pending.author, pending.changeset, (), pending.request), seq, len(planned))
            if seq is not None or self._is_in_map(pending):
                self.keep(pending.request, results_of(planned, self._recovered_versions(pending)))
                accepted.append(pending)
            self._ledger.settle(pending.request)
        return accepted

    async def _is_undone(self, author: str, seq: int) -> bool:
        """Undoes an upload of a killed bridge that may be overtaken. Returns whether it is undone."""
        answer = await self._room.undo(author, seq)
        if isinstance(answer, Accepted):
            self._note(f"entry {seq} of {author}, an upload, is undone, as another may have overtaken it")
            self._map.note_own(answer.seq)
            await self._taking_back.seen(answer.seq, self._map.run)
        elif answer.why != "not_standing":
            self._note(f"the room refuses to undo entry {seq} of {author}: {answer.in_words(self._room.authors)}")
            return False
        return True

    def _is_in_map(self, pending: PendingUpload) -> bool:
        """Returns whether the map has an element that an upload created, or all its elements as it left them."""
        found = []
        for word, old, name, state in pending.results:
            known = self._ledger.known.get(name or room_name(KINDS_BY_WORD[word], old))
            found.append((old, known is not None and known.digest == state))
        return any(is_there for old, is_there in found if old < 0) or all(is_there for _, is_there in found)

    def _recovered_versions(self, pending: PendingUpload) -> dict[str, int]:
        """Returns the versions for the editor of an upload that was sent by a killed bridge."""
        versions = {}
        for _, _, name, state in pending.results:
            known = self._ledger.known.get(name or "")
            if name:
                versions[name] = self._map.version_for(name, known is not None and known.digest == state)
        return versions

    def keep(self, request: str, results: list[ResultRow]) -> None:
        """Keeps the answer of a request whose connection broke, in case the editor repeats it."""
        self._kept[request] = results
        while len(self._kept) > MOST_KEPT:
            del self._kept[next(iter(self._kept))]

    # undo and redo

    def _remember(self, upload: Upload, seq: int, count: int | None = None) -> None:
        """Notes an upload that can be undone."""
        self._forget_other_run()
        done = self._done.setdefault(upload.author, [])
        done.append(Done(seq, upload.changeset, len(upload.changes) if count is None else count, self._map.clock()))
        del done[:-MOST_DONE]

    def done_by(self, author: str) -> Sequence[Done]:
        """Returns the uploads of an author that can be undone, in their order."""
        return self._done.get(author, ()) if self._run == self._map.run else ()

    def undone_by(self, author: str) -> Sequence[Done]:
        """Returns the uploads of an author that can be redone, in the order in which they were undone."""
        return self._undone.get(author, ()) if self._run == self._map.run else ()

    async def undo(self, author: str) -> str:
        """Undoes the last upload of an author, and returns what was done in words. Raises ApiError 409 and 503."""
        await self.settled()
        if not self._done.get(author):
            raise ApiError(409, "There is no upload to undo")
        async with self._alone(author):
            return await self._undone_last(author)

    async def _undone_last(self, author: str) -> str:
        """Undoes the last upload of an author, while no other is under way."""
        done = self._done.get(author)
        if not done:
            raise ApiError(409, "There is no upload to undo")
        last = done[-1]
        answer = await self._asked(self._room.undo(author, last.seq))
        if isinstance(answer, Refusal):
            if answer.why == "not_standing":
                done.pop()
                raise ApiError(409, "The last upload was undone by another program already")
            raise ApiError(409, f"The upload cannot be undone: {answer.in_words(self._room.authors)}")
        self._undone.setdefault(author, []).append(done.pop())
        return f"Undone: {last.in_words}"

    async def redo(self, author: str) -> str:
        """Does the upload again that an author undid last, and returns that in words. Raises ApiError 409 and 503."""
        await self.settled()
        if not self._undone.get(author):
            raise ApiError(409, "There is no upload to redo")
        async with self._alone(author):
            return await self._redone_last(author)

    async def _redone_last(self, author: str) -> str:
        """Does the upload again that an author undid last, while no other is under way."""
        undone = self._undone.get(author)
        if not undone:
            raise ApiError(409, "There is no upload to redo")
        answer = await self._asked(self._room.redo(author))
        if isinstance(answer, Refusal):
            raise ApiError(409, f"The upload cannot be redone: {answer.in_words(self._room.authors)}")
        last = undone[-1]
        if answer.other not in (None, last.seq):  # another program of the author undid something since
            return f"Redone: entry {answer.other}"
        undone.pop()
        again = Done(answer.seq, last.changeset, last.count, self._map.clock())
        self._done.setdefault(author, []).append(again)
        return f"Redone: {last.in_words}"

    async def _asked(self, asked: Awaitable[Answer]) -> Answer:
        """Waits for the room's answer to an undo or redo, and for its news."""
        fault = no_connection("The connection to the room broke. Look at the map to see whether this was done.")
        run = self._map.run
        answer = await self._in_time(asked, fault)
        if isinstance(answer, Accepted):
            run = run if answer.run is None else answer.run
            self._map.note_own(answer.seq)
            await self._in_time(self._taking_back.seen(answer.seq, run), fault)
            if self._map.run != run:  # the next run may have begun with a map that was saved before this
                raise fault
        return answer


def names_in(plan: Plan) -> Iterator[str]:
    """Yields the names of the elements that a plan touches or refers to, perhaps several times."""
    yield from plan.rows
    for row in plan.rows.values():
        yield from references(row)


def results_of(planned: Sequence[Planned], versions: Mapping[str, int]) -> list[ResultRow]:
    """Returns what became of the elements of an upload."""
    return [
        ResultRow(each.kind, each.old_id, api_id(each.name), versions[each.name])
        if each.name
        else ResultRow(each.kind, each.old_id)
        for each in planned
    ]
