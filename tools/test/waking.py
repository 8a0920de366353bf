#!/usr/bin/env python3
# SPDX-License-Identifier: MIT
"""Plants bugs of waking in the object for threads, and plays the scenes of crates/test_schedules over each, which have to find a
schedule that shows it. Prints a line for each bug, and at the end 'N passed, M failed'.

Each is tried in a copy of the sources by `rt try`, which proves nothing: about a minute."""

import pathlib
import subprocess
import sys
import tempfile

from wrong_bodies import copy_sources

STAY = """        self.stay(pass.seat());
        drop(taken);
        self.wake(&sleepers);
        Ok(self.wait(rt, pass))
"""
AT_ONCE = "            drop(taken);\n            self.wake(&sleepers);\n            return Ok(end);\n"
TICK = "        let clock = taken.locked.tick(front, t)?;\n        let sleepers = self.tell(&taken.locked, None);\n"
ABORT = "        let aborted = taken.locked.cancel_seat(front, seat)?;\n        let sleepers = self.tell(&taken.locked, None);\n"
FINAL = "        taken.locked.finalize(front)?;\n        let sleepers = self.tell(&taken.locked, None);\n        drop(taken);\n        self.wake(&sleepers);\n"
REPLY = "        drop(taken);\n        self.wake(&sleepers);\n        Ok(reply)\n"
WAKE = "self.wake(&sleepers);\n"
TICK_TO_END = f"{TICK}        drop(taken);\n        {WAKE}        Ok(clock)\n"
ABORT_TO_END = f"{ABORT}        drop(taken);\n        {WAKE}        Ok(aborted)\n"
NO_WAKE = "let _ = &sleepers;\n"
MANY = "!sleepers.add(seat) {\n                there.wake(&self.steps, seat);\n"
SLEEP = "                pass.sleep(rt, &self.steps);\n"
AGAIN = "                if !self.has_ended(rt, pass) {\n                    continue;\n"
SWAP = "self.flag.swap(ENDED, Ordering::SeqCst) == SLEEPS"
FALL_ASLEEP = """        self.flag
            .compare_exchange(WAITS, SLEEPS, Ordering::SeqCst, Ordering::SeqCst)
            == Err(ENDED)
"""
LOOK_THEN_SET = """        if self.flag.load(Ordering::SeqCst) == ENDED {
            return true;
        }
        steps.reach(Step::Flag(seat));
        self.flag.store(SLEEPS, Ordering::SeqCst);
        false
"""

ISSUE = """        pass.receipts.make_room()?;
        self.reservations.audit(&mut pass.reservation);
        let idle = self.latest.is_idle(&self.core, pass.seat);
        let before = Snapshot::of(&self.core);
        let ticket = self.core.issue(pass.seat, entry, value, deadline)?;
"""
ROOM = "        pass.receipts.make_room()?;\n"

# For each bug: what is wrong, the file, its old and its new text, and the words by which the program plays a scene that shows it.
BUGS = [
    ("a call says that it waits after the lock is left", "object.rt",
     STAY, STAY.replace("        self.stay(pass.seat());\n        drop(taken);\n", "        drop(taken);\n        self.stay(pass.seat());\n"), "pair recorded"),
    ("a call that waits wakes nobody", "object.rt", STAY, STAY.replace(WAKE, NO_WAKE), "requeue recorded"),
    ("the same, bounded", "object.rt", STAY, STAY.replace(WAKE, NO_WAKE), "requeue bounded"),
    ("a call that ends at once wakes nobody", "object.rt", AT_ONCE, AT_ONCE.replace(WAKE, NO_WAKE), "pair recorded"),
    ("a call doesn't say that it waits", "object.rt", STAY, STAY.replace("        self.stay(pass.seat());\n", ""), "twice recorded"),
    ("tick tells before it raises the clock", "object.rt",
     TICK, "        let sleepers = self.tell(&taken.locked, None);\n        let clock = taken.locked.tick(front, t)?;\n", "tick recorded"),
    ("tick doesn't tell the seat 0", "object.rt", TICK, TICK.replace("None", "Some(0)"), "tick recorded"),
    ("cancel_seat doesn't tell the seat", "object.rt", ABORT, ABORT.replace("None", "Some(seat)"), "cancel recorded"),
    ("tick tells, and wakes nobody", "object.rt", TICK_TO_END, TICK_TO_END.replace(WAKE, NO_WAKE), "tick recorded"),
    ("cancel_seat tells, and wakes nobody", "object.rt", ABORT_TO_END, ABORT_TO_END.replace(WAKE, NO_WAKE), "cancel recorded"),
    ("finalize tells, and wakes nobody", "object.rt", FINAL, FINAL.replace(WAKE, NO_WAKE), "final recorded"),
    ("more sleepers than can be noted aren't woken", "object.rt",
     MANY, MANY.replace("there.wake(&self.steps, seat);", "let _ = there;"), "five recorded"),
    ("the same, bounded", "object.rt", MANY, MANY.replace("there.wake(&self.steps, seat);", "let _ = there;"), "five bounded"),
    ("a caller sleeps with the lock", "object.rt", SLEEP, "                let held = self.look(rt);\n" + SLEEP + "                drop(held);\n", "pair recorded"),
    ("finalize neither tells nor wakes", "object.rt", FINAL, "        taken.locked.finalize(front)?;\n", "final recorded"),
    ("a procedure wakes nobody", "object.rt", REPLY, REPLY.replace(WAKE, NO_WAKE), "five recorded"),
    ("a thread that ends a call leaves its flag", "seat.rt", SWAP, SWAP.replace("swap(ENDED, ", "load("), "pair recorded"),
    ("a caller looks and falls asleep in two steps", "seat.rt", FALL_ASLEEP, LOOK_THEN_SET, "pair recorded"),
    ("a caller that sleeps again believes that its call has ended", "seat.rt", "            == Err(ENDED)\n", "            .is_err()\n", "requeue recorded"),
    ("the same, with a pass that changes threads", "seat.rt", "            == Err(ENDED)\n", "            .is_err()\n", "hand recorded"),
    ("a call is issued before there is room for its receipt", "locked_core.rt", ISSUE, ISSUE.replace(ROOM, "") + ROOM, "pair refused"),
    ("a seat is woken at another's place", "opening.rt", "    parkers.reverse();\n", "", "pair recorded"),
]

# What looks wrong and isn't: whichever thread ends the call after that look sees a sleeper, and wakes it.
HARMLESS = [
    ("a caller says again that it waits, before it sleeps again", "object.rt",
     AGAIN, AGAIN.replace("continue;", "self.stay(pass.seat());\n                    continue;"), "requeue recorded"),
]


def play(program, words):
    """Plays a scene, and returns the status of the program, and what it wrote."""
    command = ["rt", "try", "--seconds", "120", "--", *words.split()]
    ran = subprocess.run(command, cwd=program, stdin=subprocess.DEVNULL, capture_output=True, text=True, errors="replace")
    return ran.returncode, ran.stdout + ran.stderr


def is_found(said):
    """Whether the program printed a schedule that shows a bug."""
    return ": schedule " in said and "status=1" in said


def has_passed(said):
    """Whether the program played all its schedules, and found nothing."""
    return ": schedule " not in said and "ended status=0" in said


def try_bug(room, bug, is_good):
    """Plants a bug in the copy, plays its scene, takes the bug out again, and returns whether the outcome is good."""
    name, file, old, new, words = bug
    path = room / "crates/po_object/src" / file
    text = path.read_text()
    if text.count(old) != 1:
        print(f"FAILED: {name}: its old text is in {file} {text.count(old)} times, and not once", flush=True)
        return False
    path.write_text(text.replace(old, new))
    status, said = play(room / "crates/test_schedules", words)
    path.write_text(text)
    good = is_good(said)
    print(f"{name}: as it has to be" if good else f"FAILED: {name}: status {status}: {said[-400:]}", flush=True)
    return good


def main():
    """Tries all bugs, and returns the exit status."""
    with tempfile.TemporaryDirectory() as folder:
        room = pathlib.Path(folder)
        copy_sources(room)
        results = [try_bug(room, bug, is_found) for bug in BUGS] + [try_bug(room, bug, has_passed) for bug in HARMLESS]
    print(f"{sum(results)} passed, {len(results) - sum(results)} failed")
    return 0 if all(results) else 1


if __name__ == "__main__":
    sys.exit(main())
