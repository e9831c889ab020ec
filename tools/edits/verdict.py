"""What the log of a check of a copy shows. Nothing here runs anything.

A log is read as a whole or not at all: it counts only if the check ended by itself with status 0 or 1, each line that tells of a function
or an error was read, and its last line is that of a check that went to its end.
"""
import collections
import re

from edits.functions import is_in
from edits.kit import IS_REFUSED, MISSED, REFUSED, RTLIB

# The status of a check that was killed since it took too long: rattle's own are 0 to 3.
TIMED_OUT = "none"
STATUSES = (0, 1)
TOO_LONG, STALE = "its check took too long", "the kept work of a library could not be used"
# Nothing would come of it to try fewer edits.
IS_FINAL = (TOO_LONG, STALE)
LAST_LINES = ("logic=", "only=")
# A goal that isn't proved, by its place. Where the search for it breaks off at its bound, its line says so, or antt's own words do, which
# have the place alone. Of a goal that is false by values no search matters.
GOAL = re.compile(
    r"note: (?:what antt said of a `search` in the proof that rattle made: )?(?:\./)?(src/[^:]*):(\d+):(\d+): "
    r"(?:it is not proved|`search` found no proof|error: `[^`]*`: give the call less to do)"
)
LESS_TO_DO = re.compile(r"error: `[^`]*`: give the call less to do")
GAVE_UP = "`search` gave up at one of its limits"
FALSE_BY_VALUES = "the facts known there allow values at which this goal is false"
ERROR = re.compile(r"(?:\./)?(\S+?):\d+:\d+: error: (`[^`]*`(?:: | is not admitted)|\d+ declarations? that depend|module `)?")
PROOF_FILE = re.compile(r"proofs/(.*)/(Answers|Proof|Invariants)\.antt")
# What is proved, or was where the holes that it rests on are filled.
PROVED = re.compile("proved|no holes|depends on a hole in ")
# What isn't proved only since something else isn't.
WAITS = re.compile(
    r"(no proof: |not proved; )(in `[^`]*`, of this cycle of calls: )?it (calls|passes the block|waits for the proof of) "
    r"|no proof: the borrow checker's part in its proof is not made yet: a call of "
    r"|not proved; it stands on "
)
UNTOLD = re.compile("could not tell")
# What says little: that something isn't proved, or that a text names what isn't there.
SAYS_LITTLE = re.compile(
    r"[a-z]+ \S+: "
    r"|.*(has no field|is not in scope|has no `|was not admitted|is not admitted|that depend|is no name|operand is missing"
    r"|expected the end|cannot continue)"
)
REFUSED_TEXT = "refused, as it must be"
BOUND_TEXT = f"{REFUSED_TEXT} (only as a search broke off at its bound)"
LIMIT_TEXT = f"{REFUSED_TEXT} (only by a limit of the prover"
# What `rt` says of an edit that it refused only as a proof names what is gone: that shows little of a contract.
BY_A_NAME = f"{REFUSED_TEXT} (only because a proof file names what the edit took away"


class Said:
    """What a check said: of each function, or file of proofs, the faults of its own; the functions that are proved, or wait for others."""

    def __init__(self):
        self.faults, self.proved, self.waiting, self.untold = collections.defaultdict(list), set(), set(), set()

    def hear(self, name, words, goals):
        """Takes in a function's line, before which stand its goals that aren't proved."""
        if UNTOLD.match(words):
            self.untold.add(name)
        elif goals or not PROVED.match(words) and not WAITS.match(words):
            self.faults[name] += goals or [f"fn {name}: {words}"]
        elif PROVED.match(words) and f".proofs.{name.replace('::', '.')}.Proof." not in words:
            self.proved.add(name)
        else:
            # (or its proof itself is left out)
            self.waiting.add(name)


def why_no_verdict(status, lines):
    """Why nothing follows from a check that ended so, or None."""
    if status == TIMED_OUT:
        return TOO_LONG
    if status not in STATUSES:
        return f"it was stopped by signal {-status}" if status < 0 else f"it ended with status {status}"
    if any(RTLIB.STALE.search(it) for it in lines):
        return STALE
    if not lines[-1].startswith(LAST_LINES):
        return "its log ends before the last line"
    return None


def read_check(status, log, crate, function_at):
    """What a check of a crate said, and why nothing follows from it, or None.

    To function_at a file and a line are given, and it gives the module and the function there. An error in a proof file names the file,
    whose folder is the function's.
    """
    lines, said, goals = log.rstrip("\n").split("\n"), Said(), []
    why = why_no_verdict(status, lines)
    for line in lines if not why else ():
        goal, error = GOAL.match(line), ERROR.match(line)
        # (a closure of f in module m is m::fn::f::..)
        item = re.match(rf"[a-z]+ {crate}::(\S+): (.*)", line.replace("::fn::", "::"))
        if goal:
            goals.append((function_at(goal[1], int(goal[2])), line))
        elif item:
            parts = item[1].split("::")
            if any(parts[: len(module)] != module or function not in (*parts, None) for (module, function), _ in goals):
                return said, f"a goal is told of {item[1]} and stands in another function"
            said.hear(item[1], item[2], [line for _, line in goals])
            goals = []
        elif error:
            if not error[2] or not error[1].startswith("proofs/"):
                return said, f"it tells of an error that isn't one of a proof: {line[:120]}"
            inside = PROOF_FILE.fullmatch(error[1])
            said.faults[inside[1].replace("/fn/", "/").replace("/", "::") if inside else error[1]].append(line)
    if not why and goals:
        why = "it tells of a goal and of no function that has it"
    if not why and status == 0 and (said.faults or said.untold):
        why = "it ended with status 0, and not all is proved"
    return said, why


def why_unclean(said, is_edited, whole, is_direct=False):
    """Why a copy doesn't count, or None.

    Something fails in it that isn't edited, or one of the functions that stand there as they are isn't proved. Where functions are edited
    themselves (is_direct), and not twins of them, a function may wait for one of these.
    """
    stray = sorted(it for it in {*said.faults, *said.untold} if not is_edited(it))
    if stray:
        return f"{stray[0]} fails and isn't edited"
    shown = said.proved | (said.waiting if is_direct else set())
    lacking = sorted({*whole} - shown)
    return f"{lacking[0]} isn't edited and isn't shown to be proved" if lacking else None


def against(said, functions):
    """What is said against an edit of these functions' bodies."""
    return [line for name, lines in said.faults.items() if is_in(name, functions) for line in lines]


def against_named(said, named):
    """What is said against an edit of something else: all, also of lemmas, unless what it names is proved or can't be told."""
    is_open = not named or {*named} - said.proved and said.untold.isdisjoint(named)
    return [line for lines in said.faults.values() for line in lines] if is_open else []


def is_lemma(name):
    """Whether a fault is one of a file of lemmas."""
    return name.startswith("proofs/")


def refusal(lines):
    """What to say of an edit that these lines show to be refused, or None where they don't."""
    lines = [it for it in lines if not SAYS_LITTLE.match(it)]
    places = {GOAL.match(it)[0].partition("src/")[2].split(" ")[0] for it in lines if LESS_TO_DO.search(it) and GOAL.match(it)}
    to_their_end = [it for it in lines if FALSE_BY_VALUES in it or GAVE_UP not in it and not any(f"src/{place} " in it for place in places)]
    if to_their_end:
        return f"{REFUSED_TEXT}: {to_their_end[0][:160]}"
    return f"{BOUND_TEXT}: {lines[0][:160]}" if lines else None


def verdict_alone(kind, text, log, is_same):
    """Whether it is well what an edit came to alone and from nothing, and what to say of it."""
    if is_same:
        is_well = kind == MISSED
        return is_well, "means the same as before, and is not refused alone" if is_well else f"MEANS THE SAME AS BEFORE, and alone: {text}"
    if text.startswith(BY_A_NAME):
        return False, text.replace(REFUSED_TEXT, "NOT REFUSED by the contract", 1)
    shown = refusal([it for it in log.split("\n") if GOAL.match(it) or ERROR.match(it)]) or ""
    return kind in IS_REFUSED, shown if kind == REFUSED and shown.startswith(BOUND_TEXT) else text


def is_at_a_bound(text):
    """Whether it is said of an edit that only a bound or a limit of the prover refused it."""
    return text.startswith((BOUND_TEXT, LIMIT_TEXT))
