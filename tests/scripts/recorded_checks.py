"""Recorded outputs of checks of mutants, shortened, with the verdicts that they lead to."""
from typing import List, NamedTuple, Tuple

# The last line of a check that did not prove a crate.
UNPROVED = "logic=not-proved"


class Recorded(NamedTuple):
    """Checks of a mutant of `work::f`, and its verdict."""

    what: str
    # The function's Answers.antt.
    answers: str
    # The output of the check, and those of the checks without broken answers.
    outputs: Tuple[str, ...]
    verdict: str


def check(*lines: str) -> str:
    """Returns the output of a check that did not prove the crate."""
    return "\n".join([*lines, "crate work: modules loaded=31 checked=8", UNPROVED]) + "\n"


def open_goal(name: str, more: str = "") -> str:
    """Returns the line on a goal that stays open."""
    says = "it is not proved that what the function ensures holds when it returns"
    return f"note: src/lib.rt:63:5: {says} (`{name}`){more}"


GAVE_UP = "; `search` gave up at one of its limits"
NOT_PROVED = "fn work::f: not proved"
HEAD = "use Rattle.work.proofs.f.Goals as goal\n"
# An answer of two lines, the first of which is line 3 of the file.
BAD = f"{HEAD}\npub returns-in-Err-clause-bad : goal.returns-in-Err-clause-bad\n" + (
    "returns-in-Err-clause-bad g c =\n    bad_told c.in-Err.fault\n"
)
UNFIT = (
    "./proofs/f/Answers.antt:5:5: error: `returns-in-Err-clause-bad`: computed as far as they go, "
    "the two types are `Unit {0}` (expected) and `g.P.line_result c.args.line.now`\n"
    "  (found)\n"
    "  expected type `goal.the-asks-returns-in-Err-clause-bad g.row.P c`"
)
NO_FIELD = (
    "./proofs/f/Answers.antt:5:14: error: `returns-in-Err-clause-bad`: record "
    "`Rattle.work.proofs.f.Lts.View.In-Err` (nearest: .print_next_line-then-rest-gt1048576)\n"
    "  has no field `print_next_line-then-not-is_empty`\n"
    "  the fields that can be named here are `before`, `type_inv`"
)
NO_FIELD_OF_ONE_LINE = (
    "./proofs/f/Answers.antt:5:69: error: `returns-in-Err-clause-bad`: record "
    "`Rattle.work.proofs.f.Lts.Args` has no field `parse_command`"
)
NO_GOAL = (
    "./proofs/f/Answers.antt:3:48: error: `returns-in-Err-clause-bad`: "
    "`goal.returns-in-Err-clause-bad`: module `Rattle.work.proofs.f.Goals` has no "
    "`returns-in-Err-clause-bad` that can be named from here"
)
AT_LIMIT = (
    "./proofs/f/Answers.antt:5:5: error: `returns-in-Err-clause-bad`: antt ran out of the steps "
    "that the check of one declaration may take"
)
NO_INVARIANT = (
    "./proofs/f/Invariants.antt:6:9: error: `invariant-loop-sent`: record "
    "`Rattle.work.proofs.f.Lts.Loop` has no field `sent`"
)
BY_HAND = "./proofs/f/Proof.antt:101:23: error: `f_spec`: the two types differ"
NO_LEMMA = (
    "./proofs/f/Answers.antt:1:32: error: `bad_told` was not admitted: see the error of its own"
)
WHOLE = f"{HEAD}\npub returns : goal.returns\nreturns g c =\n    bad_told c.in-Err.fault\n"
IN_ERR = "returns-in-Err-clause-bad"

RECORDED: List[Recorded] = [
    Recorded(
        "a goal without an answer stays open",
        "",
        (
            check(
                "fn work::g: proved",
                open_goal("returns", GAVE_UP),
                "fn work::f: no proof: expected answers in ./proofs/f/Answers.antt; `search` did "
                "not prove `returns`",
                "note: `returns` of proofs/f/Answers.antt must prove: c.len.result ≡ 0",
                "fn work::h: no proof: it calls `work::f`",
            ),
        ),
        "rejected: returns",
    ),
    Recorded(
        "one answer no longer fits, and another goal stays open",
        BAD,
        (check(UNFIT, open_goal("returns-in-Err-clause-good", GAVE_UP), NOT_PROVED),),
        "rejected: returns-in-Err-clause-good",
    ),
    Recorded(
        "one answer names what is gone, and another goal stays open",
        BAD,
        (check(NO_FIELD, open_goal("returns-else-clause-printed"), NOT_PROVED),),
        "rejected: returns-else-clause-printed",
    ),
    Recorded(
        "an answer no longer fits, and no tactic proves its goal",
        BAD,
        (check(UNFIT, NOT_PROVED), check(open_goal(IN_ERR), NOT_PROVED)),
        f"rejected: {IN_ERR}",
    ),
    Recorded(
        "an answer no longer fits, and a tactic proves its goal",
        BAD,
        (check(UNFIT, NOT_PROVED), ""),
        "accepted",
    ),
    Recorded(
        "an answer names what is gone, and no tactic proves its goal",
        BAD,
        (check(NO_FIELD, NOT_PROVED), check(open_goal(IN_ERR), NOT_PROVED)),
        f"proof broke: {IN_ERR} names what is gone",
    ),
    Recorded(
        "the same in one line",
        BAD,
        (check(NO_FIELD_OF_ONE_LINE, NOT_PROVED), check(open_goal(IN_ERR), NOT_PROVED)),
        f"proof broke: {IN_ERR} names what is gone",
    ),
    Recorded(
        "an answer names what is gone, and a tactic proves its goal",
        BAD,
        (check(NO_FIELD, NOT_PROVED), ""),
        "accepted",
    ),
    Recorded(
        "an answer for all clauses names what is gone",
        WHOLE,
        (
            check(NO_FIELD.replace(IN_ERR, "returns"), NOT_PROVED),
            check(open_goal("returns-clause-bad"), NOT_PROVED),
        ),
        "proof broke: returns names what is gone",
    ),
    Recorded(
        "answers of clauses no longer fit, and their goal stays open as a whole",
        BAD,
        (check(UNFIT, NOT_PROVED), check(open_goal("returns-in-Err"), NOT_PROVED)),
        "rejected: returns-in-Err",
    ),
    Recorded(
        "an answer meets a limit of the prover",
        BAD,
        (check(AT_LIMIT, NOT_PROVED), check(open_goal(IN_ERR), NOT_PROVED)),
        f"proof broke: {IN_ERR} meets a limit of the prover",
    ),
    Recorded(
        "a goal is gone, and one of its clause stays open",
        BAD,
        (
            check(NO_GOAL, open_goal("returns-then-eq0-clause-bad"), NOT_PROVED),
            check(open_goal("returns-then-eq0-clause-bad"), NOT_PROVED),
        ),
        f"proof broke: {IN_ERR} is for a goal that is gone",
    ),
    Recorded(
        "a goal is gone, and one of another clause stays open",
        BAD,
        (check(NO_GOAL, open_goal("returns-then-eq0-clause-good"), NOT_PROVED),),
        "rejected: returns-then-eq0-clause-good",
    ),
    Recorded(
        "a goal is gone, and what a call requires stays open",
        BAD,
        (check(NO_GOAL, open_goal("put-requires-then-eq0"), NOT_PROVED),),
        "rejected: put-requires-then-eq0",
    ),
    Recorded(
        "a goal is gone, and the others are proved",
        BAD,
        (check(NO_GOAL, NOT_PROVED), ""),
        "accepted",
    ),
    Recorded(
        "an invariant names what is gone",
        BAD,
        (check(NO_INVARIANT, open_goal("returns-clause-good"), NOT_PROVED),),
        "proof broke: Invariants.antt names what is gone",
    ),
    Recorded(
        "a proof by hand follows the code",
        "",
        (check(BY_HAND, NOT_PROVED),),
        "proof broke: Proof.antt no longer fits",
    ),
    Recorded(
        "an imported lemma is broken",
        BAD,
        (check(NO_LEMMA, NOT_PROVED),),
        "proof broke: Answers.antt names what is gone",
    ),
    Recorded("the function is proved", BAD, ("",), "accepted"),
    Recorded(
        "the mutant does not compile",
        "",
        ("error[mismatched-types]: expected `u8`\n",),
        "it did not reach the prover: error[mismatched-types]: expected `u8`",
    ),
]
