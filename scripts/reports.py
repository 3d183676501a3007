"""What a check prints about functions, and which of its lines report a failed goal of a function.

A function's proof has goals: one for each clause at each return, for what each call requires, for
the invariant and the end of each loop, and for each step that may panic or overflow. Tactics try
each goal to which the function's Answers.antt has no answer.
"""
import re
from typing import Dict, Iterable, List, NamedTuple, Tuple

# Lines of a check: its words on a function; a goal that stays open, with its name if it has one;
# and an error in a file of a proof.
JUDGED = re.compile(r"^fn (\S+): (.*)$")
OPEN = re.compile(r"^note: (src/\S+:\d+:\d+): (?:.*\(`([^`]+)`\))?")
IN_PROOF = re.compile(r"^(?:\./)?(proofs/\S+\.antt):(\d+):\d+: error: (.*)$")
# The words of an error that only reports a missing name, or a broken declaration that is cited.
MISSING = re.compile(r"has no field|is not in scope|has no (?:pub )?`|was not admitted")
# The words of an error that is no verdict, since the prover met a limit of its own.
AT_LIMIT = re.compile(r"ran out of|memory limit|step limit")
# The head of a declaration in a file of answers.
HEAD = re.compile(r"^(?:(?:pub|abbrev|unfoldable) )*([^\s:]+) :(?: |$)")
# An import of places among a function's goals.
PLACES = re.compile(r"^(use \S+\.Goals\.)\{(.*)\}\n$")
# What a goal is for: a return, what a call requires, a loop, or else a step.
KIND = re.compile(r"^returns|^.+?-requires|^loop-.+?-(?:init|preserved|decreases)|^[^-]+")

# Why an answer is broken: it no longer proves its goal; what it names is gone; its goal is gone; or
# its check met a limit.
UNFIT, NAMES_GONE = "no longer fits", "names what is gone"
GOAL_GONE, LIMIT = "is for a goal that is gone", "meets a limit of the prover"
# Why answers are broken, by their names; and invariants, imports and proofs by hand, by those of
# their files.
Broken = Dict[str, str]


class ProofError(NamedTuple):
    """An error in a file of a proof."""

    path: str
    line: int
    # Why what has it is broken.
    why: str


class Report(NamedTuple):
    """What a check printed about a function."""

    # Its words, as 'proved'.
    words: str
    # The file of the function's answers, which need not exist.
    answers: str
    # The goals without an answer that no tactic proves.
    goals: Tuple[str, ...]
    # The errors in the files of the function's proof.
    errors: Tuple[ProofError, ...]


class Declaration(NamedTuple):
    """A declaration in a file of answers, with its lines from `start` to before `end`."""

    name: str
    # The name as it is cited if it is a goal's answer.
    goal: str
    start: int
    # The line of its first equation.
    body: int
    end: int

    @property
    def is_answer(self) -> bool:
        return self.goal == f"goal.{self.name}"


def why(message: str) -> str:
    """Returns why a declaration is broken that has an error of this message."""
    if MISSING.search(message):
        return NAMES_GONE
    return LIMIT if AT_LIMIT.search(message) else UNFIT


def proof_errors(output: str) -> List[ProofError]:
    """Returns the errors in files of proofs. Two spaces begin each further line of a message."""
    found: List[List[str]] = []
    is_within = False
    for line in output.splitlines():
        error = IN_PROOF.match(line)
        if error:
            found.append([error[1], error[2], error[3]])
        elif is_within and line.startswith("  "):
            found[-1].append(line)
        is_within = bool(error) or (is_within and line.startswith("  "))
    return [ProofError(path, int(line), why("\n".join(text))) for path, line, *text in found]


def reports(output: str) -> Dict[str, Report]:
    """Returns what a check printed about each function, by the function's name."""
    errors = proof_errors(output)
    found: Dict[str, Report] = {}
    goals: List[str] = []
    for line in output.splitlines():
        judged, is_open = JUDGED.match(line), OPEN.match(line)
        if judged:
            folder = "/".join(["proofs", *judged[1].split("::")[1:]])
            ours = (error for error in errors if error.path.rpartition("/")[0] == folder)
            answers = f"{folder}/Answers.antt"
            found[judged[1]] = Report(judged[2], answers, tuple(goals), tuple(ours))
            goals = []
        elif is_open:
            goals.append(is_open[2] or is_open[1])
    return found


def declarations(text: str) -> List[Declaration]:
    """Returns the declarations of a file of answers. Lines are counted from 1."""
    lines = text.splitlines()
    heads = [(number, found[1]) for number, found in enumerate(map(HEAD.match, lines), 1) if found]
    found = []
    for (start, name), (end, _) in zip(heads, [*heads[1:], (len(lines) + 1, "")]):
        equations = (at for at in range(start + 1, end) if lines[at - 1].split()[:1] == [name])
        body = next(equations, end)
        goal = " ".join(lines[start - 1 : body - 1]).partition(" : ")[2].split()[:1]
        found.append(Declaration(name, "".join(goal), start, body, end))
    return found


def without(text: str, names: Iterable[str]) -> str:
    """Returns a file of answers without the declarations of these names.

    A place among the goals that only these cited is not imported either: it exists for them alone.
    """
    lines = text.splitlines(keepends=True)
    for it in reversed(declarations(text)):
        if it.name in names:
            del lines[it.start - 1 : it.end - 1]
    rest = "".join(line for line in lines if not line.startswith("use "))
    return "".join(PLACES.sub(lambda found: cited_places(found, rest), line) for line in lines)


def cited_places(found: "re.Match[str]", text: str) -> str:
    """Returns an import of places among the goals, of those alone that the text cites."""
    cited = {*re.findall(r"[^\s(){}\[\],.]+", text)}
    places = [place for place in found[2].split(", ") if place in cited]
    return f"{found[1]}{{{', '.join(places)}}}\n" if places else ""


def broken_answers(report: Report, text: str) -> Broken:
    """Returns what has an error and why, by the text of the function's answers."""
    broken: Broken = {}
    for error in report.errors:
        within = [
            it
            for it in declarations(text)
            if error.path == report.answers and it.start <= error.line < it.end
        ]
        name = within[0].name if within else error.path.rpartition("/")[2]
        is_head = any(it.is_answer and error.line < it.body for it in within)
        if error.why == NAMES_GONE:
            broken[name] = GOAL_GONE if is_head else NAMES_GONE
        else:
            broken.setdefault(name, error.why)
    return broken


def is_file(name: str) -> bool:
    """Returns whether what is broken is more than an answer: an invariant, import or proof."""
    return name.endswith(".antt")


def may_be(goal: str, gone: str) -> bool:
    """Returns whether a goal may be one that is gone, under another name: of the same clause."""
    kind, _, clause = goal.partition("-clause-")
    kind_gone, _, clause_gone = gone.partition("-clause-")
    is_same_kind = KIND.findall(kind)[:1] == KIND.findall(kind_gone)[:1]
    return is_same_kind and (clause == clause_gone or not clause or not clause_gone)


def is_covered(goal: str, answer: str) -> bool:
    """Returns whether an answer is for a goal, for all its clauses, or for one of them."""
    by_clause = goal.startswith(f"{answer}-clause-") or answer.startswith(f"{goal}-clause-")
    return answer == goal or by_clause


def failed_goals(report: Report, broken: Broken) -> List[str]:
    """Returns the open goals of a function that count against its body.

    `broken` has all that is broken in the function's proof, also answers that were taken out.
    """
    if any(map(is_file, broken)):
        return []
    failed = []
    for goal in report.goals:
        own = {why for name, why in broken.items() if is_covered(goal, name)}
        is_renamed = any(why == GOAL_GONE and may_be(goal, name) for name, why in broken.items())
        if own == {UNFIT} or not (own or is_renamed):
            failed.append(goal)
    return failed
