# SPDX-License-Identifier: MIT
"""What the parts of an explanation are called: one wording for the text, the page and the file of JSON."""

from typing import Iterable, Iterator, Optional

from . import hashes
from .explanation import Explanation, Group, Limit, Opening, Spending
from .held import ACCEPTED, REFUSED, Item, Missing, Run
from .lines import Line, number
from .locks import SECONDS, said, said_after, said_fields, said_older, weaker
from .steps import Step
from .tree import Node
from .ways import Way

STANDINS = (
    "Stand-ins, since no digits were given, are used for {names}. Sizes, weights and ways are the same with any digits, other ones for each name; "
    "there is no address, since nobody could spend what is paid to it."
)


def count(number_: int, one: str, many: str = "") -> str:
    """A number with its noun.

    >>> count(1, "way"), count(2000, "way"), count(2, "key", "keys that sign")
    ('1 way', '2,000 ways', '2 keys that sign')
    """
    return f"{number_:,} {one if number_ == 1 else many or one + 's'}"


def listed(names: list[str], last: str = "and") -> str:
    """Names in a row.

    >>> listed(["a"]), listed(["a", "b", "c"])
    ('a', 'a, b and c')
    """
    return names[0] if len(names) == 1 else f"{', '.join(names[:-1])} {last} {names[-1]}" if names else ""


def node_of(node: Node, shown: Explanation) -> str:
    """A node with its keys, hash values and numbers, and without its children.

    The children's place is told by dots: `and_v(..)`, `v:`.
    """
    if node.is_letter:
        return node.name + ":"
    name_of = shown.given.name_of
    if node.name in ("older", "after", "thresh"):
        arguments = list(node.arguments)
    elif node.name == "multi":
        arguments = node.arguments[:1] + [name_of(it) for it in node.arguments[1:]]
    else:
        arguments = [name_of(it) for it in node.arguments]
    if node.children:
        arguments.append("..")
    return node.name + (f"({', '.join(arguments)})" if arguments else "")


def word_of(chain: list[Node], shown: Explanation) -> str:
    """A fragment with the letters before it, as `sln:older(9)`."""
    letters = "".join(it.name for it in chain[:-1])
    return (letters + ":" if letters else "") + node_of(chain[-1], shown)


def kinds_of(chain: list[Node]) -> str:
    """Their types: that of a letter stands before that of what it wraps."""
    return " < ".join(it.kind for it in chain)


def note_of(node: Node) -> str:
    """What a timelock waits for."""
    if node.name == "older":
        bits = int(node.arguments[0]) & (SECONDS | 0xFFFF)
        return f"{said_older(bits)} after the output confirms"
    return f"from {said_after(int(node.arguments[0]))} on" if node.name == "after" else ""


def line_of(line: Line, shown: Explanation) -> str:
    """An instruction of a Script, with names for what it pushes."""
    if line.pushed is None:
        return line.name
    node, name_of = line.node, shown.given.name_of
    if node.name in ("pk", "pk_k"):
        return f"<{name_of(node.arguments[0])}>"
    if node.name == "multi" and len(line.pushed) == 33:
        return f"<{name_of(line.pushed.hex())}>"
    if node.name in ("pkh", "pk_h"):
        return f"<HASH160 of {name_of(node.arguments[0])}>"
    if node.name in hashes.LENGTHS and len(line.pushed) > 2:
        return f"<{name_of(node.arguments[0])}>"
    return str(number(line.pushed))


def writer_of(line: Line, shown: Explanation) -> str:
    """The node that wrote an instruction."""
    return node_of(line.node, shown) + (", VERIFY by v:" if line.by_v else "")


def nodes_of(shown: Explanation) -> dict[int, str]:
    """The nodes by their places, of those at one place the outermost."""
    return {it.place: node_of(it, shown) for it in reversed(list(shown.root.walk()))}


def items_of(shown: Explanation, items: Iterable[Item]) -> dict[str, str]:
    """What elements of a run are, by their digits: keys of the condition, and items of the witness."""
    named = {it.data.hex(): it.name for it in items if it.name}
    named.update((key, f"the key {shown.given.name_of(key)}") for key in shown.keys)
    return named


def done_of(step: Step) -> str:
    """What became of a step's instruction."""
    return {"step": "carried out", "skip": "passed over, in a branch that isn't taken", "stop": "the step that fails"}[step.kind]


def came_to(run: Run) -> str:
    """What the run of a witness came to.

    >>> came_to(Run((), 0, "accepted ops 1 peak 2", ()))
    'accepted: opcodes 1, stack 2 elements at most'
    >>> came_to(Run((), 8, "refused script ScriptSize at 0", ()))
    'refused before the first step: ScriptSize'
    """
    parts = run.said.split(" ")
    if run.status == ACCEPTED:
        return f"accepted: opcodes {parts[2]}, stack {parts[4]} elements at most"
    if run.status != REFUSED:
        return "not made: the file has another script than the condition's"
    if not run.steps:
        return f"refused before the first step: {parts[2]}"
    place = "at step" if run.steps[-1].kind == "stop" else "behind step"
    return f"refused {place} {len(run.steps)}: {parts[2]}"


def way_of(way: Way, shown: Explanation, with_locks: bool = True) -> str:
    """Who and what a way takes.

    The locks stand behind it: `alice and bob, from height 5 on`.
    """
    names = [shown.given.name_of(it) for it in way.keys] + [f"the preimage of {shown.given.name_of(it.digits)}" for it in way.hashes]
    locks = f", {said(way.locks)}" if with_locks and not way.locks.is_none() else ""
    return (listed(names) or "no signature") + locks


def missing_of(missing: Missing, shown: Explanation) -> str:
    """What a way lacks with a file."""
    if missing.is_nothing():
        return "nothing: open now"
    name_of = shown.given.name_of
    parts = [f"the signature of {name_of(it)}" for it in missing.keys] + [f"the preimage of {name_of(it.digits)}" for it in missing.hashes]
    return listed(parts + ([] if missing.locks.is_none() else [said_fields(missing.locks)]))


def allowed_of(limit: Limit) -> str:
    """A limit against what is allowed."""
    return f"{limit.number:,}" if limit.allowed is None else f"{limit.number:,} of {limit.allowed:,}"


def keys_of(least: Optional[int]) -> str:
    """How many keys have to sign at least."""
    return "no signatures are enough" if least is None else f"at least {count(least, 'key has', 'keys have')} to sign"


def digits_of(value: str, shown: Explanation) -> str:
    """The digits of a key or a hash value, with a name that is cut short elsewhere."""
    name = shown.given.names.get(value, "")
    digits = "a stand-in" if shown.given.is_standin(value) else value
    return digits if name in ("", shown.given.name_of(value)) else f"{digits}: {name}"


def output_of(shown: Explanation) -> list[tuple[str, str]]:
    """The output's script, where the program isn't it."""
    return [("output", shown.wallet.output)] if shown.wallet and shown.wallet.output else []


def more_of(shown: Explanation) -> str:
    """How many ways there are besides those that are shown."""
    spending = shown.spent
    more = spending.count - len(spending.shown)
    least = "" if spending.is_all else "at least "
    return f"and {least}{more:,} more" if more or least else ""


def opening_of(opening: Opening, spending: Spending) -> str:
    """How many ways open with some locks."""
    least = "" if spending.is_all else "at least "
    return f"{least}{count(opening.count, 'way')} open{'s' if opening.count == 1 else ''}"


def times_of(group: Group, shown: Explanation) -> str:
    """When some keys are enough, and with which preimages."""
    parts = []
    for it in group.ways[:8]:
        names = [f"the preimage of {shown.given.name_of(atom.digits)}" for atom in it.way.hashes]
        parts.append(said(it.way.locks) + (f" with {listed(names)}" if names else ""))
    if group.count is None:
        return "; ".join((*parts, "and perhaps more"))
    return "; ".join(parts + ([f"and {group.count - len(parts):,} more"] if group.count > len(parts) else []))


def together_rows(shown: Explanation) -> list[tuple[str, str]]:
    """What each two keys can do beyond each of them alone."""
    return [(listed([shown.given.name_of(it) for it in group.keys]), times_of(group, shown)) for group in shown.spent.together]


def other_pairs(spending: Spending) -> list[str]:
    """What there is to say of the pairs that aren't shown."""
    if spending.able is None:
        return ["of other pairs nothing is known, since not all ways were looked at"]
    said_, more = [], spending.able - len(spending.together)
    if more > 0:
        said_.append(f"{count(more, 'pair')} more can do something")
    if spending.idle:
        said_.append(f"{'the other ' if spending.together else ''}{count(spending.idle, 'pair')}: nothing more")
    return said_


def alone_rows(shown: Explanation) -> list[tuple[str, str]]:
    """What each key can do alone, and in one row those that can do nothing, or of which that isn't known."""
    groups = shown.spent.alone
    rows = [(shown.given.name_of(group.keys[0]), times_of(group, shown)) for group in groups if group.ways]
    for verdict, number in (("nothing, at any time", 0), ("not known, since not all ways were looked at", None)):
        names = [shown.given.name_of(group.keys[0]) for group in groups if not group.ways and group.count == number]
        rows += [(listed(names), verdict)] if names else []
    return rows


def notes(shown: Explanation) -> Iterator[str]:
    """What has to be known of the text: what was done to it, and whose digits are stand-ins."""
    for done in shown.given.done:
        yield done + "."
    if shown.given.standins:
        yield STANDINS.format(names=listed(list(shown.given.standins)))


def warnings(shown: Explanation) -> Iterator[str]:
    """What makes a condition something else than it looks like: that nobody can spend, and timelocks that wait for less than they seem to."""
    # Each satisfaction of a sane text has a signature, so where the most that one weighs is 0 there is none.
    if shown.checked.limits.weight == 0:
        yield "nobody can spend by this condition, whoever signs: nothing satisfies it, and what is paid to it is lost"
    locks = dict.fromkeys((node.name, int(node.arguments[0])) for node in shown.root.walk() if node.name in ("older", "after"))
    for kind, operand in locks:
        why = weaker(kind, operand)
        if why:
            yield f"{kind}({operand}) {why}"
