# SPDX-License-Identifier: MIT
"""What the proved library says of spends: whether a Script is a miniscript and sane, by which rows its stack satisfies it, and what
`satisfy` would have taken. Four rounds of questions, each over what is distinct."""

import re
from dataclasses import dataclass
from typing import Callable, Iterable, Optional, Sequence

import msat
from msat import Assets, Run, Signature
from spends import Spend

Question = tuple[tuple[str, ...], bytes]
Answer = tuple[int, str]
Ask = Callable[[Sequence[Question]], Sequence[Answer]]

MOST_PAIRS = 256  # of keys and signatures in a run file


@dataclass(frozen=True)
class Finding:
    """What is known of a spend: the text that its Script is read as, or None; `sane`, or the first reason why it isn't, or why there is no
    reading; what its policy is without keys, hashes and the locks' numbers; whether its stack is canonical, or the fault of its run; the
    weight of its stack, and of the one that `satisfy` would have taken with the same signatures and preimages."""

    text: Optional[str]
    verdict: str
    shape: Optional[str]
    stack: Optional[str]
    weight: Optional[int]
    least: Optional[int]


def findings(spends: Sequence[Spend], ask: Ask) -> list[Finding]:
    """What is found of each spend, in their order."""
    readings = _asked(ask, map(_reading, spends))
    texts = [_text(readings[_reading(it)]) for it in spends]
    checks = _asked(ask, [_of("check", text) for text in texts])
    verdicts = [_verdict(checks[_of("check", text)]) if text else _unread(it) for it, text in zip(spends, texts)]
    sane = [text if verdict == "sane" else None for text, verdict in zip(texts, verdicts)]
    policies = _asked(ask, [_of("policy", text) for text in sane])
    runs = [_run(it, text) for it, text in zip(spends, texts)]
    replays = _asked(ask, [question for run, text in zip(runs, texts) for question in (_of("audit", text, run), _of("run", run=run))])
    choices = [_choice(it, run, text, verdict, replays) for it, run, text, verdict in zip(spends, runs, texts, verdicts)]
    satisfied = _asked(ask, choices)
    return [
        Finding(
            text=text,
            verdict=verdict,
            shape=_shape(policies[_of("policy", text)]) if verdict == "sane" else None,
            stack=_stack(replays[_of("audit", text, run)]) if run is not None else None,
            weight=sum(1 + len(item) for item in it.stack) if it.stack is not None else None,
            least=_weight(satisfied[choice]) if choice else None,
        )
        for it, text, verdict, run, choice in zip(spends, texts, verdicts, runs, choices)
    ]


def _of(word: str, text: Optional[str] = "", run: Optional[bytes] = b"") -> Optional[Question]:
    """The question with this word of a text, over this run file; None where one of them isn't there."""
    if text is None or run is None:
        return None
    return (word, text) if text else (word,), run


def _asked(ask: Ask, questions: Iterable[Optional[Question]]) -> dict[Optional[Question], Answer]:
    """Each distinct question with its answer."""
    distinct = list(dict.fromkeys(it for it in questions if it is not None))
    return dict(zip(distinct, ask(distinct)))


def _reading(spend: Spend) -> Question:
    """The question as which text a Script is read, with what its stack has of the form of a key."""
    shown = dict.fromkeys(it for it in spend.stack or () if len(it) == 33 and it[0] in (2, 3))
    return ("decode", spend.script.hex(), *(it.hex() for it in shown)), b""


def _text(answer: Answer) -> Optional[str]:
    status, report = answer
    return report.split()[1] if status == 0 else None


def _unread(spend: Spend) -> str:
    """Why a Script may have no reading: one with the hash of a key may lack the key."""
    return "no reading, with a key hash" if b"\x76\xa9\x14" in spend.script else "no reading"


def _verdict(answer: Answer) -> str:
    status, report = answer
    return "sane" if status == 0 else report.split()[2]


def _shape(answer: Answer) -> str:
    """The printed policy without keys, hash values and the locks' numbers.

    >>> _shape((0, "policy any(key(02ab),all(key(03cd),older(144)))\\nkeys 1\\n"))
    'any(key,all(key,older))'
    """
    printed = answer[1].splitlines()[0].split()[1]
    return re.sub(r"\b(key|older|after|sha256|hash256|ripemd160|hash160)\([0-9a-f]+\)", r"\1", printed)


def signatures(stack: Sequence[bytes]) -> list[bytes]:
    """The items of a stack that look like a signature in DER with its hash type. The chain accepted them: they are good for some key."""
    return [it for it in stack if 9 <= len(it) <= 73 and it[0] == 0x30 and it[1] == len(it) - 3]


def _run(spend: Spend, text: Optional[str]) -> Optional[bytes]:
    """The run file of a spend, in which each signature is good for each key of the text; None where there is no text or no stack."""
    if spend.stack is None or text is None:
        return None
    keys = dict.fromkeys(re.findall(r"\b0[23][0-9a-f]{64}\b", text))
    pairs = tuple(Signature(bytes.fromhex(key), sig) for key in keys for sig in dict.fromkeys(signatures(spend.stack)))
    return Run(spend.script, spend.stack, pairs[:MOST_PAIRS], spend.version, spend.sequence, spend.locktime).json()


def _stack(answer: Answer) -> str:
    status, report = answer
    if status != 0:
        return " ".join(report.split()[:3])
    return "canonical" if report.endswith("canonical yes\n") else "not canonical"


def _choice(
    spend: Spend, run: Optional[bytes], text: Optional[str], verdict: str, replays: dict[Optional[Question], Answer]
) -> Optional[Question]:
    """The question what `satisfy` takes with the signatures that the run found good and the stack's preimages; where the text isn't sane,
    what is lightest."""
    if run is None or text is None:
        return None
    status, report = replays[_of("run", run=run)]
    if status != 0:
        return None
    checks = (line.split()[1:] for line in report.splitlines()[1:])
    good = dict.fromkeys(Signature(bytes.fromhex(key), bytes.fromhex(sig)) for key, sig in checks)
    preimages = tuple(dict.fromkeys(it for it in spend.stack or () if len(it) == 32))
    held = Assets(spend.version, spend.sequence, spend.locktime, tuple(good), preimages)
    return ("satisfy", *([] if verdict == "sane" else ["--malleable"]), text), held.json()


def _weight(answer: Answer) -> Optional[int]:
    """The weight that a replay tells."""
    status, report = answer
    if status != 0:
        return None
    words = report.splitlines()[-1].split()
    return int(words[words.index("weight") + 1])


def ask_the_library(questions: Sequence[Question]) -> Sequence[Answer]:
    """The answers of the library, in this thread."""
    return msat.ask_all(questions, threads=1)
