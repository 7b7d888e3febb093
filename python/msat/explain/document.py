# SPDX-License-Identifier: MIT
"""An explanation or a refusal as a document of JSON, which schema/explain.json describes."""

from typing import Any, Union

from . import words
from .explanation import Explanation, Group, Held, Opening, Priced
from .held import Run
from .lines import Line
from .locks import Locks, said, said_fields
from .refusals import Refusal
from .report import marked
from .tree import Node
from .wallets import Wallet

Document = dict[str, Any]


def document(found: Union[Explanation, Refusal]) -> Document:
    return _refusal(found) if isinstance(found, Refusal) else _explanation(found)


def _refusal(found: Refusal) -> Document:
    line, column = marked(found.shown, found.place) if found.place is not None else (None, None)
    return {
        "refusal": {
            "report": found.report, "status": found.status, "place": found.place, "line": line, "column": column,
            "rule": found.sentence, "advice": found.advice,
        }
    }  # fmt: skip


def _explanation(found: Explanation) -> Document:
    given, checked, is_real = found.given, found.checked, not found.given.standins
    document_: Document = {
        "text": given.text,
        "form": checked.text,
        "notes": list(given.done),
        "warnings": list(words.warnings(found)),
        "standins": list(given.standins),
        "names": {it: given.name_of(it) for it in (*found.keys, *(value for _, value in found.hashes))},
        "keys": list(found.keys),
        "hashes": [{"function": function, "value": value} for function, value in found.hashes],
        "type": checked.type,
        "tree": _node(found.root, found),
        "lines": [_line(it, found) for it in found.lines],
        "script": checked.script.hex() if is_real else None,
        "program": checked.program.hex() if is_real else None,
        "addresses": found.addresses,
        "limits": {
            "by": "consensus" if found.consensus else "policy",
            **{it.name: {"number": it.number, "allowed": it.allowed} for it in found.limits},
        },
        "spending": _spending(found) if found.spending else None,
    }
    if found.wallet:
        document_["descriptor"] = _wallet(found.wallet)
    if found.held:
        document_["held"] = _held(found.held, found)
    return document_


def _wallet(it: Wallet) -> Document:
    return {
        "text": it.text, "kind": it.kind, "ranged": it.is_ranged, "branch": it.branch, "index": it.index, "network": it.network,
        "output": it.output, "origins": [{"key": key, "path": path} for key, path in it.keys],
        "branches": [
            [{"index": spot.index, "address": spot.address, "refusal": spot.refusal} for spot in branch.spots] for branch in it.branches
        ],
    }  # fmt: skip


def _node(node: Node, found: Explanation) -> Document:
    return {
        "name": node.name + ":" * node.is_letter,
        "place": node.place,
        "label": words.node_of(node, found),
        "type": node.kind,
        "arguments": list(node.arguments),
        "children": [_node(it, found) for it in node.children],
    }


def _line(line: Line, found: Explanation) -> Document:
    is_real = not found.given.standins
    return {
        "at": line.at,
        "bytes": line.code.hex() if is_real or len(line.code) < 20 else None,
        "opcode": words.line_of(line, found),
        "place": line.node.place,
        "node": words.writer_of(line, found),
    }


def _locks(locks: Locks) -> Document:
    return {"sequence": locks.older, "locktime": locks.after, "when": said(locks), "set": said_fields(locks)}


def _way(it: Priced) -> Document:
    return {
        "keys": list(it.way.keys),
        "preimages": [{"function": atom.kind, "value": atom.value} for atom in it.way.hashes],
        "locks": _locks(it.way.locks),
        "items": it.items,
        "weight": it.weight,
        "witness": it.witness,
    }


def _group(it: Group) -> Document:
    return {"keys": list(it.keys), "ways": [_way(way) for way in it.ways], "count": it.count}


def _opening(it: Opening) -> Document:
    return {"locks": _locks(it.locks), "ways": it.count, "shown": list(it.shown), "keys": it.keys}


def _spending(found: Explanation) -> Document:
    it = found.spent
    return {
        "policy": it.policy,
        "named": found.said_policy(),
        "keys": it.keys,
        "ways": [_way(way) for way in it.shown],
        "count": it.count,
        "counted": it.is_all,
        "openings": [_opening(opening) for opening in it.openings],
        "alone": [_group(group) for group in it.alone],
        "together": [_group(group) for group in it.together],
        "pairs": it.pairs,
        "able": it.able,
        "idle": it.idle,
    }


def _held(held: Held, found: Explanation) -> Document:
    missing = [
        {
            "keys": list(it.keys),
            "preimages": [{"function": atom.kind, "value": atom.value} for atom in it.hashes],
            "locks": _locks(it.locks),
        }
        for it in held.missing
    ]
    spend = held.spend and {
        "items": [{"data": it.data.hex(), "name": it.name} for it in held.spend.items],
        "witness": held.spend.witness.hex(),
        "weight": held.spend.replay.weight,
        "ops": held.spend.replay.ops,
        "peak": held.spend.replay.peak,
        "checks": list(held.spend.checks),
        "run": [{"place": it.node.place, "node": words.node_of(it.node, found), "satisfied": it.satisfied} for it in held.spend.parts],
    }
    return {"missing": missing, "spend": spend, "run": held.run and _run(held.run, found)}


def _run(run: Run, found: Explanation) -> Document:
    nodes = words.nodes_of(found)
    steps = [
        {
            "kind": it.kind, "offset": it.offset, "instruction": it.name, "place": it.place,
            "node": None if it.place is None else nodes.get(it.place),
            "stack": list(it.main), "alt": list(it.alt), "branches": list(it.branches),
        }
        for it in run.steps
    ]  # fmt: skip
    return {
        "status": run.status, "said": run.said, "items": [{"data": it.data.hex(), "name": it.name} for it in run.items],
        "first": run.first if steps else None, "steps": steps,
    }  # fmt: skip
