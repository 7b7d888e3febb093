# SPDX-License-Identifier: MIT
"""What is known of a descriptor, besides its condition at one place."""

from dataclasses import dataclass
from typing import Optional


@dataclass(frozen=True)
class Spot:
    """An index of a branch: its address, or why there is none."""

    index: int
    address: Optional[str]
    refusal: Optional[str]


@dataclass(frozen=True)
class Branch:
    """A branch with its first indices."""

    number: int
    spots: tuple[Spot, ...]


@dataclass(frozen=True)
class Wallet:
    """A descriptor: its text with its checksum, its kind, whether it goes by an index, the branch and the index whose condition is explained
    and the network that its keys are of; the addresses of this place by their networks, the output's script where the program isn't it, each
    key with its origin, in the text's order, and the first indices of each branch."""

    text: str
    kind: str
    is_ranged: bool
    branch: int
    index: int
    network: str
    addresses: dict[str, str]
    output: Optional[str]
    keys: tuple[tuple[str, str], ...]
    branches: tuple[Branch, ...]
