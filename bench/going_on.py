"""Where a long trial is, for the trials beside it: kept in crates/msat_c/out/ while the trial isn't at its end, so that the next call of
the same over the same library goes on there."""
import hashlib
import json
import os
import pathlib

OUT = pathlib.Path(__file__).resolve().parent.parent / "crates/msat_c/out"


def library_sum():
    """The first 16 digits of the SHA-256 of the library that is tried."""
    return hashlib.sha256(pathlib.Path(os.environ["MSAT_LIBRARY"]).read_bytes()).hexdigest()[:16]


class Place:
    """The place of a trial, which its name, the library and what it was told tell apart from others."""

    def __init__(self, name, told):
        self.key = [library_sum(), *told]
        self.path = OUT / f"{name}.{hashlib.sha256(repr(self.key).encode()).hexdigest()[:16]}.json"

    def load(self, first):
        """What was kept, or the first state."""
        try:
            kept = json.loads(self.path.read_text())
        except (OSError, ValueError):
            return first
        return kept["state"] if kept["key"] == self.key else first

    def save(self, state):
        OUT.mkdir(parents=True, exist_ok=True)
        written = self.path.with_suffix(".new")
        written.write_text(json.dumps({"key": self.key, "state": state}))
        written.rename(self.path)

    def end(self):
        self.path.unlink(missing_ok=True)
