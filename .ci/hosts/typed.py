# What a caller writes who has mypy look at it, strictly: nothing of it is run.
from typing import Optional, Union

import msat


def addresses(descriptor: str, count: int) -> list[str]:
    told: msat.Descriptor = msat.descriptor_check(descriptor)
    derived: tuple[msat.Derived, ...] = msat.derive_all(descriptor, range(count), network="test")
    return [it.address for it in derived] if told.unfit is None else []


def either(psbt: Union[str, bytes]) -> Union[str, bytes]:
    return msat.extract(msat.finalize(psbt))


def text(psbt: str) -> str:
    return msat.finalize(psbt, verify=False)


def raw(psbt: bytes) -> bytes:
    return msat.finalize(psbt)


def states(psbt: Union[str, bytes]) -> list[str]:
    told: msat.Inspection = msat.inspect(psbt)
    inputs: tuple[msat.Input, ...] = told.inputs
    outputs: tuple[msat.Output, ...] = told.outputs
    fee: msat.Fee = told.fee
    satoshis: Optional[int] = fee.satoshis
    return [it.state for it in inputs] + [str(it.amount) for it in outputs] + [str(satoshis)]


def bad(psbt: Union[str, bytes]) -> list[msat.Check]:
    signed: tuple[msat.Hashes, ...] = msat.hashes(psbt)
    return [check for it in signed for check in it.checks if not check.is_good()]


def version() -> str:
    return msat.__version__
