"""Two interpreters of P2WSH scripts that aren't msat's, for the trials beside it.

`core` is a transcription of Bitcoin Core's EvalScript and ExecuteWitnessScript (script/interpreter.cpp), written from its published
behaviour: its order of tests, its names of errors, and its flags MINIMALDATA, MINIMALIF, NULLFAIL, NULLDUMMY, WITNESS_PUBKEYTYPE,
CHECKLOCKTIMEVERIFY and CHECKSEQUENCEVERIFY, over the opcodes that P2WSH miniscript has. How a signature is encoded (DERSIG, LOW_S,
STRICTENC) is a matter of the function that is handed in, as what it signs is.

`library` is EvalScript of python-bitcoinlib (Debian's python3-bitcoinlib), where it is there (`has_library`). It was written before
segregated witnesses and says itself that it isn't exact. What it lacks is added here, before and after each instruction that it carries
out; ADDED names these rules.

Both are given a script, a stack (bottom first), a function that says whether a signature is good for a key, and the transaction's version,
the input's sequence and the transaction's lock time. They answer `(None, place, ops, peak, checks)` where the script is accepted, and
else `(error, place, ops, peak, checks)`, with Core's name of the error and the number of the instruction, from 0, that met it. `ops`
counts the opcodes above 0x60 and the keys of executed multisignatures, `peak` is the greatest number of elements of both stacks
together, and `checks` are the pairs of key and signature that were found good, in order.
"""
import functools
import hashlib

ADDED = (
    "a script is run over a stack that is given, whose elements have at most 520 bytes, and has to leave one element, which is true (BIP 141)",
    "a push that is carried out is spelled in its shortest form (MINIMALDATA)",
    "numbers are spelled in their shortest form (MINIMALDATA)",
    "IF and NOTIF take the empty string or 01 (MINIMALIF)",
    "a key has 33 bytes, of which the first is 02 or 03 (WITNESS_PUBKEYTYPE)",
    "a signature that isn't good is empty (NULLFAIL)",
    "the extra element of a multisignature is empty (NULLDUMMY)",
    "CHECKLOCKTIMEVERIFY and CHECKSEQUENCEVERIFY, which are NOPs there (BIPs 65, 112)",
    "a false check of signatures pushes the empty string, where that library pushes 00",
    "both stacks have at most 1,000 elements after a push too",
    "a signature isn't taken out of the script that is signed, as BIP 143 says",
    "no other opcodes than those of P2WSH miniscript",
)  # fmt: skip

OPCODES = {
    0x63: "IF", 0x64: "NOTIF", 0x67: "ELSE", 0x68: "ENDIF", 0x69: "VERIFY", 0x6B: "TOALTSTACK", 0x6C: "FROMALTSTACK", 0x73: "IFDUP",
    0x76: "DUP", 0x7C: "SWAP", 0x82: "SIZE", 0x87: "EQUAL", 0x88: "EQUALVERIFY", 0x92: "0NOTEQUAL", 0x93: "ADD", 0x9A: "BOOLAND",
    0x9B: "BOOLOR", 0xA6: "RIPEMD160", 0xA8: "SHA256", 0xA9: "HASH160", 0xAA: "HASH256", 0xAC: "CHECKSIG", 0xAD: "CHECKSIGVERIFY",
    0xAE: "CHECKMULTISIG", 0xAF: "CHECKMULTISIGVERIFY", 0xB1: "CHECKLOCKTIMEVERIFY", 0xB2: "CHECKSEQUENCEVERIFY",
}  # fmt: skip

# Core's name of each fault of `msat run`, where the opcode doesn't decide.
CORE_NAMES = {
    "ScriptSize": "SCRIPT_SIZE", "ElementSize": "PUSH_SIZE", "Truncated": "BAD_OPCODE", "Unsupported": "BAD_OPCODE",
    "NonMinimalPush": "MINIMALDATA", "OpCount": "OP_COUNT", "StackSize": "STACK_SIZE", "StackUnderflow": "INVALID_STACK_OPERATION",
    "AltUnderflow": "INVALID_ALTSTACK_OPERATION", "Unbalanced": "UNBALANCED_CONDITIONAL", "MinimalIf": "MINIMALIF",
    "NumberForm": "UNKNOWN_ERROR", "NegativeLock": "NEGATIVE_LOCKTIME", "UnmetLock": "UNSATISFIED_LOCKTIME", "KeyForm": "WITNESS_PUBKEYTYPE",
    "NullFail": "SIG_NULLFAIL", "NullDummy": "SIG_NULLDUMMY", "KeyCount": "PUBKEY_COUNT", "SigCount": "SIG_COUNT",
    "CleanStack": "CLEANSTACK", "EvalFalse": "EVAL_FALSE",
}  # fmt: skip


def core_name(fault, opcode):
    """Core's name of a fault of `msat run` at an instruction, whose opcode is None at the end of the script."""
    if fault == "StackUnderflow" and opcode in (0x63, 0x64):
        return "UNBALANCED_CONDITIONAL"
    if fault == "Verify":
        return {0x69: "VERIFY", 0x88: "EQUALVERIFY", 0xAD: "CHECKSIGVERIFY", 0xAF: "CHECKMULTISIGVERIFY"}.get(opcode)
    return CORE_NAMES.get(fault)


@functools.lru_cache(65536)
def ripemd160(data):
    try:
        return hashlib.new("ripemd160", data).digest()
    except ValueError:
        if not has_library:
            raise
        return library_ripemd160(data)


def hashed(opcode, data):
    if opcode == 0xA6:
        return ripemd160(data)
    once = hashlib.sha256(data).digest()
    return {0xA8: lambda: once, 0xA9: lambda: ripemd160(once), 0xAA: lambda: hashlib.sha256(once).digest()}[opcode]()


class Refused(Exception):
    """A run is refused by an error of Core's name."""


def is_minimal_push(data, opcode):
    """CheckMinimalPush, of the opcodes up to OP_PUSHDATA4."""
    if not data:
        return opcode == 0
    if len(data) == 1 and (1 <= data[0] <= 16 or data[0] == 0x81):
        return False
    if len(data) <= 75:
        return opcode == len(data)
    if len(data) <= 255:
        return opcode == 0x4C
    return len(data) > 65535 or opcode == 0x4D


def number(data, most=4):
    """CScriptNum, with fRequireMinimal."""
    if len(data) > most:
        raise Refused("UNKNOWN_ERROR")
    if data and data[-1] & 0x7F == 0 and (len(data) == 1 or data[-2] & 0x80 == 0):
        raise Refused("UNKNOWN_ERROR")
    value = int.from_bytes(data, "little")
    sign = 0x80 << 8 * (len(data) - 1) if data else 0
    return sign - value if value & sign else value


def serialized(value):
    """CScriptNum::serialize."""
    if value == 0:
        return b""
    size = abs(value)
    digits = bytearray(size.to_bytes((size.bit_length() + 7) // 8, "little"))
    if digits[-1] & 0x80:
        digits.append(0)
    if value < 0:
        digits[-1] |= 0x80
    return bytes(digits)


def is_true(data):
    """CastToBool."""
    return any(data[:-1]) or (bool(data) and data[-1] not in (0, 0x80))


def holds_lock_time(value, sequence, locktime):
    """CheckLockTime."""
    threshold = 500000000
    if not (locktime < threshold and value < threshold or locktime >= threshold and value >= threshold):
        return False
    return value <= locktime and sequence != 0xFFFFFFFF


def holds_sequence(value, version, sequence):
    """CheckSequence."""
    flag, mask = 1 << 22, 1 << 22 | 0xFFFF
    if version < 2 or sequence & 1 << 31:
        return False
    of_input, wanted = sequence & mask, value & mask
    if not (of_input < flag and wanted < flag or of_input >= flag and wanted >= flag):
        return False
    return wanted <= of_input


def holds_lock(opcode, top, version, sequence, locktime):
    """What CHECKLOCKTIMEVERIFY and CHECKSEQUENCEVERIFY do with the top."""
    value = number(top, 5)
    if value < 0:
        raise Refused("NEGATIVE_LOCKTIME")
    if opcode == 0xB2 and value & 1 << 31:
        return
    if not (holds_lock_time(value, sequence, locktime) if opcode == 0xB1 else holds_sequence(value, version, sequence)):
        raise Refused("UNSATISFIED_LOCKTIME")


def is_key(key):
    """IsCompressedPubKey."""
    return len(key) == 33 and key[0] in (2, 3)


class Core:
    """The state of a run by the transcription."""

    def __init__(self, script, stack, is_good, version, sequence, locktime):
        self.script, self.stack, self.is_good = script, list(stack), is_good
        self.locks = version, sequence, locktime
        self.alt, self.executed = [], []
        self.place = self.ops = 0
        self.peak = len(stack)
        self.checks = []

    def outcome(self):
        error = None
        try:
            self.execute_witness_script()
        except Refused as refused:
            error = refused.args[0]
        return error, self.place, self.ops, self.peak, self.checks

    def execute_witness_script(self):
        for item in self.stack:
            if len(item) > 520:
                raise Refused("PUSH_SIZE")
        self.eval_script()
        if len(self.stack) != 1:
            raise Refused("CLEANSTACK")
        if not is_true(self.stack[-1]):
            raise Refused("EVAL_FALSE")

    def eval_script(self):
        script, stack, alt, executed = self.script, self.stack, self.alt, self.executed
        if len(script) > 10000:
            raise Refused("SCRIPT_SIZE")
        at = 0
        while at < len(script):
            is_executed = all(executed)
            opcode, data, at = self.get_op(at)
            if data is not None and len(data) > 520:
                raise Refused("PUSH_SIZE")
            if opcode > 0x60:
                self.ops += 1
                if self.ops > 201:
                    raise Refused("OP_COUNT")
            if is_executed and data is not None:
                if not is_minimal_push(data, opcode):
                    raise Refused("MINIMALDATA")
                stack.append(data)
            elif is_executed or 0x63 <= opcode <= 0x68:
                self.carry_out(opcode, is_executed)
            elif data is None and opcode not in OPCODES and not (opcode == 0x4F or 0x51 <= opcode <= 0x60):
                # Core passes over it here; the trials don't go there.
                raise Refused("BAD_OPCODE")
            height = len(stack) + len(alt)
            if height > 1000:
                raise Refused("STACK_SIZE")
            self.peak = max(self.peak, height)
            self.place += 1
        if executed:
            raise Refused("UNBALANCED_CONDITIONAL")

    def get_op(self, at):
        """GetScriptOp: the opcode, its data where it is at most OP_PUSHDATA4, and where the next one begins."""
        script = self.script
        opcode = script[at]
        at += 1
        if opcode > 0x4E:
            return opcode, None, at
        size = opcode
        if opcode >= 0x4C:
            width = {0x4C: 1, 0x4D: 2, 0x4E: 4}[opcode]
            if len(script) - at < width:
                raise Refused("BAD_OPCODE")
            size = int.from_bytes(script[at : at + width], "little")
            at += width
        if size > len(script) - at:
            raise Refused("BAD_OPCODE")
        return opcode, script[at : at + size], at + size

    def want(self, count):
        if len(self.stack) < count:
            raise Refused("INVALID_STACK_OPERATION")

    def carry_out(self, opcode, is_executed):
        stack, executed = self.stack, self.executed
        if opcode == 0x4F or 0x51 <= opcode <= 0x60:
            stack.append(serialized(opcode - 0x50))
        elif opcode in (0xB1, 0xB2):
            self.want(1)
            holds_lock(opcode, stack[-1], *self.locks)
        elif opcode in (0x63, 0x64):
            value = False
            if is_executed:
                if len(stack) < 1:
                    raise Refused("UNBALANCED_CONDITIONAL")
                if len(stack[-1]) > 1 or len(stack[-1]) == 1 and stack[-1] != b"\1":
                    raise Refused("MINIMALIF")
                value = is_true(stack[-1])
                if opcode == 0x64:
                    value = not value
                stack.pop()
            executed.append(value)
        elif opcode == 0x67:
            if not executed:
                raise Refused("UNBALANCED_CONDITIONAL")
            executed[-1] = not executed[-1]
        elif opcode == 0x68:
            if not executed:
                raise Refused("UNBALANCED_CONDITIONAL")
            executed.pop()
        elif opcode == 0x69:
            self.want(1)
            if not is_true(stack[-1]):
                raise Refused("VERIFY")
            stack.pop()
        elif opcode == 0x6B:
            self.want(1)
            self.alt.append(stack.pop())
        elif opcode == 0x6C:
            if not self.alt:
                raise Refused("INVALID_ALTSTACK_OPERATION")
            stack.append(self.alt.pop())
        elif opcode == 0x73:
            self.want(1)
            if is_true(stack[-1]):
                stack.append(stack[-1])
        elif opcode == 0x76:
            self.want(1)
            stack.append(stack[-1])
        elif opcode == 0x7C:
            self.want(2)
            stack[-2], stack[-1] = stack[-1], stack[-2]
        elif opcode == 0x82:
            self.want(1)
            stack.append(serialized(len(stack[-1])))
        elif opcode in (0x87, 0x88):
            self.want(2)
            is_equal = stack[-2] == stack[-1]
            stack[-2:] = [b"\1" if is_equal else b""]
            if opcode == 0x88:
                if not is_equal:
                    raise Refused("EQUALVERIFY")
                stack.pop()
        elif opcode == 0x92:
            self.want(1)
            stack[-1] = serialized(int(number(stack[-1]) != 0))
        elif opcode in (0x93, 0x9A, 0x9B):
            self.want(2)
            one, other = number(stack[-2]), number(stack[-1])
            value = {0x93: one + other, 0x9A: int(one != 0 and other != 0), 0x9B: int(one != 0 or other != 0)}[opcode]
            stack[-2:] = [serialized(value)]
        elif opcode in (0xA6, 0xA8, 0xA9, 0xAA):
            self.want(1)
            stack[-1] = hashed(opcode, stack[-1])
        elif opcode in (0xAC, 0xAD):
            self.check_sig(opcode)
        elif opcode in (0xAE, 0xAF):
            self.check_multi_sig(opcode)
        else:
            raise Refused("BAD_OPCODE")

    def check_sig(self, opcode):
        stack = self.stack
        self.want(2)
        sig, key = stack[-2], stack[-1]
        if not is_key(key):
            raise Refused("WITNESS_PUBKEYTYPE")
        success = sig != b"" and self.is_good(key, sig)
        if success:
            self.checks.append((key, sig))
        if not success and sig:
            raise Refused("SIG_NULLFAIL")
        stack[-2:] = [b"\1" if success else b""]
        if opcode == 0xAD:
            if not success:
                raise Refused("CHECKSIGVERIFY")
            stack.pop()

    def check_multi_sig(self, opcode):
        stack = self.stack
        i = 1
        self.want(i)
        keys = number(stack[-i])
        if keys < 0 or keys > 20:
            raise Refused("PUBKEY_COUNT")
        self.ops += keys
        if self.ops > 201:
            raise Refused("OP_COUNT")
        i += 1
        key_at = i
        left = keys + 2
        i += keys
        self.want(i)
        sigs = number(stack[-i])
        if sigs < 0 or sigs > keys:
            raise Refused("SIG_COUNT")
        i += 1
        sig_at = i
        i += sigs
        self.want(i)
        success, found = True, []
        while success and sigs > 0:
            sig, key = stack[-sig_at], stack[-key_at]
            if not is_key(key):
                raise Refused("WITNESS_PUBKEYTYPE")
            if sig != b"" and self.is_good(key, sig):
                found.append((key, sig))
                sig_at += 1
                sigs -= 1
            key_at += 1
            keys -= 1
            if sigs > keys:
                success = False
        while i > 1:
            i -= 1
            if not success and left == 0 and stack[-1]:
                raise Refused("SIG_NULLFAIL")
            if left > 0:
                left -= 1
            stack.pop()
        self.want(1)
        if stack[-1]:
            raise Refused("SIG_NULLDUMMY")
        stack.pop()
        if success:
            self.checks += found
        stack.append(b"\1" if success else b"")
        if opcode == 0xAF:
            if not success:
                raise Refused("CHECKMULTISIGVERIFY")
            stack.pop()


def core(script, stack, is_good, version, sequence, locktime):
    """The run by the transcription."""
    return Core(script, stack, is_good, version, sequence, locktime).outcome()


try:
    import bitcoin.core.script as library_script
    import bitcoin.core.scripteval as library_eval
    import bitcoin.core.serialize as library_serialize
    from bitcoin.core.contrib.ripemd160 import ripemd160 as library_ripemd160

    has_library = True
except ImportError:
    has_library = False

if has_library:
    # The same answers, remembered: it takes most of a millisecond for each.
    library_eval.ripemd160 = library_serialize.ripemd160 = functools.lru_cache(65536)(library_ripemd160)
    library_eval.FindAndDelete = lambda script, sig: script

    class Watched(library_script.CScript):
        """A script that looks at the stack before and after each of its instructions, as EvalScript takes one after the other."""

        def watch(self, stack, is_good, locks):
            self.stack, self.is_good, self.locks = stack, is_good, locks
            self.branches, self.alt = [], 0
            self.place = self.ops = 0
            self.peak, self.checks = len(stack), []
            self.opcode = self.multi = None
            return self

        def raw_iter(self):
            for opcode, data, at in library_script.CScript.raw_iter(self):
                self.opcode, is_executed = opcode, all(self.branches)
                self.ops += opcode > 0x60
                if self.ops <= 201:
                    self.before(opcode, data, is_executed)
                yield opcode, data, at
                if is_executed:
                    self.after(opcode)
                height = len(self.stack) + self.alt
                if height > 1000:
                    raise Refused("STACK_SIZE")
                self.peak = max(self.peak, height)
                self.place += 1
            self.opcode = None

        def before(self, opcode, data, is_executed):
            stack, branches = self.stack, self.branches
            if data is None and opcode not in OPCODES and not (opcode == 0x4F or 0x51 <= opcode <= 0x60):
                raise Refused("BAD_OPCODE")
            if data is not None:
                if len(data) <= 520 and is_executed and not is_minimal_push(data, opcode):
                    raise Refused("MINIMALDATA")
            elif opcode in (0x63, 0x64):
                if is_executed and stack and stack[-1] not in (b"", b"\1"):
                    raise Refused("MINIMALIF")
                branches.append(is_executed and bool(stack) and (stack[-1] == b"\1") == (opcode == 0x63))
            elif opcode == 0x67 and branches:
                branches[-1] = not branches[-1]
            elif opcode == 0x68 and branches:
                branches.pop()
            elif is_executed:
                self.before_executed(opcode)

        def before_executed(self, opcode):
            stack = self.stack
            if opcode == 0x6B and stack:
                self.alt += 1
            elif opcode == 0x6C and self.alt:
                self.alt -= 1
            elif opcode == 0x92 and stack:
                number(stack[-1])
            elif opcode in (0x93, 0x9A, 0x9B) and len(stack) > 1:
                number(stack[-2]), number(stack[-1])
            elif opcode in (0xB1, 0xB2):
                if not stack:
                    raise Refused("INVALID_STACK_OPERATION")
                holds_lock(opcode, stack[-1], *self.locks)
            elif opcode in (0xAE, 0xAF) and stack:
                keys = number(stack[-1])
                self.multi = [], b"", []
                if 0 <= keys <= 20 and self.ops + keys <= 201:
                    self.ops += keys
                    if len(stack) >= keys + 2:
                        sigs = number(stack[-keys - 2])
                        if 0 <= sigs <= keys and len(stack) >= keys + sigs + 3:
                            self.multi = stack[-keys - sigs - 2 : -keys - 2], stack[-keys - sigs - 3], []

        def after(self, opcode):
            stack = self.stack
            if opcode in (0xAC, 0xAE) and stack[-1] == b"\0":
                stack[-1] = b""
            if opcode in (0xAE, 0xAF):
                self.after_multi(opcode == 0xAF or stack[-1] == b"\1")

        def after_multi(self, success):
            sigs, extra, found = self.multi
            if not success and any(sigs):
                raise Refused("SIG_NULLFAIL")
            if extra:
                raise Refused("SIG_NULLDUMMY")
            if success:
                self.checks += found

        def check(self, sig, key):
            """In place of that library's check: whether a signature is good."""
            sig, key = bytes(sig), bytes(key)
            if not is_key(key):
                raise Refused("WITNESS_PUBKEYTYPE")
            is_good = sig != b"" and self.is_good(key, sig)
            if self.opcode in (0xAC, 0xAD):
                if sig and not is_good:
                    raise Refused("SIG_NULLFAIL")
                if is_good:
                    self.checks.append((key, sig))
            elif is_good:
                self.multi[2].append((key, sig))
            return is_good

        def error_of(self, error):
            """Core's name of what that library raised."""
            said, opcode = str(error), self.opcode
            if isinstance(error, library_eval.MaxOpCountError):
                return "OP_COUNT"
            if isinstance(error, library_eval.MissingOpArgumentsError):
                if opcode in (0x63, 0x64):
                    return "UNBALANCED_CONDITIONAL"
                return "INVALID_ALTSTACK_OPERATION" if opcode == 0x6C else "INVALID_STACK_OPERATION"
            if isinstance(error, library_eval.VerifyOpFailedError):
                if opcode == 0xAF:
                    self.after_multi(False)
                return OPCODES[opcode]
            for part, name in SAID:
                if part in said:
                    return name
            return said

    SAID = (
        ("script too large", "SCRIPT_SIZE"), ("PUSHDATA of length", "PUSH_SIZE"), ("CastToBigNum() : overflow", "UNKNOWN_ERROR"),
        ("without prior IF", "UNBALANCED_CONDITIONAL"), ("Unterminated", "UNBALANCED_CONDITIONAL"), ("keys count invalid", "PUBKEY_COUNT"),
        ("sigs count invalid", "SIG_COUNT"), ("not enough", "INVALID_STACK_OPERATION"), ("missing dummy value", "INVALID_STACK_OPERATION"),
        ("max stack items", "STACK_SIZE"), ("unsupported opcode", "BAD_OPCODE"), ("missing data length", "BAD_OPCODE"),
        ("truncated data", "BAD_OPCODE"),
    )  # fmt: skip

    watched = None
    library_eval._CheckSig = lambda sig, key, script, tx, place, raiser: watched.check(sig, key)


def library(script, stack, is_good, version, sequence, locktime):
    """The run by python-bitcoinlib's interpreter, with the rules that it lacks."""
    global watched
    stack = list(stack)
    watched = it = Watched(script).watch(stack, is_good, (version, sequence, locktime))
    error = None
    try:
        if any(len(item) > 520 for item in stack):
            raise Refused("PUSH_SIZE")
        try:
            library_eval.EvalScript(stack, it, None, 0, ())
        except library_eval.EvalScriptError as raised:
            raise Refused(it.error_of(raised)) from raised
        if len(stack) != 1:
            raise Refused("CLEANSTACK")
        if not is_true(stack[-1]):
            raise Refused("EVAL_FALSE")
    except Refused as refused:
        error = refused.args[0]
    return error, it.place, it.ops, it.peak, it.checks
