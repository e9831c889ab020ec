"""A plain reading of what a client sends, which shares nothing with the program: frames (LSP 3.17, "Base Protocol") and messages (JSON-RPC 2.0,
sections 4 and 5), with the limits and readings that the README and docs/DECISIONS.md list."""
import json
import math
import re

HEADER_MOST, CONTENT_MOST = 4096, 16_777_216
FIELD = re.compile(rb"([!-9;-~]+):([^\r\n]*)")
DIGITS = re.compile(rb"[0-9]+")
# Members and items nest no deeper.
DEEPEST = 127
PARSE_ERROR, INVALID_REQUEST, NOT_INITIALIZED, NOT_FOUND = -32700, -32600, -32002, -32601
ASKS = {
    f"textDocument/{it}" for it in ("hover", "definition", "references", "documentSymbol", "rename", "codeAction", "semanticTokens/full")
}


def faults_of(front):
    """The numbers of the faults that these bytes show, and whether their header part has ended. No shorter front shows one or has ended."""
    *ended, last = front.split(b"\n")
    has_ended = bool(ended) and ended[-1] == b"\r"
    lines = [line[:-1] for line in ended[: len(ended) - has_ended]]
    fields = [FIELD.fullmatch(line) for line in lines]
    has_bare_ends = any(not line.endswith(b"\r") for line in ended) or b"\r" in last[:-1]
    values = [field[2].strip(b" \t") for field in fields if field and field[1].lower() == b"content-length"]
    shown = (
        len(front) >= HEADER_MOST and not has_ended,
        has_bare_ends or None in fields,
        has_ended and not values,
        len(values) > 1,
        any(not DIGITS.fullmatch(value) for value in values),
        any(DIGITS.fullmatch(value) and int(value) > CONTENT_MOST for value in values),
    )
    return [number for number, is_shown in enumerate(shown, 1) if is_shown], has_ended, values


def header_of(rest):
    """How many bytes the header part has, and how many the content; or the number of the fault that its shortest front shows; or None."""
    for size in range(1, min(len(rest), HEADER_MOST) + 1):
        # nothing is shown but at an LF, behind a CR, and where there are too many bytes
        if rest[size - 1] == 10 or (size > 1 and rest[size - 2] == 13) or size == HEADER_MOST:
            faults, has_ended, values = faults_of(rest[:size])
            if faults:
                return min(faults)
            if has_ended:
                return size, int(values[0])
    return None


def frames_of(stream):
    """The contents of the whole frames, and the number of the fault with which a stream ends; 0 where it has none."""
    bodies = []
    while stream:
        header = header_of(stream)
        if isinstance(header, int):
            return bodies, header
        if header is None or sum(header) > len(stream):
            return bodies, 7
        bodies.append(stream[header[0] : sum(header)])
        stream = stream[sum(header) :]
    return bodies, 0


def finite(number):
    if math.isinf(float(number)):
        raise ValueError(number)
    return float(number)


def integer(number):
    """-0 is none, and one that isn't below the greatest float is no JSON."""
    value = finite(number)
    return value if number == "-0" else int(number)


def no_constant(name):
    raise ValueError(name)


def is_text(value):
    """Whether each text in a value, but for those in objects, has its surrogates in pairs."""
    if isinstance(value, list):
        return all(map(is_text, value))
    return not isinstance(value, str) or not any("\ud800" <= character <= "\udfff" for character in value)


def members(pairs):
    if not all(is_text(key) and is_text(value) for key, value in pairs):
        raise ValueError("half a pair")
    return dict(pairs)


def depth(text):
    most = now = 0
    for bracket in re.sub(r'"(?:[^"\\]|\\.)*"', "", text, flags=re.DOTALL):
        now += (bracket in "[{") - (bracket in "]}")
        most = max(most, now)
    return most


def json_of(body):
    """What a body says. It isn't JSON where there is a ValueError."""
    text = body.decode()
    if depth(text) > DEEPEST:
        raise ValueError("too deep")
    value = json.loads(text, parse_float=finite, parse_int=integer, parse_constant=no_constant, object_pairs_hook=members)
    if not is_text(value):
        raise ValueError("half a pair")
    return value


def id_of(value):
    """An id as JSON, where the value is one: an integer of 64 bits or a text."""
    is_number = isinstance(value, int) and not isinstance(value, bool) and -(2**63) <= value < 2**63
    return json.dumps(value) if is_number or isinstance(value, str) else "null"


class Plain:
    """What must come of a client's stream: each reply's id and the codes that it may have, where 0 stands for a result; how many findings may be
    published; and how the run ends."""

    def __init__(self, stream):
        self.stage, self.replies, self.versions = "before", [], 0
        bodies, fault = frames_of(stream)
        for body in bodies:
            if self.hear(body):
                self.status, self.fault = (0 if self.stage == "down" else 1), 0
                return
        self.status, self.fault = (2 if fault else 1), fault

    def hear(self, body):
        """Hears a message, and tells whether it is an exit."""
        try:
            said = json_of(body)
        except ValueError:
            self.replies.append(("null", (PARSE_ERROR,)))
            return False
        if not isinstance(said, dict):
            self.replies.append(("null", (INVALID_REQUEST,)))
        elif not isinstance(said.get("method"), str):
            if "method" in said or not ("result" in said or "error" in said):
                self.replies.append((id_of(said.get("id")), (INVALID_REQUEST,)))
        elif "id" not in said:
            self.versions += said["method"] in ("textDocument/didOpen", "textDocument/didChange") and self.stage == "running"
            return said["method"] == "exit"
        elif id_of(said["id"]) == "null":
            self.replies.append(("null", (INVALID_REQUEST,)))
        else:
            self.replies.append((id_of(said["id"]), self.codes_of(said["method"])))
        return False

    def codes_of(self, method):
        """The codes that a request may be answered with."""
        if self.stage == "before":
            if method != "initialize":
                return (NOT_INITIALIZED,)
            self.stage = "running"
            return (0,)
        if self.stage == "down" or method == "initialize":
            return (INVALID_REQUEST,)
        if method == "shutdown":
            self.stage = "down"
            return (0,)
        return (0, -32602, -32600, -32800, -32801, -32803) if method in ASKS else (NOT_FOUND,)
