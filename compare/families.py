"""The families of scripts.

The same family, seed and size give the same script. A family that has an end is gone through in a fixed mixed order: seed 0 gives its
first SIZE sessions, seed 1 the next SIZE, and so on, round and round, so that runs of many seeds meet all of it. The others draw by their
seed. Every script stays on document 01's domain: texts that are sent are UTF-8, control payloads have at most 125 bytes, and the output is
taken after each call. `until refused` ends each session at its first refusal.
"""
import random

SAY = ["waits", "state"]
TEXT, BINARY, CLOSE, PING, PONG = 1, 2, 8, 9, 10
# (role, unmasked permitted): a client has no use for the setting.
ROLES = [("client", 0), ("server", 0), ("server", 1)]
TALK = ["", "a", "Hello", "\u00e9", "\u20ac", "\U0001f600", "h\u00e9llo \u20ac", "\ud7ff\ue000\uffff\U00010000\U0010ffff"]


def hexed(data):
    return bytes(data).hex() or "-"


def length(count, form=None):
    """The low seven bits of a header's second byte, and the bytes of the length behind it."""
    if form is None:
        form = 0 if count < 126 else 2 if count < 65536 else 8
    return (count, b"") if form == 0 else (126 if form == 2 else 127, count.to_bytes(form, "big"))


def masked(data, mask):
    return bytes(b ^ mask[i % 4] for i, b in enumerate(data))


def frame(opcode, data=b"", final=True, mask=None, reserved=0, form=None):
    low, extra = length(len(data), form)
    first = (0x80 if final else 0) | reserved << 4 | opcode
    if mask is None:
        return bytes([first, low]) + extra + data
    return bytes([first, 0x80 | low]) + extra + mask + masked(data, mask)


def some_mask(rng):
    return rng.choice([b"\0\0\0\0", b"\x37\xfa\x21\x3d", rng.randbytes(4)])


def right_mask(rng, role):
    """What the peer of a session of this role has to do."""
    return some_mask(rng) if role == "server" else None


def utf8(rng, most):
    """Some valid text of at most so many bytes."""
    data = b""
    for _ in range(rng.choice([0, 1, 2, 5, 9])):
        char = rng.choice(["a", "~", "\0", "\x7f", "\x80", "\u07ff", "\u0800", "\ud7ff", "\ue000", "\uffff", "\U00010000", "\U0010ffff"])
        char = char.encode()
        if len(data) + len(char) <= most:
            data += char
    return data


def session(role, frame_limit=300, message_limit=300, unmasked=0):
    return f"session {role} {frame_limit} {message_limit} {unmasked}"


def read(data, end=0):
    return f"read {hexed(data)} {end}"


def every(data, end=0):
    return f"all {hexed(data)} {end}"


def masks(rng):
    return f"masks {rng.randbytes(8).hex()}"


def cut(rng, data, pieces):
    """The data in so many pieces, some of which may be empty."""
    places = sorted(rng.randint(0, len(data)) for _ in range(pieces - 1))
    return [data[a:b] for a, b in zip([0] + places, places + [len(data)])]


# Families. Each gives (how many sessions it has or None, a function from a session's number and a random source to its lines).


def pairs():
    """Every pair of header bytes in each role."""

    def make(i, rng):
        i, second = divmod(i, 256)
        kind, first = divmod(i, 256)
        role, unmasked = ROLES[kind]
        low = second & 127
        extra = b""
        count = low
        if low >= 126:
            count = rng.choice([0, 1, 5, 125, 126, 200])
            extra = count.to_bytes(2 if low == 126 else 8, "big")
        data = rng.choice([bytes(count), b"a" * count, (b"\x03\xe8" + b"a" * count)[:count], rng.randbytes(count)])
        head = bytes([first, second]) + extra
        if second & 128:
            mask = some_mask(rng)
            head += mask
            data = masked(data, mask)
        return [session(role, 300, 300, unmasked), every(head), every(data), *SAY, every(b"", 1)]

    return 3 * 65536, make


def reach(rng, role, state):
    """Calls that lead a session of this role to a state."""
    mask = right_mask(rng, role)
    close = frame(CLOSE, rng.choice([b"", b"\x03\xe8", b"\x03\xe8bye", b"\x03\xec"]), mask=mask)
    if state == "Active":
        return []
    if state == "ClosedByUs":
        return ["close 03e8"]
    if state == "ClosedByPeer":
        return [read(close)]
    return ["close -", read(close)]


STATES = ["Active", "ClosedByUs", "ClosedByPeer", "CloseAcknowledged"]
INSIDE = [None, (TEXT, b""), (TEXT, b"ab"), (TEXT, b"a\xe2\x82"), (BINARY, b"\xff\xe2"), (BINARY, b"")]
LENGTHS = [(0, 0), (1, 0), (2, 0), (3, 0), (5, 0), (124, 0), (125, 0), (125, 2), (126, 2), (3, 8), (130, 8), (1 << 16, 8), (1 << 63, 8)]
LIMITS = [(0, 0), (3, 5), (5, 3), (125, 125), (126, 126), (300, 300), (16777216, 60000)]


def headers():
    """Every header in each state, inside and outside a message, at several limits."""
    # All opcodes that mean something and the bounds of the others; half of the headers without a reserved bit. `pairs` has the rest.
    opcodes = [0, 1, 2, 8, 9, 10, 3, 7, 11, 15]
    firsts = [final | reserved | opcode for final in (0x80, 0) for reserved in (0, 0, 0, 0x40, 0x20, 0x70) for opcode in opcodes]
    parts = [len(firsts), len(LENGTHS), 2, len(ROLES), len(STATES), len(INSIDE), len(LIMITS)]
    total = 1
    for part in parts:
        total *= part

    def make(i, rng):
        at = []
        for part in parts:
            i, left = divmod(i, part)
            at.append(left)
        first = firsts[at[0]]
        count, form = LENGTHS[at[1]]
        role, unmasked = ROLES[at[3]]
        inside = INSIDE[at[5]]
        limits = LIMITS[at[6]]
        lines = [session(role, *limits, unmasked)]
        state = STATES[at[4]]
        # A begun message, where it fits, before the state is reached: only the two states that read can have one.
        if inside:
            lines.append(every(frame(inside[0], inside[1], False, right_mask(rng, role))))
        lines += reach(rng, role, state)
        if rng.random() < 0.2:
            lines.append(read(frame(PING, b"p", mask=right_mask(rng, role))))
        low, extra = length(count, form)
        head = bytes([first, low | (0x80 if at[2] else 0)]) + extra
        if count > limits[0] or count > 1000 and rng.random() < 0.95:
            data = b"more"
        else:
            # Nothing, good text, a rest of a character, anything, a close payload.
            run = b"a" * count
            data = rng.choice([bytes(count), run, (b"\xac" + run)[:count], rng.randbytes(count), (b"\x03\xe8" + run)[:count]])
        if at[2]:
            mask = some_mask(rng)
            head += mask
            data = masked(data, mask)
        return lines + [every(head), every(data), *SAY, every(b"", rng.randint(0, 1)), "state"]

    return total, make


def calls(role):
    """Some thirty calls, out of which all orders are tried."""
    mask = b"\x37\xfa\x21\x3d" if role == "server" else None

    def said(*frames, end=0):
        return [read(b"".join(frames), end)]

    def put(line):
        return ["masks 37fa213d01020408", line]

    whole = frame(TEXT, b"Hello", mask=mask)
    return [
        said(whole),
        said(frame(TEXT, b"", mask=mask)),
        said(frame(TEXT, b"a\xe2", False, mask)),
        said(frame(0, b"\x82", False, mask)),
        said(frame(0, b"\xac", True, mask)),
        said(frame(0, b"", False, mask)),
        said(frame(0, b"b", True, mask)),
        said(frame(BINARY, b"\xff", False, mask)),
        said(frame(BINARY, b"\x00\xff", mask=mask)),
        said(frame(BINARY, bytes(8), False, mask)),
        said(frame(PING, b"p", mask=mask)),
        said(frame(PING, b"", mask=mask)),
        said(frame(PONG, b"q", mask=mask)),
        said(frame(CLOSE, b"", mask=mask)),
        said(frame(CLOSE, b"\x03\xe8ok", mask=mask)),
        said(frame(CLOSE, b"\x03\xec", mask=mask)),
        said(frame(PING, b"1", mask=mask), frame(PING, b"2", mask=mask), whole),
        said(whole[:1]),
        said(whole[1:]),
        said(whole[:-2]),
        said(b""),
        said(b"", end=1),
        said(frame(PONG, mask=mask), whole, end=1),
        [every(b"")],
        put("text c3a9"),
        put("binary -"),
        put("ping 01"),
        put("pong 02"),
        put("close -"),
        put("close 03e8"),
        ["waits"],
    ]


CALLS = {role: calls(role) for role in ("client", "server")}


def orders(count):
    many = len(CALLS["client"])

    def make(i, rng):
        i, kind = divmod(i, 2)
        role = ("client", "server")[kind]
        lines = [session(role, 10, 12)]
        for _ in range(count):
            i, one = divmod(i, many)
            lines += CALLS[role][one]
        return lines + SAY

    return 2 * many**count, make


def three():
    """All orders of three calls out of some thirty."""
    return orders(3)


def four():
    """All orders of four calls out of some thirty."""
    return orders(4)


def good_frame(rng, role, inside):
    """A frame that the session takes, and whether a message is then begun (its opcode, and what it has of a character)."""
    mask = right_mask(rng, role)
    pick = rng.random()
    if pick < 0.15:
        return frame(PING, rng.randbytes(rng.choice([0, 1, 4, 125])), mask=mask), inside
    if pick < 0.25:
        return frame(PONG, rng.randbytes(rng.choice([0, 2, 125])), mask=mask), inside
    final = rng.random() < 0.6
    form = rng.choice([None, None, None, 2, 8])
    if inside:
        opcode, rest = inside
        data = rest + (utf8(rng, 20) if opcode == TEXT else rng.randbytes(rng.randint(0, 9)))
    else:
        opcode = rng.choice([TEXT, BINARY])
        data = utf8(rng, 40) if opcode == TEXT else rng.randbytes(rng.choice([0, 1, 7, 30]))
    rest = b""
    if not final and data and opcode == TEXT and rng.random() < 0.5:
        at = rng.randint(0, len(data))
        data, rest = data[:at], data[at:]
    shown = 0 if inside else opcode
    return frame(shown, data, final, mask, form=form), None if final else (opcode, rest)


def stream(rng, role, frames):
    data = b""
    inside = None
    for _ in range(frames):
        one, inside = good_frame(rng, role, inside)
        data += one
    if rng.random() < 0.5:
        reason = rng.choice(TALK).encode()
        data += frame(CLOSE, rng.choice([b"", b"\x03\xe8", b"\x03\xec" + reason, b"\x0b\xb8" + reason]), mask=right_mask(rng, role))
    return data


def cuts():
    """Frames glued, and cut at every place: in two, in three, byte by byte."""
    kept = {}

    def make(i, rng):
        # One stream is kept until it was cut everywhere.
        if not kept.get("left"):
            role, unmasked = rng.choice(ROLES)
            data = stream(rng, role, rng.randint(1, 4))
            if rng.random() < 0.2:
                data += rng.randbytes(rng.randint(1, 4))
            kept.update(role=role, unmasked=unmasked, data=data, end=rng.randint(0, 1), left=len(data) + 2)
        kept["left"] -= 1
        data, end, at = kept["data"], kept["end"], kept["left"]
        lines = [session(kept["role"], 300, 300, kept["unmasked"])]
        if at > len(data):
            pieces = [data[k : k + 1] for k in range(len(data))]
        elif rng.random() < 0.3:
            pieces = [data[:at], *cut(rng, data[at:], 2)]
        else:
            pieces = [data[:at], data[at:]]
        word = rng.choice([read, every])
        lines += [word(piece) for piece in pieces]
        lines += [read(b"")] * rng.randint(0, 2)
        return lines + [every(b"", end), *SAY]

    return None, make


CODES = [0, 1, 999, *range(1000, 1017), 2000, 2999, 3000, 3999, 4000, 4999, 5000, 32768, 65535]


def codes():
    """Every close code: received when Active and in ClosedByUs, and sent; a fourth of the sessions has a code at a bound of its class."""

    def make(i, rng):
        i, way = divmod(i, 4)
        code, kind = divmod(i, 2)
        if way == 3:
            way = rng.randrange(3)
            code = rng.choice(CODES)
        role = ("client", "server")[kind]
        reason = rng.choice([b"", b"", b"bye", "\u00e9\u20ac".encode(), b"a" * 123, b"Protocol violation"])
        if way == 2:
            return [session(role), masks(rng), f"close {hexed(code.to_bytes(2, 'big') + reason)}", *SAY, every(b"", 1)]
        if rng.random() < 0.1:
            reason = rng.choice([b"\xff", b"\xe2\x82", b"a" * 124, b"\xed\xa0\x80", b"a" * 122 + b"\xc3"])
        lines = [session(role)]
        if way == 1:
            lines += ["close -"]
        elif rng.random() < 0.2:
            lines += [read(frame(PING, b"p", mask=right_mask(rng, role)))]
        data = frame(CLOSE, code.to_bytes(2, "big") + reason, mask=right_mask(rng, role))
        lines += [read(piece) for piece in cut(rng, data, rng.randint(1, 2))]
        return lines + [*SAY, masks(rng), read(b""), *SAY, every(b"", 1), "state"]

    return 65536 * 2 * 4, make


EDGES = [0, 1, 2, 3, 5, 64, 124, 125, 126, 127, 128, 255, 256, 257, 1000]
LARGE = [65534, 65535, 65536, 65537]


def limits():
    """Limits around each edge: of a frame, of a message in one frame or several, of a control payload, of what is sent."""

    def make(i, rng):
        role, unmasked = rng.choice(ROLES)
        # Seldom, since one such message is as long as hundreds of others.
        large = rng.random() < 0.005
        edges = LARGE if large else EDGES
        frame_limit, message_limit = rng.choice(edges), rng.choice(edges)
        if rng.random() < 0.3:
            frame_limit = rng.choice([16777215, 16777216])
        if rng.random() < 0.3:
            message_limit = max(message_limit, rng.choice(edges))
        lines = [session(role, frame_limit, message_limit, unmasked)]
        mask = right_mask(rng, role)
        near = max(0, rng.choice([frame_limit, message_limit]) + rng.randint(-1, 1))
        if rng.random() < 0.15:
            near = rng.choice([0, 1, 124, 125, 126, 127])
        form = rng.choice([None, None, 2, 8]) if near < 65536 else 8
        if rng.random() < (0.7 if large else 0.2):
            # What is sent has no limit; here are the edges of the length's forms.
            count = rng.choice(LARGE if large else [0, 1, 124, 125, 126, 127, 255, 256])
            lines += [masks(rng), rng.choice(["text " + hexed(b"a" * count), "binary " + hexed(rng.randbytes(count))])]
        if near > 70000:
            # Only the header comes: its last byte decides, or the payload is waited for.
            low, extra = length(near, 8)
            head = bytes([rng.choice([0x81, 0x82, 0x01, 0x89]), low | (0x80 if mask else 0)]) + extra + (mask or b"")
            return lines + [read(piece) for piece in cut(rng, head, 2)] + [read(b"ab"), *SAY, every(b"", 1)]
        kind = rng.random()
        if kind < 0.4:
            # Over the limit and not UTF-8 too: the order of numbers.
            byte = b"\xff" if rng.random() < 0.2 else b"a"
            data = frame(rng.choice([TEXT, BINARY]), byte * near, True, mask, form=form)
        elif kind < 0.55:
            data = frame(rng.choice([CLOSE, PING, PONG]), (b"\x03\xe8" + b"a" * near)[:near], True, mask, form=form)
        else:
            # Fragments whose sum is near the message limit.
            opcode = rng.choice([TEXT, BINARY])
            parts = [len(p) for p in cut(rng, bytes(near), rng.randint(2, 4))]
            last = b"\xff" if rng.random() < 0.2 else b"a"
            data = b"".join(
                frame(0 if k else opcode, (last if k == len(parts) - 1 else b"a") * n, k == len(parts) - 1, right_mask(rng, role))
                for k, n in enumerate(parts)
            )
            if rng.random() < 0.3:
                data = data[: len(data) // 2]
        return lines + [every(piece) for piece in cut(rng, data, rng.randint(1, 3))] + [*SAY, every(b"", 1)]

    return None, make


# The bytes at both ends of each class of RFC 3629's table.
BOUNDS = bytes.fromhex("007f808f909fa0bfc0c1c2dfe0e1ecedeeeff0f1f3f4f5ff")


def utf8_classes():
    """Every class of UTF-8 sequence: up to four bytes at the bounds of RFC 3629's classes, and good text with at most one byte changed, cut
    over fragments and pieces."""
    many = len(BOUNDS)
    total = many + many**2 + many**3 + many**4

    def some(i):
        count = 1
        while i >= many**count:
            i -= many**count
            count += 1
        data = b""
        for _ in range(count):
            i, one = divmod(i, many)
            data += BOUNDS[one : one + 1]
        return data

    def make(i, rng):
        i, kind = divmod(i, 2)
        if kind:
            data = some(i)
        else:
            data = utf8(rng, 40)
            if data and rng.random() < 0.4:
                at = rng.randrange(len(data))
                data = data[:at] + bytes([rng.choice(BOUNDS)]) + data[at + 1 :]
        data = rng.choice(["", "", "a", "\u20ac"]).encode() + data + rng.choice(["", "", "a", "\u00e9"]).encode()
        role = rng.choice(["client", "server"])
        way = rng.random()
        if way < 0.1:
            whole = frame(CLOSE, b"\x03\xe8" + data, mask=right_mask(rng, role))
        elif way < 0.3:
            whole = frame(TEXT, data, mask=right_mask(rng, role))
        else:
            parts = cut(rng, data, rng.randint(2, 4))
            whole = b""
            for k, part in enumerate(parts):
                whole += frame(0 if k else TEXT, part, k == len(parts) - 1, right_mask(rng, role))
                if rng.random() < 0.1:
                    whole += frame(PING, b"\xc3", mask=right_mask(rng, role))
        return [session(role), *(every(piece) for piece in cut(rng, whole, rng.randint(1, 3))), "state"]

    return 2 * total, make


def send(rng):
    """A call that sends, on the domain."""
    word = rng.choice(["text", "text", "binary", "ping", "pong", "pong"])
    if word == "text":
        data = utf8(rng, 200)
    elif word == "binary":
        data = rng.randbytes(rng.choice([0, 1, 2, 3, 4, 5, 8, 125, 126, 130]))
    else:
        data = rng.randbytes(rng.choice([0, 1, 3, 6, 125]))
    return f"{word} {hexed(data)}"


def close_line(rng):
    code = rng.choice([0, 999, 1000, 1002, 1005, 1014, 3000, 4999, 5000, 65535]).to_bytes(2, "big")
    return f"close {hexed(rng.choice([b'', code, code + rng.choice(TALK).encode()]))}"


def long():
    """Long random sessions: frames good and (seldom) bad, sending calls, pieces cut anywhere."""

    def make(i, rng):
        role, unmasked = rng.choice(ROLES)
        lines = [session(role, rng.choice([125, 300, 300]), rng.choice([60, 300, 300]), unmasked)]
        inside = None
        for _ in range(rng.randint(10, 60)):
            pick = rng.random()
            if pick < 0.5:
                data, inside = good_frame(rng, role, inside)
                for piece in cut(rng, data, rng.choice([1, 1, 2, 3])):
                    if rng.random() < 0.3:
                        lines.append(masks(rng))
                    lines.append(rng.choice([read, read, every])(piece))
            elif pick < 0.8:
                if rng.random() < 0.8:
                    lines.append(masks(rng))
                lines.append(send(rng))
            elif pick < 0.9:
                lines.append(rng.choice(SAY))
            elif pick < 0.96:
                lines.append(read(b""))
            elif pick < 0.97:
                lines.append(close_line(rng))
            elif pick < 0.98:
                lines.append(read(frame(CLOSE, rng.choice([b"", b"\x03\xe8", b"\x03\xec!"]), mask=right_mask(rng, role))))
            elif pick < 0.985:
                lines.append(every(rng.randbytes(rng.randint(1, 5))))
        return lines + [every(b""), *SAY, every(b"", 1)]

    return None, make


def short():
    """Random short streams."""

    def make(i, rng):
        role, unmasked = rng.choice(ROLES)
        small = rng.choice([0, 1, 2, 3, 4, 125, 300])
        data = b""
        for _ in range(rng.randint(1, 4)):
            data += bytes([rng.choice([0x80, 0x80, 0, 0xC0, 0x90]) | rng.choice([0, 0, 1, 1, 2, 2, 8, 9, 10, 3, 11])])
            bit = 0x80 if (role == "server") == (rng.random() < 0.95) else 0
            data += bytes([bit | rng.choice([0, 0, 1, 2, 3, 4, 126, 127])])
            data += rng.choice([b"", b"", bytes(rng.randint(0, 9)), b"\0\1", bytes(7) + b"\2", rng.randbytes(rng.randint(0, 9))])
        if rng.random() < 0.1:
            data = rng.randbytes(rng.randint(0, 12))
        lines = [session(role, small, rng.choice([small, 300]), unmasked)]
        lines += [rng.choice([read, every])(piece) for piece in cut(rng, data, rng.randint(1, 4))]
        return lines + [every(b"", rng.randint(0, 1)), *SAY]

    return None, make


def masking():
    """Masked output compared with the masks given: every length up to 130, one and two frames in a call, replies and calls mixed."""

    def make(i, rng):
        i, count = divmod(i, 131)
        role = "client" if i % 8 else "server"
        mask = right_mask(rng, role)
        data = rng.randbytes(count)
        lines = [session(role)]
        if i % 2 == 0 and count <= 125:
            lines += [read(frame(PING, data, mask=mask))]
        if i % 3 == 0:
            lines += [masks(rng), read(b"")]
        lines += [masks(rng), f"binary {hexed(data)}", masks(rng), send(rng), send(rng), masks(rng), send(rng)]
        if i % 5 == 0:
            lines += [read(frame(PING, b"last", mask=mask)), masks(rng), close_line(rng)]
        else:
            lines += [read(frame(CLOSE, b"\x03\xe8" + data[:0], mask=mask)), masks(rng), read(b"")]
        return lines + SAY

    return 131 * 120, make


def past():
    """Beyond the domain, where nothing changes: what follows 17, 2 and 16, and sending after a refused read. Here `until refused` is not
    said; nothing is read again after 3 to 15."""

    def make(i, rng):
        role, unmasked = rng.choice(ROLES)
        lines = [session(role, 300, 300, unmasked)]
        inside = None
        for _ in range(rng.randint(0, 4)):
            data, inside = good_frame(rng, role, inside)
            lines += [every(data)] + ([masks(rng), send(rng)] if rng.random() < 0.5 else [])
        way = rng.choice(["ours", "theirs", "both", "end", "refused"])
        close = frame(CLOSE, rng.choice([b"", b"\x03\xe8ok", b"\x03\xec"]), mask=right_mask(rng, role))
        if way in ("ours", "both"):
            lines += [masks(rng), close_line(rng)]
        if way in ("theirs", "both"):
            lines += [read(close)]
        if way == "end":
            lines += [every(b"", 1)]
        if way == "refused":
            bad = [frame(3), frame(PING, final=False), frame(CLOSE, b"\1"), frame(TEXT, b"\xff"), frame(TEXT, bytes(301))]
            lines += [read(rng.choice(bad))]
        for _ in range(rng.randint(1, 6)):
            pick = rng.random()
            if pick < 0.6:
                lines += [masks(rng), rng.choice([send, send, close_line])(rng)]
            elif pick < 0.8 or way == "refused":
                lines += SAY
            elif way == "ours" and rng.random() < 0.8:
                data, inside = good_frame(rng, role, inside)
                lines += [every(data)]
            else:
                lines += [masks(rng), read(b"", rng.randint(0, 1))]
        return lines + SAY

    return None, make


FAMILIES = {
    "pairs": pairs,
    "headers": headers,
    "three": three,
    "four": four,
    "cuts": cuts,
    "codes": codes,
    "limits": limits,
    "utf8": utf8_classes,
    "long": long,
    "short": short,
    "masks": masking,
    "past": past,
}
# Lines that answer nothing are no calls, and neither is a session.
SILENT = ("session", "masks", "until", "#")


def sessions(family, seed, size):
    """The sessions of a script, each a list of lines."""
    total, make = FAMILIES[family]()
    rng = random.Random(f"{family} {seed}")
    if total:
        # A step that has no divisor in common with the whole meets every number once.
        step = 2654435761
        while any(total % p == 0 and step % p == 0 for p in range(2, 100)):
            step += 2
    for k in range(size):
        at = seed * size + k
        yield make(at * step % total if total else at, rng)


def head(family):
    return [] if family == "past" else ["until refused"]


def count_calls(lines):
    return sum(not line.startswith(SILENT) for line in lines)
