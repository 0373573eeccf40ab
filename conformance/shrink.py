"""The smallest case of what a random run found: close to it, and with the same outcome and cause."""

import cbor
import fuzz
from vectors import block_of

MOST = 40  # bytes of a block of which any may be left out; three times as many if the block is not well-formed
AT_ONCE = 500


def smaller(block):
    """Blocks near it: its items alone; an item that is a zero, or an empty text; one part of a list or a map fewer, or a string of half
    the bytes, or of one fewer; some bytes left out; and where it is short any byte smaller. The smallest come first."""
    found, whole = set(), []
    try:
        note(block, 0, whole)
    except (cbor.NotWellFormed, RecursionError):
        whole = []
    for at, end, behind, parts in whole:
        found |= {block[at:end], block[:at] + b"\0" + block[end:], block[:at] + b"\x60" + block[end:]}
        if parts is None:
            sizes = {(end - behind) // 2, end - behind - 1} - {-1}
            found |= {block[:at] + fewer(block[at:behind], end - behind - size) + block[behind : behind + size] + block[end:] for size in sizes}
        else:
            found |= {block[:at] + fewer(block[at:behind], 1) + block[behind:one] + block[other:] for one, other in parts}
    is_short = len(block) <= (MOST if whole else 3 * MOST)
    found |= {it for at, behind in cuts(len(block), is_short) for it in (block[at:behind], block[:at] + block[behind:])}
    if is_short:
        lower = [(at, less) for at, byte in enumerate(block) for less in {0, 0x60, byte // 2, byte - 1} if 0 <= less < byte]
        found |= {block[:at] + bytes([less]) + block[at + 1 :] for at, less in lower}
    return sorted((it for it in found if (len(it), it) < (len(block), block)), key=lambda it: (len(it), it))


def cuts(length, is_short):
    """Where bytes that are left out begin and end: anywhere in a short block; in a longer one the halves, the quarters and so on."""
    if is_short:
        return [(at, behind) for at in range(length) for behind in range(at + 1, length + 1)]
    sizes = [length >> halved for halved in range(1, length.bit_length())]
    return [(at, at + size) for size in sizes for at in range(0, length, size)]


def fewer(head, count):
    """The head with an argument that is less by this much, in as many bytes; if there is no argument, the same head."""
    if len(head) == 1:
        return head if head[0] & 31 == 31 else bytes([head[0] - count])
    return head[:1] + (int.from_bytes(head[1:], "big") - count).to_bytes(len(head) - 1, "big")


def note(block, at, whole):
    """Notes of the item there, and of those in it, where it begins and ends, where its head ends, and where the parts of a list, or
    the entries of a map, begin and end: of a string none. Answers where it ends."""
    major, information, argument, behind = cbor.argument_of(block, at)
    if major in (2, 3):
        _, end = cbor.string_of(block, behind, major, argument)
        whole.append((at, end, behind, None if argument is not None else []))
        return end
    parts, end, is_tag = [], behind, major == 6
    while major in (4, 5, 6) and (len(parts) < (1 if is_tag else argument) if argument is not None else block[end : end + 1] != b"\xff"):
        one = end
        for _ in range(2 if major == 5 else 1):
            end = note(block, end, whole)
        parts.append((one, end))
    end += argument is None and major < 6  # its break; any other is taken for an item
    whole.append((at, end, behind, [] if is_tag else parts))
    return end


def shrunk(judged, judge_all):
    """The smallest case near it with the same outcome and cause. `judge_all` compares the peer with vectors."""
    kind = lambda it: (it.outcome, it.vector.get("cause"))
    name, found = f"{judged.vector['id']} made smaller", judged
    while found:
        judged, blocks = found, smaller(block_of(found.vector))
        for at in range(0, len(blocks), AT_ONCE):
            near = judge_all([fuzz.vector(name, it) for it in blocks[at : at + AT_ONCE]])
            found = next((it for it in near if kind(it) == kind(judged)), None)
            if found:
                break
        else:
            found = None
    return judged


def smallest(judged, judge_all):
    """For each outcome and cause that did not hold, the shortest block, shrunk."""
    first = {}
    for it in sorted(judged, key=lambda it: len(block_of(it.vector))):
        if it.outcome not in ("held", "not asked"):
            first.setdefault((it.outcome, it.vector.get("cause")), it)
    return [shrunk(it, judge_all) for it in first.values()]
