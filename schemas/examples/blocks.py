#!/usr/bin/env python3
"""The blocks of the tests of the types that these schemas make, as Rattle: spelled here by the rules alone, with nothing of the
tool or of the library.

    schemas/examples/blocks.py album repository > crates/tests_schema/src/tests/blocks.rt"""

import sys


class Link(bytes):
    """A CID in its binary form."""


def head(major, n):
    for size, extra in ((1, 24), (2, 25), (4, 26), (8, 27)):
        if n < 24:
            return bytes([major * 32 + n])
        if n < 256**size:
            return bytes([major * 32 + extra]) + n.to_bytes(size, "big")
    raise ValueError(n)


def counted(major, payload):
    return head(major, len(payload)) + payload


def spelled(value):
    """The pieces of an item: each text by itself, so that it stays readable."""
    if value is None:
        return [b"\xf6"]
    if isinstance(value, bool):
        return [b"\xf5" if value else b"\xf4"]
    if isinstance(value, int):
        return [head(0, value) if value >= 0 else head(1, -1 - value)]
    if isinstance(value, Link):
        return [b"\xd8\x2a" + counted(2, b"\0" + value)]
    if isinstance(value, bytes):
        return [counted(2, value)]
    if isinstance(value, str):
        return [head(3, len(value.encode())), value]
    if isinstance(value, list):
        return [head(4, len(value)), *(piece for item in value for piece in spelled(item))]
    keys = sorted(value, key=lambda key: (len(key.encode()), key.encode()))
    return [head(5, len(value)), *(piece for key in keys for piece in spelled(key) + spelled(value[key]))]


CID = Link(bytes.fromhex("01711220") + bytes(range(32)))

BLUE = {
    "year": 1971,
    "title": "Blue",
    "format": "Vinyl",
    "tracks": [{"note": "take 2", "title": "Carey", "seconds": 182}, {"title": "River", "seconds": 244}],
}
DEMO = {"title": "Demo", "format": "Tape", "tracks": []}
COMMIT = {"did": "did:plc:a", "version": 3, "data": CID, "rev": "3l", "prev": None, "sig": b"\x01\x02"}
POST = {"$type": "app.bsky.feed.post", "text": "hi", "createdAt": "2024-01-01T00:00:00Z"}
REF = {"uri": "at://a", "cid": "bafy"}
NODE = {"l": None, "e": [{"p": 0, "k": b"app.bsky.feed.post/3l", "v": CID, "t": None}, {"p": 20, "k": b"m", "v": CID, "t": CID}]}
BLOB = {"$type": "blob", "ref": CID, "mimeType": "image/png", "size": 7}
IMAGES = {"$type": "app.bsky.embed.images", "images": [{"alt": "a cat", "image": BLOB}]}
PROFILE = {"$type": "app.bsky.actor.profile", "displayName": "a", "avatar": BLOB}
FOLLOW = {"$type": "app.bsky.graph.follow", "subject": "did:plc:b", "createdAt": "2024-01-01T00:00:00Z"}
POINT = [1, None, 255, {"Vinyl": 1, "tape": -2}, ["a"], "n", 3]
UNITS = {"yes": True, "no": False, "nothing": None, "empty": {}}
SCALE = {"by": 2, "smooth": True, "shift": 0, "lift": 5, "style": "Vinyl", "name": "n"}
CHORD = [["root", "C"], ["notes", [0, 4, 7]], ["by", None]]
EVENT = {"tag": "point", "content": POINT[:5]}
FIGURES = {
    "totals": {"b": 1, "aa": 2},
    "grids": {"g": [[[1], []]]},
    "route": [[1, -(2**63)], None],
    "notes": {"n": None, "m": ["x"]},
}
LEDGER = {
    "open": True,
    "currency": "EUR",
    "level": 200,
    "payments": [
        {"cash": 2**64 - 1},
        {"card": {"number": "12", "until": None}},
        {"card": {"number": "", "until": [-1, 2]}},
        {"voucher": 0},
        {"elsewhere": CID},
    ],
    "figures": FIGURES,
    "extra": -(2**64),
    "rest": {"any": [None, True]},
}
# The fields of an observation that must be there, and the others.
HOUR = {
    "station": "10513",
    "site": [50864, 7157],
    "operator": None,
    "country": "DE",
    "elevation": -92,
    "started": 2**64 - 1,
    "previous": None,
    "corrected": False,
    "temperature": -2**15,
    "soilTemperatures": [-3, 0, 24],
    "dewPoint": None,
    "humidity": 255,
    "pressure": 101325,
    "windSpeed": 23,
    "sky": "Hidden",
    "cloudLayers": ["low", ""],
    "rainMinutes": [0, 23, 24, 255],
    "gases": {"o3": 61, "co2": 2**32 - 1},
    "faults": {},
    "radiation": None,
    "visibility": 2**32 - 1,
    "soilMoisture": [],
    "evaporation": 9,
    "ice": True,
    "lightning": 0,
    "lightningAt": [2**32, 1],
    "seaTemperature": None,
    "pollen": {"birch": 256, "elm": 3},
    "battery": 12600,
    "memoryFree": 65536,
    "firmware": "4.1",
    "sensors": {"co2": "K30"},
    "calibrated": CID,
    "neighbours": [CID],
    "skies": ["Clear", "Cloudy"],
    "reviewer": None,
    "signature": b"\x00\xff",
}
HOUR_MORE = {
    "name": "Bonn",
    "zone": None,
    "temperatureLow": -5,
    "groundTemperature": None,
    "gust": 0,
    "weatherPast": [],
    "snowNew": 255,
    "particles": {"": 0},
    "photograph": CID,
    "sunshine": 60,
    "ceiling": None,
    "snowDepth": 1,
    "waveHeight": 2**16 - 1,
    "wavePeriod": 24,
    "tide": -256,
    "uvIndex": 11,
    "panel": 23,
    "calibratedBy": "",
    "nearest": [0, -1],
    "skyBefore": "Clear",
    "picture": b"",
    "reviewed": False,
    "remarks": "none",
    "swellHeight": 2,
    "swellPeriod": 2**8 - 1,
    "salinity": None,
    "turbidity": 2**16 - 1,
    "noise": 40,
    "noiseAt": [0, 2**64 - 1],
    "doorOpen": True,
    "visits": {"a": 1, "b": 0},
}
PAGE = {
    "views": 2**32 - 1,
    "title": "",
    "pinned": False,
    "tags": [],
    "digest": b"\0",
    "rating": None,
    "author": CID,
    "created": -(2**63),
    "counts": {},
}
IMAGE = {"$type": "app.image", "width": 640, "alt": "a"}

BLOCKS = {
    "album": {
        "BLUE": BLUE,
        "DEMO": DEMO,
        "DEMO_NULL_YEAR": {**DEMO, "year": None},
        "DEMO_WIDE_YEAR": {**DEMO, "year": 2**16},
        "DEMO_TEXT_YEAR": {**DEMO, "year": "1971"},
        "DEMO_LABEL": {**DEMO, "label": "x"},
        "DEMO_NO_TITLE": {"format": "Tape", "tracks": []},
        "DEMO_WAX": {**DEMO, "format": "Wax"},
        "DEMO_FORMAT_MAP": {**DEMO, "format": {"Tape": None}},
        "DEMO_LIST": [DEMO],
    },
    "atproto": {
        "POST": POST,
        "POST_MORE": {**POST, "via": {"x": [1]}},
        "REPLY": {**POST, "langs": ["en", "de"], "reply": {"root": REF, "parent": REF}},
        "REPLY_NULL": {**POST, "reply": None},
        "REPLY_TEXT": {**POST, "reply": {"root": REF, "parent": {**REF, "cid": 1}}},
        "PROFILE": PROFILE,
        "FOLLOW": FOLLOW,
        "POST_IMAGES": {**POST, "embed": IMAGES},
        "POST_LINK": {**POST, "embed": {"$type": "app.bsky.embed.external", "external": {"uri": "u", "title": "t", "description": "d"}}},
        "POST_RECORD": {**POST, "embed": {"$type": "app.bsky.embed.record", "record": REF}},
        "POST_VIDEO": {**POST, "embed": {"$type": "app.bsky.embed.video", "video": BLOB}},
        "POST_UNTOLD": {**POST, "embed": {"record": REF}},
        "POST_OTHER": {**POST, "embed": {"$type": "app.bsky.embed.record", "images": []}},
    },
    "repository": {
        "COMMIT": COMMIT,
        "COMMIT_NEXT": {**COMMIT, "prev": CID},
        "COMMIT_NO_PREV": {key: value for key, value in COMMIT.items() if key != "prev"},
        "COMMIT_TEXT_DATA": {**COMMIT, "data": "bafy"},
        "COMMIT_LATER": {**COMMIT, "version": 256},
        "COMMIT_MORE": {**COMMIT, "extra": 1},
        "COMMIT_UNSIGNED": {key: value for key, value in COMMIT.items() if key != "sig"},
        "NODE": NODE,
        "NODE_NO_LEFT": {"e": []},
    },
    "forms": {
        "POINT": POINT,
        "POINT_NULL": [*POINT[:6], None],
        "POINT_NAMED": POINT[:6],
        "POINT_SHORT": POINT[:5],
        "POINT_TOO_SHORT": POINT[:4],
        "POINT_TOO_LONG": [*POINT, 0],
        "POINT_OTHER_KEY": [*POINT[:3], {"Disc": 1}, []],
        "EMBED_IMAGES": {"$type": "images", "images": [POINT[:5]], "note": "n"},
        "EMBED_BARE": {"$type": "images", "images": []},
        "EMBED_EXTERNAL": {"$type": "external", "uri": "u", "note": "n"},
        "EMBED_NO_NOTE": {"$type": "external", "uri": "u"},
        "EMBED_BOTH": {"$type": "external", "uri": "u", "note": "n", "images": []},
        "EMBED_MORE": {"$type": "external", "uri": "u", "note": "n", "x": 1},
        "EMBED_UNKNOWN": {"$type": "video", "note": "n"},
        "EMBED_UNTOLD": {"uri": "u", "note": "n"},
        "UNITS": UNITS,
        "UNITS_NO_NO": {key: value for key, value in UNITS.items() if key != "no"},
        "UNITS_NO_YES": {**UNITS, "yes": False},
        "UNITS_NOTHING": {**UNITS, "nothing": 0},
        "UNITS_FULL": {**UNITS, "empty": {"x": 1}},
        "SCALE": SCALE,
        "SCALE_NONE": {},
        "SCALE_ONE": {**SCALE, "by": 1},
        "SCALE_ROUGH": {"smooth": False},
        "SCALE_SHIFT": {"shift": 2},
        "SCALE_LIFT": {"lift": -5},
        "SCALE_STYLE": {"style": "tape"},
        "SCALE_NULL": {"by": None},
        "CHORD": CHORD,
        "CHORD_SCALE": [*CHORD[:2], ["by", SCALE]],
        "CHORD_TURNED": [CHORD[1], CHORD[0], CHORD[2]],
        "CHORD_SHORT": CHORD[:2],
        "CHORD_LONG": [*CHORD, ["by", None]],
        "CHORD_BARE": ["root", *CHORD[1:]],
        "CHORD_MORE": [["root", "C", 1], *CHORD[1:]],
        "CHORD_NAME": [CHORD[0], ["tones", []], CHORD[2]],
        "CHORD_MAP": {"root": "C", "notes": [], "by": None},
        "FILL_TRUE": True,
        "FILL_INT": -(2**64),
        "FILL_TAPE": "tape",
        "FILL_NAMES": ["a", ""],
        "FILL_SCALE": SCALE,
        "FILL_LINK": CID,
        "FILL_NULL": None,
        "FILL_BYTES": b"\x01",
        "FILL_WAX": "Wax",
        "FILL_NUMBER": ["a", 1],
        "FILL_ONE": {"by": 1},
        "EVENT": EVENT,
        "EVENT_SCALE": {"tag": "scale", "content": {}},
        "EVENT_FILL": {"tag": "fill", "content": ["x"]},
        "EVENT_BARE": {"tag": "point"},
        "EVENT_UNTOLD": {"content": POINT[:5]},
        "EVENT_BEFORE": {**EVENT, "x": 1},
        "EVENT_BEHIND": {**EVENT, "contents": 1},
        "EVENT_UNKNOWN": {**EVENT, "tag": "Point"},
        "EVENT_TAG": {**EVENT, "tag": 1},
        "EVENT_OTHER": {**EVENT, "tag": "scale"},
        "EVENT_LIST": ["point", POINT[:5]],
    },
    "ledger": {
        "LEDGER": LEDGER,
        "LEDGER_PLAIN": {key: value for key, value in LEDGER.items() if key != "extra"},
        "LEDGER_NULL": {**LEDGER, "extra": None},
        "LEDGER_LIST": {**LEDGER, "extra": []},
        "LEDGER_LEVEL": {**LEDGER, "level": 2},
        "LEDGER_LEVEL_BELOW": {**LEDGER, "level": -1},
        "LEDGER_TWO": {**LEDGER, "payments": [{"cash": 1, "card": 2}]},
        "LEDGER_BARE": {**LEDGER, "payments": ["cash"]},
        "LEDGER_CHEQUE": {**LEDGER, "payments": [{"cheque": 1}]},
        "LEDGER_LONG_POINT": {**LEDGER, "figures": {**FIGURES, "route": [[1, 2, 3]]}},
        "LEDGER_SHORT_POINT": {**LEDGER, "figures": {**FIGURES, "route": [[1]]}},
        "LEDGER_MAP_POINT": {**LEDGER, "figures": {**FIGURES, "route": [{"x": 1, "y": 2}]}},
    },
    "wide": {
        "HOUR": HOUR,
        "HOUR_FULL": {**HOUR, **HOUR_MORE},
        "HOUR_HALF": {**HOUR, **dict(list(HOUR_MORE.items())[::2])},
        "HOUR_NO_STATION": {key: value for key, value in HOUR.items() if key != "station"},
        "HOUR_NO_PRESSURE": {key: value for key, value in HOUR.items() if key != "pressure"},
        "HOUR_UNSIGNED": {key: value for key, value in HOUR.items() if key != "signature"},
        "HOUR_OTHER": {**HOUR, "wind": 1},
        "HOUR_BEHIND": {**HOUR, "temperatureOfTheGround": 1},
        "HOUR_NULL_NAME": {**HOUR, "name": None},
        "HOUR_NULL_REMARKS": {**HOUR, "remarks": None},
        "HOUR_COLD": {**HOUR, "temperature": -(2**15) - 1},
        "HOUR_SIGNED_TEXT": {**HOUR, "signature": "ab"},
        "HOUR_LIST": [HOUR],
    },
    "embeds": {
        "PAGE": PAGE,
        "PAGE_IMAGE": {**PAGE, "embed": {**IMAGE, "caption": ""}},
        "PAGE_PLAIN": {**PAGE, "embed": IMAGE},
        "PAGE_VIDEO": {**PAGE, "embed": {"$type": "app.video", "sound": True, "tracks": ["", "b"], "poster": b"\x01"}},
        "PAGE_QUOTE": {**PAGE, "embed": {"$type": "app.quote", "score": None, "of": CID, "lines": [-1], "at": -1}},
        "PAGE_POLL": {**PAGE, "embed": {"$type": "app.poll", "votes": {"b": 1, "aa": 2}, "extra": [None, {}], "open": 0}},
        "PAGE_IMAGE_MORE": {**PAGE, "embed": {**IMAGE, "sound": True}},
        "PAGE_IMAGE_LATE": {**PAGE, "embed": {**IMAGE, "open": 0}},
        "PAGE_IMAGE_OF": {**PAGE, "embed": {**IMAGE, "of": CID}},
        "PAGE_IMAGE_LESS": {**PAGE, "embed": {"$type": "app.image", "width": 640}},
        "PAGE_BARE": {**PAGE, "embed": {"$type": "app.video"}},
        "PAGE_UNKNOWN": {**PAGE, "embed": {**IMAGE, "$type": "Image"}},
        "PAGE_UNTOLD": {**PAGE, "embed": {"width": 640, "alt": "a"}},
        "PAGE_OTHER": {**PAGE, "embed": {**IMAGE, "height": 1}},
    },
}


def literal(pieces):
    return "".join(piece if isinstance(piece, str) else "".join(f"\\x{byte:02x}" for byte in piece) for piece in pieces)


def main():
    print("//! Blocks, spelled by schemas/examples/blocks.py.")
    blocks = {name: value for schema in sys.argv[1:] for name, value in BLOCKS[schema].items()}
    for name, value in blocks.items():
        head, text = f"pub(crate) const {name}: &[u8] =", f'b"{literal(spelled(value))}";'
        print(f"\n{head} {text}" if len(head + text) < 100 else f"\n{head}\n    {text}")


if __name__ == "__main__":
    main()
