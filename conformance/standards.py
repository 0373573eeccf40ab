"""The standards that verdicts are argued by, and where each is to be read.

A rule is told as `RFC 8949, 3: what it says`: the standard, its section, and its words in short. What no standard says begins with
`no standard`."""

STANDARDS = {
    "RFC 8949": ("Concise Binary Object Representation (CBOR)", "https://www.rfc-editor.org/rfc/rfc8949"),
    "RFC 3629": ("UTF-8, a transformation format of ISO 10646", "https://www.rfc-editor.org/rfc/rfc3629"),
    "RFC 4648": ("The Base16, Base32, and Base64 Data Encodings", "https://www.rfc-editor.org/rfc/rfc4648"),
    "RFC 8259": ("The JavaScript Object Notation (JSON) Data Interchange Format", "https://www.rfc-editor.org/rfc/rfc8259"),
    "DAG-CBOR": ("the specification of the codec DAG-CBOR", "https://ipld.io/specs/codecs/dag-cbor/spec/"),
    "DAG-JSON": ("the specification of the codec DAG-JSON", "https://ipld.io/specs/codecs/dag-json/spec/"),
    "DAG-PB": ("the specification of the codec DAG-PB", "https://ipld.io/specs/codecs/dag-pb/spec/"),
    "protobuf": ("Protocol Buffers, Encoding", "https://protobuf.dev/programming-guides/encoding/"),
    "CARv1": ("CAR files, version 1", "https://ipld.io/specs/transport/car/carv1/"),
    "CARv2": ("CAR files, version 2", "https://ipld.io/specs/transport/car/carv2/"),
    "IPLD": ("the data model: kinds, links and paths", "https://ipld.io/docs/data-model/"),
    "CID": ("content identifiers", "https://github.com/multiformats/cid"),
    "multibase": ("bases of texts", "https://github.com/multiformats/multibase"),
    "multihash": ("digests that name their hash function", "https://github.com/multiformats/multihash"),
    "unsigned-varint": ("numbers in groups of seven bits", "https://github.com/multiformats/unsigned-varint"),
    "base58btc": ("the Base58 encoding scheme", "https://datatracker.ietf.org/doc/html/draft-msporny-base58"),
}
NONE = "no standard"


def places(section):
    """The standard and the section of each place that is named, as in `CARv1, Data; RFC 8949, 3`; None if no standard says it."""
    if section.startswith(NONE):
        return []
    found = [it.partition(", ") for it in section.split("; ")]
    assert all(standard in STANDARDS for standard, _, _ in found), section
    return [(standard, at) for standard, _, at in found]


def rule(told):
    """A rule, in the words of index.json."""
    if told.startswith(NONE):
        return {"says": told}
    place, _, says = told.partition(": ")
    ((standard, section),) = places(place)
    assert says, told
    return {"standard": standard, "section": section, "says": says}


def worded(causes):
    """For causes, what they are, and the rules that they break."""
    return {name: {"is": words, "by": [rule(it) for it in rules]} for name, (words, *rules) in causes.items()}


def index():
    return {name: {"title": title, "at": address} for name, (title, address) in STANDARDS.items()}
