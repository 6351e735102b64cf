"""The layouts of NFSv4.0's arguments and results, and values of them: for tools/dissect and tools/other-reader.

The types are those of RFC 7531, and so are most names. An arm is one way through the unions of an operation: its fields in
their order, each NAME:TYPE, or NAME=NUMBER where the arm has that word, or NAME~NUMBER:TYPE where a reader passes over what
stands there, and the crates write that number.
"""
import random
from typing import NamedTuple

# RFC 7531, nfs_opnum4.
OPERATIONS = """ACCESS CLOSE COMMIT CREATE DELEGPURGE DELEGRETURN GETATTR GETFH LINK LOCK LOCKT LOCKU LOOKUP LOOKUPP NVERIFY
    OPEN OPENATTR OPEN_CONFIRM OPEN_DOWNGRADE PUTFH PUTPUBFH PUTROOTFH READ READDIR READLINK REMOVE RENAME RENEW RESTOREFH
    SAVEFH SECINFO SETATTR SETCLIENTID SETCLIENTID_CONFIRM VERIFY WRITE RELEASE_LOCKOWNER""".split()
NUMBERS = {**{name: number for number, name in enumerate(OPERATIONS, 3)}, "ILLEGAL": 10044}

# Numbers: how many bytes they have, the least and the greatest.
INTEGERS = {
    **dict.fromkeys("access4 count4 mode4 seqid4 share_access4 share_deny4 uint32_t word".split(), (4, 0, 2**32 - 1)),
    "open_delegation_type4": (4, 0, 2**32 - 1),
    **dict.fromkeys("changeid4 clientid4 length4 nfs_cookie4 offset4 uint64_t verifier4".split(), (8, 0, 2**64 - 1)),
    "bool": (4, 0, 1),
    "nfs_ftype4": (4, 1, 9),
    "nfs_lock_type4": (4, 1, 4),
    "stable_how4": (4, 0, 2),
}
# What they are where they are legal, of those that a reader takes as they come.
LEGAL = {"access4": (0, 63), "open_delegation_type4": (0, 2), "share_access4": (1, 3), "share_deny4": (0, 3)}
# Bytes: the most that there may be, of the limits in docs/FORMATS.md.
BYTES = {
    "client_id": 1024,
    "component4": 1 << 20,
    "linktext4": 1 << 20,
    "netid": 1024,
    "nfs_fh4": 128,
    "opaque_data": 65536,
    "open_owner": 1024,
    "lock_owner": 1024,
    "universal": 1024,
    "utf8str_mixed": 1024,
}
# The supported attributes of a file (RFC 7530, 5.6 and 5.7), by their numbers.
ATTRIBUTES = {
    0: "supported_attrs:bitmap4", 1: "type:nfs_ftype4", 2: "fh_expire_type:uint32_t", 3: "change:changeid4", 4: "size:uint64_t",
    5: "link_support:bool", 6: "symlink_support:bool", 7: "named_attr:bool", 8: "major:uint64_t minor:uint64_t",
    9: "unique_handles:bool", 10: "lease_time:uint32_t", 11: "rdattr_error=0", 19: "filehandle:nfs_fh4", 20: "fileid:uint64_t",
    24: "roots=1 root:component4 locations=1 servers=1 server:component4 paths=2 path:component4 path:component4",
    33: "mode:mode4",
}  # fmt: skip

LOCKS = "locktype:nfs_lock_type4 reclaim:bool offset:offset4 length:length4"
OPEN = "seqid:seqid4 share_access:share_access4 share_deny:share_deny4 clientid:clientid4 owner:open_owner"
HOWS = [
    "opentype=0",
    "opentype=1 createmode=0 createattrs:fattr4",
    "opentype=1 createmode=1 createattrs:fattr4",
    "opentype=1 createmode=2 createverf:verifier4",
]
CLAIMS = [
    "claim=0 file:component4",
    "claim=1 delegate_type:open_delegation_type4",
    "claim=2 delegate_stateid:stateid4 file:component4",
    "claim=3 file:component4",
]
BEHIND_TYPE = {3: "specdata1:uint32_t specdata2:uint32_t ", 4: "specdata1:uint32_t specdata2:uint32_t ", 5: "linkdata:linktext4 "}

ARGS = {
    **dict.fromkeys("GETFH LOOKUPP PUTPUBFH PUTROOTFH READLINK RESTOREFH SAVEFH".split(), [""]),
    **dict.fromkeys("DELEGPURGE RENEW".split(), ["clientid:clientid4"]),
    **dict.fromkeys("LINK LOOKUP REMOVE SECINFO".split(), ["name:component4"]),
    **dict.fromkeys("NVERIFY VERIFY".split(), ["attributes:fattr4"]),
    "ACCESS": ["asked:access4"],
    "CLOSE": ["seqid:seqid4 stateid:stateid4"],
    "COMMIT": ["offset:offset4 count:count4"],
    "CREATE": [f"objtype={it} {BEHIND_TYPE.get(it, '')}name:component4 createattrs:fattr4" for it in range(1, 10)],
    "DELEGRETURN": ["stateid:stateid4"],
    "GETATTR": ["attr_request:bitmap4"],
    "LOCK": [
        f"{LOCKS} new=1 open_seqid:seqid4 stateid:stateid4 lock_seqid:seqid4 clientid:clientid4 owner:lock_owner",
        f"{LOCKS} new=0 stateid:stateid4 lock_seqid:seqid4",
    ],
    "LOCKT": ["locktype:nfs_lock_type4 offset:offset4 length:length4 clientid:clientid4 owner:lock_owner"],
    "LOCKU": ["locktype:nfs_lock_type4 unlock_seqid:seqid4 stateid:stateid4 offset:offset4 length:length4"],
    "OPEN": [f"{OPEN} {how} {claim}" for how in HOWS for claim in CLAIMS],
    "OPENATTR": ["createdir:bool"],
    "OPEN_CONFIRM": ["stateid:stateid4 seqid:seqid4"],
    "OPEN_DOWNGRADE": ["stateid:stateid4 seqid:seqid4 share_access:share_access4 share_deny:share_deny4"],
    "PUTFH": ["object:nfs_fh4"],
    "READ": ["stateid:stateid4 offset:offset4 count:count4"],
    "READDIR": ["cookie:nfs_cookie4 cookieverf:verifier4 dircount:count4 maxcount:count4 attr_request:bitmap4"],
    "RENAME": ["oldname:component4 newname:component4"],
    "SETATTR": ["stateid:stateid4 attributes:fattr4"],
    "SETCLIENTID": [
        "verifier:verifier4 id:client_id cb_program:uint32_t r_netid:netid r_addr:universal callback_ident:uint32_t"
    ],
    "SETCLIENTID_CONFIRM": ["clientid:clientid4 confirm:verifier4"],
    "WRITE": ["stateid:stateid4 offset:offset4 stable:stable_how4 data:opaque_data"],
    "RELEASE_LOCKOWNER": ["clientid:clientid4 owner:lock_owner"],
}

CHANGE = "atomic~1:bool before:changeid4 after:changeid4"
ACE = "acetype~0:uint32_t aceflags~0:uint32_t acemask~0:uint32_t who~0:utf8str_mixed"
OPENED = f"stateid:stateid4 {CHANGE} rflags:uint32_t attrset:bitmap4"
ENTRY = "follows=1 cookie:nfs_cookie4 entry:component4 attributes:fattr4 "

# What stands behind an OK. The crates have no OK for the operations that aren't here.
OKS = {
    **dict.fromkeys("CLOSE LOCK LOCKU OPEN_CONFIRM OPEN_DOWNGRADE".split(), ["stateid:stateid4"]),
    **dict.fromkeys("DELEGRETURN LOCKT LOOKUP LOOKUPP PUTFH PUTPUBFH PUTROOTFH RENEW RESTOREFH SAVEFH".split(), [""]),
    **dict.fromkeys("SETCLIENTID_CONFIRM RELEASE_LOCKOWNER".split(), [""]),
    "ACCESS": ["supported:access4 access:access4"],
    "COMMIT": ["writeverf:verifier4"],
    "CREATE": [f"{CHANGE} attrset:bitmap4"],
    "GETATTR": ["attributes:fattr4"],
    "GETFH": ["object:nfs_fh4"],
    "OPEN": [
        f"{OPENED} delegation=0",
        f"{OPENED} delegation=1 delegated:stateid4 recall~0:bool {ACE}",
        f"{OPENED} delegation=2 delegated:stateid4 recall~0:bool limitby=1 filesize~1048576:uint64_t {ACE}",
    ],
    "READ": ["eof:bool data:opaque_data"],
    "READDIR": [f"verifier:verifier4 {count * ENTRY}follows=0 last:bool" for count in (0, 1, 3)],
    "REMOVE": [CHANGE],
    "SETATTR": ["attrset:bitmap4"],
    "SETCLIENTID": ["clientid:clientid4 confirm:verifier4"],
    "WRITE": ["count:count4 committed:stable_how4 writeverf:verifier4"],
}
# What stands behind a failure: by its operation and status, or by its operation where it stands behind each.
DENIED = "offset:offset4 length:length4 locktype:lock_kind clientid:clientid4 owner:lock_owner"
FAILURES = {
    "SETATTR": "attrset:bitmap4",
    ("LOCK", 10010): DENIED,
    ("LOCKT", 10010): DENIED,
    ("SETCLIENTID", 10017): "r_netid:netid r_addr:universal",
}


class Field(NamedTuple):
    """A field with its value: a number, bytes, the words of a bitmap, or words and the values of a file's attributes. What a
    reader passes over has the value that is written in its place."""

    name: str
    type: str
    value: object
    instead: object = None

    def spelled(self):
        """Its bytes, by RFC 4506."""
        return spelled(self.type, self.value)


class Op(NamedTuple):
    """An operation with its arguments, or with its status and what stands behind that."""

    name: str
    fields: list
    status: int = 0


def words(*numbers):
    return b"".join(number.to_bytes(4, "big") for number in numbers)


def opaque(it):
    return words(len(it)) + it + bytes(-len(it) % 4)


def spelled(kind, value):
    if kind in INTEGERS:
        return value.to_bytes(INTEGERS[kind][0], "big")
    if kind == "bitmap4":
        return words(len(value), *value)
    if kind == "fattr4":
        return spelled("bitmap4", value[0]) + opaque(spelled_fields(value[1]))
    return value if kind in ("stateid4", "rest") else opaque(value)


def spelled_fields(fields):
    return b"".join(it.spelled() for it in fields)


def call_body(ops, tag=b"tag"):
    """The arguments of COMPOUND."""
    return opaque(tag) + words(0, len(ops)) + b"".join(words(NUMBERS[it.name]) + spelled_fields(it.fields) for it in ops)


def reply_body(ops, tag=b"tag"):
    """The results of COMPOUND, with the status of the last."""
    each = b"".join(words(NUMBERS[it.name], it.status) + spelled_fields(it.fields) for it in ops)
    return words(ops[-1].status if ops else 0) + opaque(tag) + words(len(ops)) + each


def settled(op):
    """The operation with what is written where a reader passes over what stands there."""
    return op._replace(fields=[it if it.instead is None else it._replace(value=it.instead) for it in op.fields])


def bitmap_of(numbers):
    """The bitmap of these numbers, whose last word isn't 0."""
    count = max(numbers) // 32 + 1 if numbers else 0
    return tuple(sum(1 << it % 32 for it in numbers if it // 32 == place) for place in range(count))


class Draws:
    """Values by chance, the same for the same seed."""

    def __init__(self, seed):
        self.random = random.Random(seed)

    def bounds(self, kind):
        return INTEGERS[kind][1:]

    def integer(self, kind):
        least, greatest = self.bounds(kind)
        edges = [least, least + 1, greatest // 2 + 1, greatest]
        return self.random.choice([*edges, *[self.random.randint(least, greatest)] * 12])

    def length(self, most):
        return self.random.choice([0, self.random.randrange(64), *[self.random.randrange(1, 13)] * 6]) % (most + 1)

    def bytes(self, kind):
        """Any bytes; of an address none that is 0, since libnfs has it as a string."""
        it = self.random.randbytes(self.length(BYTES[kind]))
        return it.replace(b"\0", b"0") if kind in ("netid", "universal") else it

    def stateid(self):
        return self.random.choice([bytes(16), b"\xff" * 16, *[self.random.randbytes(16)] * 6])

    def bitmap(self):
        return tuple(self.integer("word") for _ in range(self.random.choice([0, 1, 1, 2, 2, 3, 8])))

    def attributes(self):
        return self.bitmap(), [Field("values", "rest", self.random.randbytes(self.length(65536)))]

    def value(self, kind):
        if kind in INTEGERS:
            return self.integer(kind)
        if kind in BYTES:
            return self.bytes(kind)
        return {"stateid4": self.stateid, "bitmap4": self.bitmap, "fattr4": self.attributes}[kind]()

    def field(self, text, is_free):
        """A field of an arm. Where it isn't free, it is written as the crates write it."""
        name, _, number = text.partition("=")
        if number:
            return Field(name, "word", int(number))
        name, kind = text.split(":")
        name, passes, number = name.partition("~")
        if kind == "lock_kind":
            value = self.random.randrange(1, 5 if is_free else 3)
            return Field(name, "nfs_lock_type4", value, (value - 1) % 2 + 1)
        if passes:
            instead = b"" if kind in BYTES else int(number)
            return Field(name, kind, self.value(kind) if is_free else instead, instead)
        return Field(name, kind, self.value(kind))

    def fields(self, arm, is_free=False):
        return [self.field(it, is_free) for it in arm.split()]

    def failure(self, name, status, is_free=False):
        return Op(name, self.fields(FAILURES.get((name, status), FAILURES.get(name, "")), is_free), status)


class LegalDraws(Draws):
    """The same of texts in letters, and of attributes that are known, with values of theirs."""

    def bounds(self, kind):
        return LEGAL.get(kind, INTEGERS[kind][1:])

    def bytes(self, kind):
        if kind == "netid":
            return self.random.choice([b"tcp", b"udp"])
        if kind == "universal":
            return ".".join(str(self.random.randrange(256)) for _ in range(6)).encode()
        return bytes(self.random.choices(b"abcdefghijklmnopqrstuvwxyz", k=max(1, self.length(BYTES[kind]))))

    def bitmap(self):
        return bitmap_of(self.random.sample(sorted(ATTRIBUTES), self.random.randrange(5)))

    def attributes(self):
        bitmap = self.bitmap()
        numbers = [it for it in ATTRIBUTES if it // 32 < len(bitmap) and bitmap[it // 32] >> it % 32 & 1]
        return bitmap, [it for number in numbers for it in self.fields(ATTRIBUTES[number])]
