"""Files worked out by hand from the public documents, and faulty ones with their faults. They say what is read from OPL
and o5c files and written in the other form, the limits of each form, and which line of a SAVE or of a script is
refused."""


def varint(number):
    """An unsigned number as o5c files have it, its lowest seven bits first."""
    low = b""
    while number > 127:
        low, number = low + bytes([number & 127 | 128]), number >> 7
    return low + bytes([number])


def dataset(kind, contents):
    return bytes([kind]) + varint(len(contents)) + contents


BEGINNING = b"\xff\xe0\x04o5c2"
# Version 1, time, changeset 7 and user 5, `ann`, as the first after a reset.
META = b"\x01\x80\x82\x90\xd9\x0c\x0e\x00\x05\x00ann\x00"

NODE = b"n1 v1 dV c7 t2024-01-01T00:00:00Z i5 uann T x1 y2"
SECOND_NODE = b"n2" + NODE[2:]
WAY = b"w10 v1 dV c7 t2024-01-01T00:00:00Z i5 uann Thighway=path Nn1,n2,n5"
EMPTY_WAY = b"w10 v1 dV c7 t2024-01-01T00:00:00Z i5 uann T N"
DELETED_WAY = b"w10 v1 dD c7 t2024-01-01T00:00:00Z i5 uann T N"
RELATION = b"r3 v1 dV c7 t2024-01-01T00:00:00Z i5 uann T Mn1@,w10@outer,n4@"
NESTED = b"r3 v1 dV c7 t2024-01-01T00:00:00Z i5 uann T Mw10@outer,r20@"
DELETED_NODE = b"n1 v2 dD c8 t2024-01-01T00:01:00Z i5 uann T x y"
DELETION = b"n1 v3 dD c7 t2024-01-01T00:00:00Z i5 uann T x y"
GREATEST = (b"w4611686018427387903 v4294967295 dV c4294967295 "
            b"t2106-02-07T06:28:15Z i4294967295 u T Nn-4611686018427387903")

# ---- OPL: lines as the Osmium manual shows them

# What is read, and how it is written.
REWRITTEN = [
    (NODE, NODE),
    (WAY, WAY),
    (RELATION, RELATION),
    (DELETION, DELETION),
    (b'n1 v3 dD c7 t2024-01-01T00:00:00Z i5 uann Ta=b x1 y', DELETION),
    (b'w-0007 v1 dV c7 t2024-01-01T00:00:00Z i5 u T N',
     b'w-7 v1 dV c7 t2024-01-01T00:00:00Z i5 u T N'),
    (b'r-0 v1 dV c7 t2024-01-01T00:00:00Z i5 u T= M',
     b'r0 v1 dV c7 t2024-01-01T00:00:00Z i5 u T= M'),
    (b'n1 v1 dV c7 t2024-01-01T00:00:00Z i5 ua%20%b%2c%c T x-0.0000001 y1.2345670',
     b'n1 v1 dV c7 t2024-01-01T00:00:00Z i5 ua%20%b%2c%c T x-0.0000001 y1.234567'),
    (b'n1 v1 dV c7 t2024-01-01T00:00:00Z i5 u\xc3\xa9%0000E9%%65E5% T x180 y-090.0',
     b'n1 v1 dV c7 t2024-01-01T00:00:00Z i5 u%e9%%e9%%65e5% T x180 y-90'),
    (b'n1 v1 dV c7 t2024-01-01T00:00:00Z i5 u%a%%7f%%10ffff% T x-180 y-0',
     b'n1 v1 dV c7 t2024-01-01T00:00:00Z i5 u%0a%%7f%%10ffff% T x-180 y0'),
    (GREATEST, GREATEST),
    (b'w1 v1 dD c7 t2024-01-01T00:00:00Z i5 u Ta=1,a=1 Nn1,n1',
     b'w1 v1 dD c7 t2024-01-01T00:00:00Z i5 u T N'),
]

# Spellings of escapes, and how they are written.
ESCAPES = [
    (b"%1%", b"%01%"),
    (b"%00000080%", b"%80%"),
    (b"%ff%", b"%ff%"),
    (b"%0100%", b"%100%"),
    (b"%FFF%", b"%fff%"),
    (b"%1000%", b"%1000%"),
    (b"%000065E5%", b"%65e5%"),
    (b"%ffff%", b"%ffff%"),
    (b"%010000%", b"%10000%"),
    (b"%fffff%", b"%fffff%"),
    (b"%100000%", b"%100000%"),
    (b"%0010ffff%", b"%10ffff%"),
]

# Lines that aren't read, and the causes.
REFUSED_LINES = [
    (b'n1 v1 dV c7 t2024-01-01T00:00:00Z i5 ua\x00b T x1 y2', "BadText"),
    (b'n1 v1 dV c7 t2024-01-01T00:00:00Z i5 ua\tb T x1 y2', "BadField"),
    (b'n1 v1 dV c7 t2024-01-01T00:00:00Z i5 u%0000065e5% T x1 y2', "BadEscape"),
    (b'n1 v1 dV c7 t2024-01-01T00:00:00Z i5 uann T x1 y90.0000001', "OutOfRange"),
    (b'n1 v1 dV c7 t2024-01-01T00:00:00Z i5 uann T x1 y-90.0000001', "OutOfRange"),
    (b'n1 v1 dV c7 t2024-01-01T00:00:00Z i5 uann T x1 y180', "OutOfRange"),
    (b'n1 v1 dD c7 t2024-01-01T00:00:00Z i5 uann T x-180.0000001 y', "OutOfRange"),
    (b'x', "BadKind"),
    (b'n', "BadNumber"),
    (b'n1', "BadField"),
    (b'n1x v1 dV c7 t2024-01-01T00:00:00Z i5 uann T x1 y2', "BadNumber"),
    (b'n000000000000000000001 v1 dV c7 t2024-01-01T00:00:00Z i5 uann T x1 y2', "BadNumber"),
    (b'n4611686018427387904 v1 dV c7 t2024-01-01T00:00:00Z i5 uann T x1 y2', "OutOfRange"),
    (b'n99999999999999999999 v1 dV c7 t2024-01-01T00:00:00Z i5 uann T x1 y2', "OutOfRange"),
    (b'n1 v0 dV c7 t2024-01-01T00:00:00Z i5 uann T x1 y2', "NoMetadata"),
    (b'n1 v4294967296 dV c7 t2024-01-01T00:00:00Z i5 uann T x1 y2', "OutOfRange"),
    (b'n1 v1 dX c7 t2024-01-01T00:00:00Z i5 uann T x1 y2', "BadField"),
    (b'n1 v1 dV c t2024-01-01T00:00:00Z i5 uann T x1 y2', "NoMetadata"),
    (b'n1 v1 dV c7 t1970-01-01T00:00:00Z i5 uann T x1 y2', "BadTime"),
    (b'n1 v1 dV c7 t i5 uann T x1 y2', "BadTime"),
    (b'n1 v1 dV c7 t2024-01-01T00:00:00Z i0 uann T x1 y2', "NoMetadata"),
    (b'n1 v1 dV c7 t2024-01-01T00:00:00Z i5 uann  T x1 y2', "BadField"),
    (b'n1 v1 dV c7 t2024-01-01T00:00:00Z i5 uann T x1 y2 ', "BadField"),
    (b'n1 v1 dV c7 t2024-01-01T00:00:00Z i5 uann T x y2', "NoLocation"),
    (b'n1 v1 dV c7 t2024-01-01T00:00:00Z i5 uann T x180.0000001 y2', "OutOfRange"),
    (b'n1 v1 dV c7 t2024-01-01T00:00:00Z i5 uann T x1. y2', "BadNumber"),
    (b'n1 v1 dV c7 t2024-01-01T00:00:00Z i5 uann T x0001 y2', "BadNumber"),
    (b'n1 v1 dV c7 t2024-01-01T00:00:00Z i5 uann T x1.00000000 y2', "BadNumber"),
    (b'n1 v1 dV c7 t2024-01-01T00:00:00Z i5 u%0% T x1 y2', "BadEscape"),
    (b'n1 v1 dV c7 t2024-01-01T00:00:00Z i5 u%d800% T x1 y2', "BadEscape"),
    (b'n1 v1 dV c7 t2024-01-01T00:00:00Z i5 u%110000% T x1 y2', "BadEscape"),
    (b'n1 v1 dV c7 t2024-01-01T00:00:00Z i5 u%20 T x1 y2', "BadEscape"),
    (b'n1 v1 dV c7 t2024-01-01T00:00:00Z i5 u%% T x1 y2', "BadEscape"),
    (b'n1 v1 dV c7 t2024-01-01T00:00:00Z i5 u\xff T x1 y2', "BadText"),
    (b'r3 v1 dV c7 t2024-01-01T00:00:00Z i5 uann T Mn1@a@b', "BadField"),
    (b'r3 v1 dV c7 t2024-01-01T00:00:00Z i5 uann T Mn1@a,b', "BadKind"),
    (b'w3 v1 dD c7 t2024-01-01T00:00:00Z i5 uann T Nn1,', "BadField"),
]

# Files that aren't read, with the line of the fault.
REFUSED_FILES = [
    (b"# c\n\n" + NODE + b"\r\nx", 4, "BadKind"),
    (NODE + b"\n" + NODE.replace(b"ann", b"%0%") + b"\n", 2, "BadEscape"),
    (NODE.replace(b"ann", b"%d800%") + b"\nx", 1, "BadEscape"),
    (b"\r\r\n", 1, "BadKind"),
]

# ---- o5c: bytes worked out from the OSM wiki, O5m

# The objects above, each as the first after a reset.
NODE_SET = b"\x10\x17\x02" + META + b"\x80\xda\xc4\x09\x80\xb4\x89\x13"
WAY_SET = b"\x11\x21\x14" + META + b"\x03\x02\x02\x06\x00highway\x00path\x00"
# The role of its last member is a reference: that of the first member is the second entry from the end.
RELATION_SET = (b"\x12\x1f\x06" + META
                + b"\x0f\x02\x000\x00\x14\x001outer\x00\x06\x02")
RELATION_IN_LINE = (b"\x12\x21\x06" + META
                    + b"\x11\x02\x000\x00\x14\x001outer\x00\x06\x000\x00")
NESTED_SET = b"\x12\x1d\x06" + META + b"\x0d\x14\x001outer\x00\x28\x002\x00"
# The deletion a minute after the node, whose user is the latest entry.
DELETED_SET = b"\x10\x05\x00\x02\x78\x02\x01"


def moved(first, second):
    """Two versions of node 1, at two locations."""
    return [NODE.replace(b"x1 y2", first), NODE.replace(b"x1 y2", second).replace(b"v1", b"v2")]


# Two locations on both sides of the date line or the equator, the bytes of the first, and the difference to the
# second as it is written and as a sum that wraps.
ACROSS = [
    (b"x180 y0", b"x-180 y0", b"\x80\xc8\xce\xb4\x0d\x00",
     b"\xff\x8f\x9d\xe9\x1a\x00", b"\x80\xf0\xe2\x96\x05\x00"),
    (b"x-180 y0", b"x180 y0", b"\xff\xc7\xce\xb4\x0d\x00",
     b"\x80\x90\x9d\xe9\x1a\x00", b"\xff\xef\xe2\x96\x05\x00"),
    (b"x0 y90", b"x0 y-90", b"\x00\x80\xa4\xa7\xda\x06",
     b"\x00\xff\xc7\xce\xb4\x0d", b"\x00\x80\xb8\xb1\xcb\x12"),
    (b"x0 y-90", b"x0 y90", b"\x00\xff\xa3\xa7\xda\x06",
     b"\x00\x80\xc8\xce\xb4\x0d", b"\x00\xff\xb7\xb1\xcb\x12"),
]


def across(first, difference):
    return b"\x10\x15\x02" + META + first + b"\x10\x0b\x00\x02\x00\x00\x01" + difference


# A longitude, and a difference of -2^33 or near it, which leaves the sum in 32 bits as it is or nearly.
TURNS = [
    (b"x180 y0", b"\xff\xff\xff\xff\x3f\x00"),
    (b"x179.9999999 y0", b"\x81\x80\x80\x80\x40\x00"),
    (b"x180 y0", b"\xff\xff\xff\xff\x5f\x00"),
]

# Relation 3 with node 1 in 129 roles, and then in the first three of them: the numbers 129, 128 and 127.
ROLES = [b"%03d" % number for number in range(129)]
MANY_ROLES = RELATION.replace(b"Mn1@,w10@outer,n4@", b"M" + b",".join(b"n1@" + role for role in ROLES + ROLES[:3]))
ROLE_PART = (b"\x02" + b"\x00".join(b"\x000" + role + b"\x00" for role in ROLES)
             + b"\x00\x81\x01\x00\x80\x01\x00\x7f")
# 129 members of 7 bytes, two of 3 and one of 2: 911 bytes, in an object of 928.
MANY_ROLES_SET = b"\x12\xa0\x07\x06" + META + b"\x8f\x07" + ROLE_PART

# A change and its dataset, and a change of another kind, before and after which the writer makes a reset.
FORGOTTEN = [
    (NODE, NODE_SET, WAY, WAY_SET),
    (WAY, WAY_SET, NODE, NODE_SET),
    (RELATION, RELATION_SET, NODE, NODE_SET),
    (NESTED, NESTED_SET, NODE, NODE_SET),
]

# Lines and the datasets that are written for them and read as them.
SPELLED = [
    ([], b""),
    ([NODE], NODE_SET),
    ([WAY], WAY_SET),
    ([RELATION], RELATION_SET),
    ([NESTED], NESTED_SET),
    # an empty way has one byte more than a deleted one
    ([EMPTY_WAY], b"\x11\x10\x14" + META + b"\x00"),
    ([DELETED_WAY], b"\x11\x0f\x14" + META),
    ([NODE, WAY, RELATION], b"\xff".join((NODE_SET, WAY_SET, RELATION_SET))),
    ([NODE, DELETED_NODE], NODE_SET + DELETED_SET),
    # a second node of the same user names it
    ([NODE, SECOND_NODE], NODE_SET + b"\x10\x07\x02\x01\x00\x00\x01\x00\x00"),
    # a tag that is the user names the user
    ([NODE.replace(b"T x1 y2", b"T%05%=ann x0 y0")], b"\x10\x12\x02" + META + b"\x00\x00\x01"),
    # a role's number has two bytes from 128 on
    ([MANY_ROLES], MANY_ROLES_SET),
    *((moved(one, two), across(first, whole)) for one, two, first, whole, _ in ACROSS),
    *(([line, other, line], b"\xff".join((dataset, other_set, dataset)))
      for line, dataset, other, other_set in FORGOTTEN),
]

# Files of that many bytes, with the beginning and the end.
LENGTHS = [([], 8), ([NODE, SECOND_NODE], 42), ([NODE, WAY, RELATION], 103)]

# Other datasets that are read as those lines.
READ = [
    ([RELATION], RELATION_IN_LINE),
    ([NODE, WAY, RELATION], b"\xff".join((NODE_SET, WAY_SET, RELATION_IN_LINE))),
    ([NODE, DELETED_NODE], NODE_SET + b"\x10\x0b\x00\x02\x78\x02\x00\x05\x00ann\x00"),
    ([NODE, SECOND_NODE], NODE_SET + b"\x10\x0d\x02\x01\x00\x00\x00\x05\x00ann\x00\x00\x00"),
    *((moved(one, two), across(first, short)) for one, two, first, _, short in ACROSS),
    *(([line, line], dataset + b"\xff" + dataset) for line, dataset, _, _ in FORGOTTEN),
    *((moved(b"x180 y0", other), across(b"\x80\xc8\xce\xb4\x0d\x00", difference)) for other, difference in TURNS),
    # the id as a number of 10 bytes, of which 9 add nothing
    ([NODE], b"\x10\x20\x82" + b"\x80" * 8 + b"\x00" + NODE_SET[3:]),
    # all kinds share one counter of ids: way 10 is nine after node 1
    ([NODE, EMPTY_WAY], NODE_SET + b"\x11\x0c\x12\x01\x00\x00\x00\x05\x00ann\x00\x00"),
    # members have another counter than way nodes: relation 3 is seven before way 10, its member is node 1
    ([WAY, RELATION.replace(b"Mn1@,w10@outer,n4@", b"Mn1@")],
     WAY_SET + b"\x12\x10\x0d\x01\x00\x00\x00\x05\x00ann\x00\x04\x02\x000\x00"),
    # a role of 249 bytes is entered; the digit of the member's kind counts as a byte of the string
    ([RELATION.replace(b"Mn1@,w10@outer,n4@", b"Mn1@%b,n2@%b" % (b"r" * 249, b"r" * 249))],
     b"\x12\x90\x02\x06" + META + b"\xff\x01\x02\x000" + b"r" * 249 + b"\x00\x02\x01"),
    # a dataset that is no object is skipped, and counters and strings are kept
    *(([NODE, DELETED_NODE], NODE_SET + between + DELETED_SET) for between in (
        *(bytes([kind, 0]) for kind in range(0xf0) if kind not in (0x10, 0x11, 0x12)),
        *(bytes([kind]) for kind in range(0xf0, 0xfe)),
        b"\xe0\x02\xff\xfe\x00\x80\x00\xef\x01\x10")),
]

# Objects that aren't read, and the causes.
WRONG_OBJECTS = [
    (b'\x10\x0f\x02\x00\x80\x82\x90\xd9\x0c\x0e\x00\x05\x00ann\x00', "NoMetadata"),
    (b'\x10\x0b\x02\x01\x00\x0e\x00\x05\x00ann\x00', "NoMetadata"),
    (b'\x10\x0f\x02\x01\x80\x82\x90\xd9\x0c\x00\x00\x05\x00ann\x00', "NoMetadata"),
    (b'\x10\x0e\x02\x01\x80\x82\x90\xd9\x0c\x0e\x00\x00ann\x00', "NoMetadata"),
    (b'\x10\x10\x02\x01\x80\x82\x90\xd9\x0c\x0e\x00\x05\x05\x00ann\x00', "BadNumber"),
    (b'\x10\x0f\x02\x01\x80\x82\x90\xd9\x0c\x0e\x00\x85\x00ann\x00', "BadNumber"),
    (b'\x10\x0f\x02\x01\x80\x82\x90\xd9\x0c\r\x00\x05\x00ann\x00', "OutOfRange"),
    (b'\x10\x13\x02\x80\x80\x80\x80\x10\x80\x82\x90\xd9\x0c\x0e\x00\x05\x00ann\x00', "OutOfRange"),
    (b'\x10\x0f\x02\x01\x80\x82\x90\xd9\x0c\x0e\x00\x05\x00an\xff\x00', "BadText"),
    # a tag that names the pair of the user 200, whose number in bytes isn't UTF-8
    (b'\x10\x19\x02\x01\x80\x82\x90\xd9\x0c\x0e\x00\xc8\x01\x00ann\x00'
     b'\x80\xda\xc4\x09\x80\xb4\x89\x13\x01', "BadText"),
    (b'\x10\x17\x80\x80\x80\x80\x80\x80\x80\x80\x80\x01\x01\x80\x82\x90\xd9\x0c\x0e\x00\x05'
     b'\x00a\x00\x00\x00',
     "OutOfRange"),
    (b'\x10\x18\x81\x80\x80\x80\x80\x80\x80\x80\x80\x80\x00\x01\x80\x82\x90\xd9\x0c\x0e\x00\x05'
     b'\x00a\x00\x00',
     "BadNumber"),
    (b'\x10\x18\xff\xff\xff\xff\xff\xff\xff\xff\xff\x02\x01\x80\x82\x90\xd9\x0c\x0e\x00\x05'
     b'\x00a\x00\x00\x00',
     "BadNumber"),
    (b'\x10\x01\x02', "BadLength"),
    (b'\x10\x0e\x02\x01\x80\x82\x90\xd9\x0c\x0e\x00\x05\x00ann', "BadLength"),
    (b'\x10\x10\x02\x01\x80\x82\x90\xd9\x0c\x0e\x00\x05\x00ann\x00\x00', "BadLength"),
    (b'\x11\x10\x02\x01\x80\x82\x90\xd9\x0c\x0e\x00\x05\x00ann\x00\x01', "BadLength"),
    (b'\x11\x11\x02\x01\x80\x82\x90\xd9\x0c\x0e\x00\x05\x00ann\x00\x01\x80', "BadLength"),
    (b'\x10\t\x02\x01\x80\x82\x90\xd9\x0c\x0e\x01', "BadReference"),
    (b'\x10\n\x02\x01\x80\x82\x90\xd9\x0c\x0e\x80\x00', "BadReference"),
    (b'\x12\x14\x02\x01\x80\x82\x90\xd9\x0c\x0e\x00\x05\x00ann\x00\x04\x02\x003\x00', "BadKind"),
    (b'\x12\x13\x02\x01\x80\x82\x90\xd9\x0c\x0e\x00\x05\x00ann\x00\x03\x02\x00\x00', "BadKind"),
]

# The greatest length that fits 64 bits.
HUGE = b"\xff" * 9 + b"\x01"


def file_of(datasets):
    return BEGINNING + datasets + b"\xfe"


# Files that aren't read, with the place of the fault.
REFUSED_O5C = [
    *((file_of(NODE_SET)[:cut], 0, "BadHeader") for cut in range(7)),
    *((file_of(NODE_SET)[:cut], cut if cut in (7, 32) else 7, "Truncated") for cut in range(7, 33)),
    (file_of(NODE_SET) + b"\x00\xfe", 33, "TrailingBytes"),
    (file_of(b"") + b"\xfe", 8, "TrailingBytes"),
    (b"\xff\xe0\x04o5m2\xfe", 0, "BadHeader"),
    (b"\xe0\x04o5c2\xfe", 0, "BadHeader"),
    (b"\xff\xe0\x84\x00o5c2\xfe", 0, "BadHeader"),
    *((file_of(b"\x80\x00" + dataset), 9, cause) for dataset, cause in WRONG_OBJECTS),
    # a length that is claimed makes nothing grow
    (file_of(b"\xdb" + HUGE + b"\x00"), 7, "Truncated"),
    (file_of(b"\x10" + HUGE + b"\x00"), 7, "Truncated"),
    (file_of(b"\x11\x19\x14" + META + HUGE), 7, "BadLength"),
    (file_of(b"\x12\x19\x14" + META + HUGE), 7, "BadLength"),
    (file_of(b"\xdb" + b"\x80" * 10 + b"\x00"), 7, "BadNumber"),
    # a reset forgets every string
    (file_of(NODE_SET + b"\xff\x10\x09\x02\x01\x80\x82\x90\xd9\x0c\x0e\x01"), 33, "BadReference"),
    # a user of 251 bytes leaves the table empty, and a role of 250 too
    (file_of(b"\x10\x89\x02\x02" + META[:-4] + b"n" * 250 + b"\x00\x00\x00\x01"), 7, "BadReference"),
    (file_of(b"\x12\x91\x02\x06" + META + b"\x80\x02\x02\x000" + b"r" * 250 + b"\x00\x02\x01"),
     7, "BadReference"),
    # a tag that names a role, and a role that names the user's pair
    (file_of(b"\x12\x15\x02" + META + b"\x04\x02\x000\x00\x01"), 7, "BadReference"),
    (file_of(b"\x12\x12\x02" + META + b"\x02\x02\x01"), 7, "BadReference"),
]

# ---- saves, and scripts

SAVE_START = b"osmrepl-save 1\nsequence 1\ntime 2024-01-01T00:00:00Z\n"

# The start and then these lines aren't read; the line of the fault.
WRONG_LISTS = [
    (b'', 4),
    (b'objects 0', 4),
    (b'objects 01\n', 4),
    (b'objects 100001\n', 4),
    (b'objects 18446744073709551617\n', 4),
    (b'objects -1\n', 4),
    (b'objects\n', 4),
    (b'# a note\nobjects 0\n', 4),
    (b'objects 0\nn1 v1 dV c7 t2024-01-01T00:00:00Z i5 uann T x1 y2\n', 5),
    (b'objects 1\nn1 v01 dV c7 t2024-01-01T00:00:00Z i5 uann T x1 y2\n', 5),
    (b'objects 1\nn1 v1 dV c7 t2024-01-01T00:00:00Z i5 uann T x1.0 y2\n', 5),
    (b'objects 1\nn1 v1 dV c7 t2024-01-01T00:00:00Z i5 uann T x1 y2\r\n', 5),
    (b'objects 1\nn1 v1 dD c7 t2024-01-01T00:00:00Z i5 uann T x y\n', 5),
    (b'objects 1\n\nn1 v1 dV c7 t2024-01-01T00:00:00Z i5 uann T x1 y2\n', 5),
    (b'objects 1\nn1 v1 dV c7 t2024-01-01T00:00:00Z i5 uann T x1 y2', 5),
    (b'objects 2\nn1 v1 dV c7 t2024-01-01T00:00:00Z i5 uann T x1 y2\nusers 0\n', 6),
    (b'objects 100000\nn1 v1 dV c7 t2024-01-01T00:00:00Z i5 uann T x1 y2\n', 6),
    (b'objects 2\nn1 v1 dV c7 t2024-01-01T00:00:00Z i5 uann T x1 y2'
     b'\nn1 v2 dV c7 t2024-01-01T00:00:00Z i5 uann T x1 y2\n',
     6),
    (b'objects 2\nw1 v1 dV c7 t2024-01-01T00:00:00Z i5 uann T N'
     b'\nn2 v1 dV c7 t2024-01-01T00:00:00Z i5 uann T x1 y2\n',
     6),
    (b'objects 3\nn-1 v1 dV c7 t2024-01-01T00:00:00Z i5 uann T x1 y2'
     b'\nn9 v1 dV c7 t2024-01-01T00:00:00Z i5 uann T x1 y2'
     b'\nn10 v1 dV c7 t2024-01-01T00:00:00Z i5 uann T x1 y2\nusers 1\n5 01\n',
     9),
    (b'objects 0\nusers 1\n0 1\n', 6),
    (b'objects 0\nusers 1\n4294967296 1\n', 6),
    (b'objects 0\nusers 1\n5 0\n', 6),
    (b'objects 0\nusers 1\n5 100001\n', 6),
    (b'objects 0\nusers 1\n5  1\n', 6),
    (b'objects 0\nusers 1\n5 1 \n', 6),
    (b'objects 0\nusers 2\n5 100000\n5 1\n', 7),
    (b'objects 0\nusers 3\n9 1\n10 1\n9 1\n', 8),
    (b'objects 0\nusers 0\nchangesets 1\nend\n', 7),
    (b'objects 0\nusers 0\nchangesets 0\nend\n\n', 8),
    (b'objects 0\nusers 0\nchangesets 0\nend\nend', 8),
]

# Texts of version 1 that are no save.
WRONG_FIRST_SAVES = [
    (b'', 1),
    (b'\n', 1),
    (b'osmrepl-save 1', 1),
    (b'osmrepl-save 1\r\nsequence 0\n', 1),
    (b'osmrepl-save 4\n', 1),
    (b'osmrepl-save 1\nbase 0\nsequence 1\n', 2),
    (b'\xef\xbb\xbfosmrepl-save 1\n', 1),
    (b'osmrepl-save 1\n', 2),
    (b'osmrepl-save 1\nsequence 00\n', 2),
    (b'osmrepl-save 1\nsequence 1000000000\n', 2),
    (b'osmrepl-save 1\nsequence  1\n', 2),
    (b'osmrepl-save 1\nsequence 1\ntime none\n', 3),
    (b'osmrepl-save 1\nsequence 1\ntime 1970-01-01T00:00:00Z\n', 3),
    (b'osmrepl-save 1\nsequence 1\ntime 2024-02-30T00:00:00Z\n', 3),
    (b'osmrepl-save 1\nsequence 0\ntime 2024-01-01T00:00:00Z\n', 3),
    (b'osmrepl-save 1\nsequence 0\ntime none\nobjects 1\n', 4),
    (b'osmrepl-save 1\nsequence 1\ntime 2024-01-01T00:00:00Z\nobjects 1'
     b'\nn1 v1 dV c7 t2024-01-01T00:00:00Z i5 uann T x1 y2\nusers 1\n5 1\nchangesets 1\n7 1\n',
     10),
    (b'osmrepl-save 1\nsequence 1\ntime 2024-01-01T00:00:00Z\nobjects 1'
     b'\nn1 v1 dV c7 t2024-01-01T00:00:00Z i5 uann T x1 y2\nusers 1\n5 1\nchangesets 1\n7 1\nend',
     10),
    (b'osmrepl-save 1\nsequence 1\ntime 2024-01-01T00:00:00Z\nobjects 1'
     b'\nn1 v1 dV c7 t2024-01-01T00:00:00Z i5 uann T x1 y2\nusers 1\n5 01\nchangesets 1\n7 1'
     b'\nend\n',
     7),
    (b'osmrepl-save 1\nsequence 1\ntime 2024-01-01T00:00:00Z\nobjects 1'
     b'\nn1 v1 dV c7 t2024-01-01T00:00:00Z i5 uann T x1 y2\nusers 1\n5 1\nchangesets 1\n7 1'
     b'\nend\n#',
     11),
]

# The same in version 2, which has the line `base` before that of the number, and no bound of its own on the objects.
WRONG_SECOND_SAVES = [
    (b'osmrepl-save 2\n', 2),
    (b'osmrepl-save 2\nsequence 1\n', 2),
    (b'osmrepl-save 2\nbase 00\n', 2),
    (b'osmrepl-save 2\nbase 01\nsequence 1\n', 2),
    (b'osmrepl-save 2\nbase 1000000000\n', 2),
    (b'osmrepl-save 2\nbase 0\n', 3),
    (b'osmrepl-save 2\nbase 2\nsequence 1\n', 3),
    (b'osmrepl-save 2\nbase 1\nsequence 1\ntime none\n', 4),
    (b'osmrepl-save 2\nbase 1\nsequence 1\ntime 2024-01-01T00:00:00Z\nobjects 0\nusers 1\n', 6),
    (b'osmrepl-save 2\nbase 1\nsequence 2\ntime 2024-01-01T00:00:00Z\nobjects 0\nusers 1\n5 100001\n', 7),
]

# The same in version 3, which has the filter after the line `base`.
WRONG_THIRD_SAVES = [
    (b'osmrepl-save 3\n', 2),
    (b'osmrepl-save 3\nsequence 1\n', 2),
    (b'osmrepl-save 3\nbase 0\n', 3),
    (b'osmrepl-save 3\nbase 0\nsequence 1\n', 3),
    *[(b'osmrepl-save 3\nbase 0\nkinds' + kinds + b'\nkeys 0\n', 3)
      for kinds in (b'', b' ', b' wn', b' nn', b' x', b' N', b' nwr ', b'  nwr', b' n w')],
    (b'osmrepl-save 3\nbase 0\nkinds nwr\n', 4),
    *[(b'osmrepl-save 3\nbase 0\nkinds w\nkeys' + keys + b'\na\nb\n', 4)
      for keys in (b'', b' ', b' 00', b' 02', b' 101', b' -1', b' 2 ', b' 18446744073709551617')],
    (b'osmrepl-save 3\nbase 0\nkinds w\nkeys 0\n', 5),
    (b'osmrepl-save 3\nbase 0\nkinds w\nkeys 1\n', 5),
    (b'osmrepl-save 3\nbase 0\nkinds w\nkeys 1\na b\nsequence 0\n', 5),
    (b'osmrepl-save 3\nbase 0\nkinds w\nkeys 1\n%61%\nsequence 0\n', 5),
    (b'osmrepl-save 3\nbase 0\nkinds w\nkeys 1\na\r\nsequence 0\n', 5),
    (b'osmrepl-save 3\nbase 0\nkinds w\nkeys 2\na\nsequence 0\n', 6),
    (b'osmrepl-save 3\nbase 0\nkinds w\nkeys 2\nb\na\nsequence 0\n', 6),
    (b'osmrepl-save 3\nbase 0\nkinds w\nkeys 2\na\na\nsequence 0\n', 6),
    (b'osmrepl-save 3\nbase 2\nkinds w\nkeys 0\nsequence 1\n', 5),
    *[(b'osmrepl-save 3\nbase 0\nkinds w\nkeys 1\nhighway\nsequence 1\ntime 2024-01-01T00:00:00Z\nobjects 1\n'
       + line + b'\nusers 0\nchangesets 0\nend\n', 9)
      for line in (NODE, WAY.replace(b'highway', b'high'), WAY.replace(b'highway=path', b'path=highway'))],
]


# Texts of version 1 that claim more objects than their number has room for.
BOUNDED = [SAVE_START + b"objects 100001\n", SAVE_START + b"objects 18446744073709551617\n",
           b"osmrepl-save 1\nsequence 0\ntime none\nobjects 1\n"]


def in_version_2(content):
    return content.replace(b"osmrepl-save 1\n", b"osmrepl-save 2\nbase 0\n")


def in_version_3(content):
    return content.replace(b"osmrepl-save 1\n", b"osmrepl-save 3\nbase 0\nkinds nwr\nkeys 0\n")


WRONG_FIRST_SAVES += [(SAVE_START + lists, line) for lists, line in WRONG_LISTS]
WRONG_SECOND_SAVES += [(in_version_2(text), line + 1) for text, line in WRONG_FIRST_SAVES
                       if line > 1 and b"base" not in text and text not in BOUNDED]
WRONG_SECOND_SAVES += [(in_version_2(text), 6) for text in BOUNDED]
WRONG_THIRD_SAVES += [(in_version_3(text), line + 3) for text, line in WRONG_FIRST_SAVES
                      if line > 1 and b"base" not in text and text not in BOUNDED]
WRONG_THIRD_SAVES += [(in_version_3(text), 8) for text in BOUNDED]
WRONG_SAVES = WRONG_FIRST_SAVES + WRONG_SECOND_SAVES + WRONG_THIRD_SAVES

# Scripts, and the first line that is no event.
REFUSED_SCRIPTS = [
    (b'foo', 1),
    (b'show\nshow \n', 2),
    (b'# c\n\nshow\nclose 2024-01-01T00:00:60Z\n', 4),
    (b'deliver 1\n', 1),
    (b'deliver 1 osc\n', 1),
    (b'deliver +1 opl\n', 1),
    (b'deliver 1234567890 opl\n', 1),
    (b'deliver  1 opl\n', 1),
    (b' show\n', 1),
    (b'edit\n', 1),
    (b'edit x1\n', 1),
    (b'close 2024-01-01T00:00:00Z\r\nshow\r\r\n', 2),
    (b'save 1\n', 1),
    (b'restart \n', 1),
    (b'begin\n', 1),
    (b'begin \n', 1),
    (b'begin 1 \n', 1),
    (b'begin  1\n', 1),
    (b'begin -1\n', 1),
    (b'begin 0000000001\n', 1),
    (b'begin 1 opl\n', 1),
    (b'edit n1 v0 dV c7 t2024-01-01T00:00:00Z i5 uann T x1 y2\n', 1),
    (b'edit n1 v1 dV c7 t2024-01-01T00:00:00Z i5 uann T x y2\n', 1),
]
