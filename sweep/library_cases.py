"""The calls of the libraries that take memory, each on a small value, with what they answer and what the value is
before and after them, written by hand; and calls that take none. `sweep/library` runs the cases."""

from typing import Callable, NamedTuple

from osm import small
from osm.small import NONE_O5C, ONE_O5C, WAY_O5C, data_file_of, lines
from osm.vectors import NODE, NODE_SET, RELATION, RELATION_SET, WAY, WAY_SET, file_of

LONG = b"a-name-of-more-than-22-bytes"
NAMED = NODE.replace(b"uann", b"u" + LONG)
TAGGED = WAY.replace(b"highway=path", LONG + b"=path,surface=" + LONG)
JOINED = RELATION.replace(b"outer", LONG)
OPL_FILE = lines(NODE, WAY, RELATION)
O5C_FILE, DATA_FILE = (form(b"\xff".join((NODE_SET, WAY_SET, RELATION_SET))) for form in (file_of, data_file_of))
WANT, BROKE, BROKEN = b"WantOfMemory\n", b"Broke\n", b"Broken\n"


class Refusal(NamedTuple):
    """What a refused call leaves; what the commands before the second call answer then, what that call answers, and
    what it leaves. None is what the case says: the state before the call, and the answers and the state of a call that
    isn't refused. A function judges the state that a refused call leaves, or makes the last state of it."""
    left: bytes | Callable[[bytes], bool] | None = None
    between: tuple[bytes, ...] | None = None
    answer: bytes | None = None
    after: bytes | Callable[[bytes], bytes] | None = None


class Case(NamedTuple):
    """A call on a value. `before` and `again` are the commands before the first call and before the second one, `told`
    the command that tells the answer if the call itself doesn't, and `shown` what the state is shown by. `script` is
    one to which the answer is a reply text, which may have replies that want memory."""
    on: str
    call: str
    given: bytes = b""
    answer: bytes = b""
    left: bytes = b""
    after: bytes | None = None
    before: tuple[tuple[str, bytes], ...] = ()
    again: tuple[tuple[str, bytes], ...] = ()
    refused: dict[bytes, Refusal] = {WANT: Refusal()}
    told: str | None = None
    shown: bytes = b""
    script: bytes | None = None


def minute(number):
    return small.at(number).encode()


def state(number):
    return small.state(number, number)


def node(number, version=1):
    """A node of its own user and changeset, all three with that number."""
    return b"n%d v%d dV c%d t2024-01-01T00:00:00Z i%d uann T x1 y2" % (number, version, number, number)


def mirror(number, objects, users, changesets):
    counted = [b"users %d" % len(users), *[b"%d %d" % pair for pair in users],
               b"changesets %d" % len(changesets), *[b"%d %d" % pair for pair in changesets]]
    time = minute(number) if number else b"none"
    return lines(b"time " + time, b"objects %d" % len(objects), *objects, *counted)


def save(number, *parts):
    return b"osmrepl-save 3\nbase 0\nkinds nwr\nkeys 0\nsequence %d\n" % number + mirror(number, *parts) + b"end\n"


def show(number, *parts, held=()):
    return b"number %d\n" % number + mirror(number, *parts) + lines(b"held %d" % len(held), *[b"%d" % n for n in held])


NOTHING = ((), (), ())
ONE = ((NODE,), ((5, 1),), ((7, 1),))


def nodes(count):
    return tuple(node(number) for number in range(1, count + 1)), *[tuple((n, 1) for n in range(1, count + 1))] * 2


# As many objects, users and changesets as one node of a tree has room for, and one more of each.
FULL, MORE = nodes(15), nodes(16)
PLENTY = (NAMED, TAGGED, JOINED), ((5, 3),), ((7, 3),)


def delivery(number, file):
    return state(number) + b"\0" + file


# ---- values and their texts

EXTRACT_OF_ALL = b'Extract { kinds: "nwr", keys: [] }\n'
TEXTS = [
    Case("texts", "Text::new", LONG, LONG + b"\n"),
    Case("texts", "Text::within_limits", answer=LONG + b"\n", before=(("text", LONG),)),
    Case("texts", "Text::copy", answer=LONG + b"\n", before=(("text", LONG),)),
    Case("texts", "path", b"1234567", b"001/234/567.opl\n"),
    Case("texts", "state_write", b"1234567", b"sequenceNumber=1234567\ntimestamp=1970-01-01T00\\:00\\:01Z\n\n"),
    *[Case("texts", "asked", b"osmrepl " + words, answer, refused={b"OutOfMemory\n": Refusal()}) for words, answer in (
        (b"show save", b'Show { save: "save" } ' + EXTRACT_OF_ALL),
        (b"begin base state save", b'Begin { base: "base", state: "state", save: "save" } ' + EXTRACT_OF_ALL),
        (b"follow dir save b a b --kinds=w",
         b'Follow { dir: "dir", save: "save" } Extract { kinds: "w", keys: ["b", "a", "b"] }\n'),
        (b"publish dir changes --now 2024 --sequence 7",
         b'PublishAs { dir: "dir", changes: "changes", now: "2024", sequence: "7" } ' + EXTRACT_OF_ALL),
        (b"convert in", b"MissingRequiredArgument\n"))],
    Case("texts", "check_words", answer=b"(false, true, false) " + LONG + b" highway\n", before=(("follow", b""),),
         refused={b"out of memory\n": Refusal()}),
    Case("texts", "path_of", LONG, LONG + b"\n", refused={b"AllocError\n": Refusal()}),
    Case("texts", "cause_text", b"a\x1bb", b" (a\\u{1b}b: entity not found; a hint)\n",
         refused={b"AllocError\n": Refusal()}),
    Case("texts", "echoes", b"osmrepl a\x1bword " + b"a" * 65, b"osmrepl\na\\u{1b}word\n" + b"a" * 64 + b"..\n",
         refused={b"AllocError\n": Refusal()}),
]

FOUR = (("change", NODE), ("Batch::push", b"")) * 4
VALUES = [
    Case("values", "Batch::push", answer=b"done\n", before=(("change", NAMED),),
         left=lines(b"[]", b"and " + NAMED), after=lines(b"[]", NAMED)),
    Case("values", "Batch::push", answer=b"done\n", before=(*FOUR, ("change", NAMED)),
         left=lines(b"[]", *[NODE] * 4, b"and " + NAMED), after=lines(b"[]", *[NODE] * 4, NAMED)),
    Case("values", "Batch::copy", answer=lines(*[NODE] * 4), before=FOUR, left=lines(b"[]", *[NODE] * 4)),
    Case("values", "Batch::copy", answer=lines(NAMED), before=(("change", NAMED), ("Batch::push", b"")),
         left=lines(b"[]", NAMED)),
    *[Case("values", "Change::copy", answer=lines(change), before=(("change", change),),
           left=lines(b"[]", b"and " + change)) for change in (NAMED, TAGGED, JOINED)],
    Case("values", "Change::within_limits", answer=b"n1 v1 dV c1 t1970-01-01T00:00:01Z i1 u Ta=b x0 y0\n",
         before=(("spare", b""),), again=(("spare", b""),), left=b"[]\n", refused={}),
    Case("values", "Filter::copy", answer=b"(false, true, false) " + LONG + b" highway\n",
         before=(("filter", b"w " + LONG + b" highway"),), left=b"[]\n"),
    Case("values", "Meta::copy", answer=LONG + b"\n", before=(("change", NAMED),), left=lines(b"[]", b"and " + NAMED)),
    Case("values", "Tag::copy", answer=LONG + b"=path\n", before=(("change", TAGGED),),
         left=lines(b"[]", b"and " + TAGGED)),
    Case("values", "Member::copy", answer=b"10@" + LONG + b"\n",
         before=(("change", JOINED.replace(b"n1@,", b"")),), left=lines(b"[]", b"and " + JOINED.replace(b"n1@,", b""))),
    Case("values", "Parts::copy", answer=b"[1, 2, 5]\n", before=(("change", WAY),), left=lines(b"[]", b"and " + WAY)),
    Case("values", "Parts::push", answer=b"done\n", left=b"[]\n", after=b"[7]\n"),
    Case("values", "Parts::push", answer=b"done\n", before=(("Parts::push", b""),) * 4, left=b"[7, 7, 7, 7]\n",
         after=b"[7, 7, 7, 7, 7]\n"),
]

# ---- change files and their lines

FORMS = [
    Case("forms", "write_line", answer=b"done\n", before=(("batch", lines(TAGGED)), ("text", b"#")),
         left=b"#\n", after=lines(b"#" + TAGGED)),
    *[Case("forms", "read_line", line, lines(line), left=b"\n") for line in (NAMED, TAGGED, JOINED)],
    Case("forms", "write_text", b"a b,c", b"done\n", before=(("text", b"#"),), left=b"#\n",
         after=b"#a%20%b%2c%c\n"),
    Case("forms", "read_text", LONG, LONG + b"\n", left=b"\n"),
    Case("forms", "read_text", LONG + b"%2c%", LONG + b",\n", left=b"\n"),
    Case("forms", "Opl::write", answer=OPL_FILE + b"\n", before=(("batch", OPL_FILE),), left=b"\n"),
    Case("forms", "Opl::read", OPL_FILE, OPL_FILE, left=b"\n"),
    Case("forms", "Opl::read", lines(NAMED, TAGGED, JOINED), lines(NAMED, TAGGED, JOINED), left=b"\n"),
    Case("forms", "O5c::write", answer=O5C_FILE + b"\n", before=(("batch", OPL_FILE),), left=b"\n"),
    Case("forms", "O5c::read", O5C_FILE, OPL_FILE, left=b"\n"),
    Case("forms", "write_data-opl", answer=OPL_FILE + b"\n", before=(("batch", OPL_FILE),), left=b"\n"),
    Case("forms", "read_data-opl", OPL_FILE, OPL_FILE, left=b"\n"),
    Case("forms", "read_data-opl", lines(NAMED, TAGGED, JOINED), lines(NAMED, TAGGED, JOINED), left=b"\n"),
    Case("forms", "write_data-o5c", answer=DATA_FILE + b"\n", before=(("batch", OPL_FILE),), left=b"\n"),
    Case("forms", "read_data-o5c", DATA_FILE, OPL_FILE, left=b"\n"),
    *[Case("forms", f"there_and_back::<{form}>", answer=lines(NAMED, TAGGED, JOINED),
           before=(("batch", lines(NAMED, TAGGED, JOINED)),), left=b"\n") for form in ("Opl", "O5c")],
]

# ---- mirrors, save texts and holding areas


def is_partly_applied(text):
    """Whether the text is the save of a mirror to which some of the nodes were applied, and the last of them to the
    counts alone, of users or also of changesets."""
    ends = [(done + 1, done + second, done) for done in range(16) for second in (0, 1)]
    ends += [(done, done, done) for done in range(17)]
    return text in [save(0, MORE[0][:objects], MORE[1][:users], MORE[2][:changesets])
                    for users, changesets, objects in ends]


PUTS = tuple(command for number in range(1, 16) for command in (("change", node(number)), ("Objects::put", b"")))
EMPTY = save(0, *NOTHING)
HEAD_WITH_A_KEY = lines(b"osmrepl-save 3", b"base 0", b"kinds w", b"keys 1", LONG, b"sequence 3",
                        b"time 2024-01-01T00:00:00Z")
# The same save in each version, and one with a base.
THIRD_VERSION = save(1, *ONE)
SECOND_VERSION = THIRD_VERSION.replace(b"save 3", b"save 2").replace(b"kinds nwr\nkeys 0\n", b"")
FIRST_VERSION = SECOND_VERSION.replace(b"save 2\nbase 0\n", b"save 1\n")
WITH_A_BASE = save(2, *ONE).replace(b"base 0", b"base 1")
COPIES = [("Mirror::objects", lines(*PLENTY[0])), ("Mirror::users", b"[(5, 3)]\n"),
          ("Mirror::changesets", b"[(7, 3)]\n"), ("Objects::to_vec", lines(*PLENTY[0])),
          ("Counts::to_vec", b"[(5, 3)]\n"), ("save_write", save(3, *PLENTY) + b"\n")]
MIRRORS = [
    Case("mirrors", "Mirror::apply", answer=b"done\n", before=(("changes", lines(*MORE[0])),), left=EMPTY,
         after=save(0, *MORE), again=(("changes", lines(*MORE[0])),),
         refused={WANT: Refusal(left=is_partly_applied)}),
    *[Case("mirrors", call, answer=answer, before=(("saved", save(3, *PLENTY)),), left=save(3, *PLENTY))
      for call, answer in COPIES],
    Case("mirrors", "save_write", answer=WITH_A_BASE + b"\n", before=(("saved", WITH_A_BASE),), left=WITH_A_BASE),
    Case("mirrors", "head_read", HEAD_WITH_A_KEY, b"3\n", left=EMPTY),
    Case("mirrors", "head_read", b"osmrepl-save 3\nbase 0\nkinds nwr\nkeys 1\na\n", b"BadHead { line: 6 }\n",
         left=EMPTY),
    *[Case("mirrors", "save_read", text, b"done\n", left=EMPTY, after=THIRD_VERSION)
      for text in (THIRD_VERSION, SECOND_VERSION, FIRST_VERSION)],
    Case("mirrors", "save_read", WITH_A_BASE, b"done\n", left=EMPTY, after=WITH_A_BASE),
    Case("mirrors", "save_read", save(3, *PLENTY), b"done\n", left=EMPTY, after=save(3, *PLENTY)),
    Case("mirrors", "save_read", save(1, *MORE), b"done\n", left=EMPTY, after=save(1, *MORE)),
    Case("mirrors", "Objects::put", answer=b"done\n", before=(("change", NODE),), again=(("change", NODE),),
         left=EMPTY, after=EMPTY + lines(NODE)),
    Case("mirrors", "Objects::put", answer=b"done\n", before=(*PUTS, ("change", node(16))),
         again=(("change", node(16)),), left=EMPTY + lines(*FULL[0]), after=EMPTY + lines(*MORE[0])),
    Case("mirrors", "Counts::add_one", answer=b"done\n", left=EMPTY, after=EMPTY + b"5 1\n"),
    Case("mirrors", "HoldingArea::new", answer=b"done\n", before=(("area", b""),), left=EMPTY + b"held 3\n",
         after=EMPTY + b"held\n"),
    Case("mirrors", "HoldingArea::numbers", answer=b"[3]\n", before=(("area", b""),), left=EMPTY + b"held 3\n"),
]

# ---- lines with numbers, and the show text


def appending(call, line, before=()):
    """A call that appends a line. If it is refused, a part of the line may be there."""
    refusal = Refusal(left=lambda text: text.startswith(b"#") and (b"#" + line).startswith(text.removesuffix(b"\n")),
                      after=lambda text: text.removesuffix(b"\n") + line + b"\n")
    return Case("lines", call, answer=b"done\n", before=(*before, ("text", b"#")), left=b"#\n",
                after=b"#" + line + b"\n", refused={WANT: refusal})


LINES = [
    appending("write_view", show(3, *PLENTY), (("view", save(3, *PLENTY)),)),
    appending("write_numbered", b"number 12\n"),
    appending("write_numbered_lines", b"missing 2\nmissing 3\nmissing 5\n"),
    appending("write_applied", b"applied 1..3\n"),
    appending("write_base", b"base 7\n"),
    appending("write_time", b"time 2024-01-01T00:00:00Z\n"),
    appending("write_count", b"5 12\n"),
    appending("write_count_lines", b"5 1\n6 22\n"),
    appending("write_number", b"18446744073709551615"),
    appending("write_bytes", b"some bytes"),
]

# ---- publishers and followers

CLOSED = lines(b"published 1") + state(1) + OPL_FILE + O5C_FILE + b"\n"
EDITS = tuple(command for change in (NODE, WAY, RELATION) for command in (("change", change), ("Publisher::edit", b"")))
PUBLISHERS = [
    Case("publisher", "Publisher::edit", answer=b"done\n", before=(("change", NAMED),),
         left=lines(b"number 0", b"and " + NAMED), after=lines(b"number 0", NAMED)),
    Case("publisher", "Publisher::edit", answer=b"done\n", before=(*EDITS, *EDITS[:2], ("change", NAMED)),
         left=lines(b"number 0", NODE, WAY, RELATION, NODE, b"and " + NAMED),
         after=lines(b"number 0", NODE, WAY, RELATION, NODE, NAMED)),
    Case("publisher", "Publisher::close", minute(1), CLOSED, before=EDITS,
         left=lines(b"number 0", NODE, WAY, RELATION), after=b"number 1\n"),
]


def breaking(mended, answer=None, after=None):
    """A delivery that wants memory, or breaks the follower, which is then restarted and takes the delivery again."""
    broke = Refusal(left=BROKEN, between=(b"done\n",), answer=answer, after=after)
    return {"again": (("mend", mended),), "refused": {WANT: Refusal(), BROKE: broke}}


SECOND, THIRD = NODE.replace(b" v1 ", b" v2 "), NODE.replace(b" v1 ", b" v3 ")
HOLDS = (("Follower::deliver::<Opl>", delivery(2, lines(SECOND))),
         ("Follower::deliver::<Opl>", delivery(3, lines(THIRD))))
AT_FULL = (("Follower::restart", save(1, *FULL)),)
BEGUN = b"number 2\nbase 2\n" + mirror(2, PLENTY[0], (), ()) + b"held 0\n"
FOLLOWERS = [
    Case("follower", "Follower::begin", state(2), b"done\n", before=(("objects", lines(*PLENTY[0])), *HOLDS),
         again=(("objects", lines(*PLENTY[0])),), left=show(0, *NOTHING, held=(2, 3)), after=BEGUN),
    Case("follower", "Follower::begin_with", state(2), b"done\n",
         before=(("filter", b"nwr none"), ("objects", lines(*PLENTY[0])), *HOLDS),
         again=(("filter", b"nwr none"), ("objects", lines(*PLENTY[0]))), left=show(0, *NOTHING, held=(2, 3)),
         after=b"number 2\nbase 2\n" + mirror(2, (), (), ()) + b"held 0\n"),
    Case("follower", "Follower::with_filter", answer=b"done\n", before=(*AT_FULL, ("filter", b"w highway")),
         again=(("filter", b"w highway"),), left=show(1, *FULL), after=show(0, *NOTHING)),
    Case("follower", "Follower::from_save", save(3, *PLENTY), b"done\n", before=HOLDS,
         left=show(0, *NOTHING, held=(2, 3)), after=show(3, *PLENTY)),
    Case("follower", "saved_filter", save(3, *PLENTY), b"0 keys\n", left=show(0, *NOTHING)),
    Case("follower", "Follower::new", answer=b"done\n", before=AT_FULL, left=show(1, *FULL),
         after=show(0, *NOTHING)),
    Case("follower", "Follower::deliver::<Opl>", delivery(1, lines(NODE)), b"Applied { low: 1, high: 1 }\n",
         left=show(0, *NOTHING), after=show(1, *ONE), **breaking(save(0, *NOTHING))),
    Case("follower", "Follower::deliver::<O5c>", delivery(1, ONE_O5C), b"Applied { low: 1, high: 1 }\n",
         left=show(0, *NOTHING), after=show(1, *ONE), **breaking(save(0, *NOTHING))),
    Case("follower", "Follower::deliver::<Opl>", delivery(2, lines(node(16))), b"Applied { low: 2, high: 2 }\n",
         before=AT_FULL, left=show(1, *FULL), after=show(2, *MORE), **breaking(save(1, *FULL))),
    Case("follower", "Follower::deliver::<O5c>", delivery(2, WAY_O5C),
         b"Applied { low: 2, high: 2 }\n", before=(("Follower::restart", save(1, *ONE)),), left=show(1, *ONE),
         after=show(2, (NODE, WAY), ((5, 2),), ((7, 2),)), again=(("mend", b""),)),
    Case("follower", "Follower::deliver::<Opl>", delivery(1, lines(NODE)), b"Applied { low: 1, high: 3 }\n",
         before=HOLDS, left=show(0, *NOTHING, held=(2, 3)), after=show(3, (THIRD,), ((5, 3),), ((7, 3),)),
         **breaking(save(0, *NOTHING), b"Applied { low: 1, high: 1 }\n", show(1, *ONE))),
    *[Case("follower", f"Follower::deliver::<{form}>", delivery(3, file), b"Held\n", left=show(0, *NOTHING),
           after=show(0, *NOTHING, held=(3,))) for form, file in (("Opl", OPL_FILE), ("O5c", O5C_FILE))],
    Case("follower", "Follower::missing", state(5), b"[1, 4, 5]\n", before=HOLDS, left=show(0, *NOTHING, held=(2, 3))),
    Case("follower", "Follower::view", answer=show(3, *PLENTY), before=(("Follower::restart", save(3, *PLENTY)),),
         left=show(3, *PLENTY)),
    Case("follower", "Follower::view", answer=show(0, *NOTHING, held=(2, 3)), before=HOLDS,
         left=show(0, *NOTHING, held=(2, 3))),
    Case("follower", "Follower::save", answer=save(3, *PLENTY) + b"\n",
         before=(("Follower::restart", save(3, *PLENTY)),), left=show(3, *PLENTY)),
    Case("follower", "Follower::save", answer=EMPTY + b"\n", left=show(0, *NOTHING)),
    Case("follower", "Follower::restart", save(3, *PLENTY), b"done\n", before=HOLDS,
         left=show(0, *NOTHING, held=(2, 3)), after=show(3, *PLENTY), refused={WANT: Refusal(left=BROKEN)}),
    Case("follower", "Follower::restart", save(1, *MORE), b"done\n",
         before=(("Follower::restart", save(3, *PLENTY)),),
         left=show(3, *PLENTY), after=show(1, *MORE), refused={WANT: Refusal(left=BROKEN)}),
]

# ---- worlds, scripts and their replies

NO_MEMORY, ALL_KINDS = b"no memory\n", b"nwr"
PUBLISH = b"edit " + NODE + b"\nclose " + minute(1) + b"\n"
ROW = PUBLISH + b"deliver 1 opl\nshow\n"
REPLIED = b"edited\nclosed 1\napplied 1..1\n" + show(1, *ONE)
PUBLISHED = lines(b"published 1") + state(1) + lines(NODE) + lines(ONE_O5C)


def world(pending, published, follower):
    return lines(b"pending", *pending) + published + follower


NEW = world((), b"", show(0, *NOTHING))
FIRST = world((), PUBLISHED, show(0, *NOTHING))
APPLIED = world((), PUBLISHED, show(1, *ONE))


def step(event, answer, left, after=None, script=b"", refused=None, again=(), kept=ALL_KINDS):
    """A step after those of a script, in a world with a filter."""
    before = (("filter", kept), ("events", script), ("World::run_with", b""), ("reply", b""), ("events", event))
    return Case("world", "World::step", answer=answer, left=left, after=after, before=before,
                again=(*again, ("events", event)), told="reply", refused=refused or {NO_MEMORY: Refusal()})


BEGUN_AT_1 = b"number 1\nbase 1\n" + mirror(1, ONE[0], (), ()) + b"held 0\n"
FOR_TAGS = (("filter", b"nw " + LONG + b" highway"),)
APPLIED_FOR_TAGS = world((), PUBLISHED, show(1, (), *ONE[1:]))
BEGUN_FOR_TAGS = b"number 1\nbase 1\n" + mirror(1, (), (), ()) + b"held 0\n"
RESTART = (("events", b"restart\n"), ("World::step", b""), ("reply", b""))
BROKEN_FIRST = {NO_MEMORY: Refusal(), b"broke\n": Refusal(left=world((), PUBLISHED, BROKEN))}
WORLDS = [
    Case("world", "World::new", answer=b"done\n", before=(("events", ROW), ("World::run", b""), ("reply", b"")),
         left=APPLIED, after=NEW),
    Case("world", "World::with_filter", answer=b"done\n",
         before=(("events", ROW), ("World::run", b""), ("reply", b""), *FOR_TAGS), left=APPLIED, after=NEW,
         again=FOR_TAGS),
    Case("world", "World::run", answer=REPLIED, before=(("events", ROW),), left=NEW, after=APPLIED,
         again=(("events", ROW),), told="reply", script=ROW),
    Case("world", "World::run_with", answer=REPLIED, before=(("filter", b"n"), ("events", ROW)), left=NEW, after=APPLIED,
         again=(("filter", b"n"), ("events", ROW)), told="reply", script=ROW),
    step(b"edit " + NODE, b"edited\n", NEW, world((NODE,), b"", show(0, *NOTHING))),
    step(b"close " + minute(1), b"closed 1\n", world((NODE,), b"", show(0, *NOTHING)), FIRST, b"edit " + NODE),
    step(b"deliver 1 opl", b"applied 1..1\n", FIRST, APPLIED, PUBLISH, BROKEN_FIRST, RESTART),
    step(b"deliver 1 o5c", b"applied 1..1\n", FIRST, APPLIED, PUBLISH, BROKEN_FIRST, RESTART),
    step(b"show", show(1, *ONE), APPLIED, script=ROW),
    step(b"save", b"saved 1\n", APPLIED, script=ROW),
    step(b"begin 1", b"begun 1\n", APPLIED, world((), PUBLISHED, BEGUN_AT_1), ROW),
    step(b"begin 1", b"begun 1\n", APPLIED_FOR_TAGS, world((), PUBLISHED, BEGUN_FOR_TAGS), ROW, kept=FOR_TAGS[0][1]),
    step(b"restart", b"restarted 1\n", APPLIED, script=ROW + b"save",
         refused={NO_MEMORY: Refusal(left=world((), PUBLISHED, BROKEN))}),
]
EVENTS = (b"Close(1704067260)\nDeliver { number: 2, form: O5c }\nDeliver { number: 12, form: Opl }\nShow\nSave\n"
          b"Restart\nBegin(12)\n")
SCRIPTS = [
    Case("scripts", "parse_script", b"close " + minute(1) + b"\ndeliver 2 o5c\n# more\ndeliver 12 opl\nshow\nsave\n"
         b"restart\nbegin 12", EVENTS),
    Case("scripts", "write_replies", answer=REPLIED + b"\n", before=(("replies", ROW),)),
    Case("scripts", "replay_run", ROW, b"done\n", after=REPLIED, script=ROW),
]

# ---- what the program's words do, over files in memory

OUT_OF_MEMORY = b"out of memory\n"
NAMES = ("changes", "state", "save", "save.journal", "a.opl", "a.o5m", "b.opl", "b.o5c", "b.o5m",
         "dir/000/000/001.o5c", "dir/000/000/001.opl", "dir/000/000/001.state.txt", "dir/000/000/002.o5c",
         "dir/000/000/002.state.txt", "dir/state.txt")
TOP = state(3).replace(b"=3", b"=1")
SEQUENCE = {"dir/000/000/001.o5c": ONE_O5C, "dir/000/000/001.opl": lines(NODE), "dir/000/000/001.state.txt": TOP}


def shown(files):
    return b"".join(lines(b"file " + name.encode()) + files[name] + b"\n" for name in NAMES if name in files)


def is_part_published(old):
    """Whether the text shows those files, and perhaps whole files of the first sequence, but no newest state."""
    return lambda text: any(text == shown({**old, **{name: SEQUENCE[name] for name in list(SEQUENCE)[:count]}})
                            for count in range(len(SEQUENCE) + 1))


def word(name, answer, old, new=None, left=None, given=b"", script=None):
    before = tuple(("file", path.encode() + b"\0" + data) for path, data in old.items())
    return Case("files", f"execute-{name}", given, answer, shown(old), shown({**old, **(new or {})}), before,
                refused={OUT_OF_MEMORY: Refusal(left=left)}, shown="\n".join(NAMES).encode(), script=script)


def show_word(text, old):
    """A show prints its first lines, then the lists, and last that nothing is held. If memory is refused, it has printed
    none of these, the first, or the first two."""
    first = lines(*text.splitlines()[:2])
    printed = (b"", first, text.removesuffix(b"held 0\n"))
    return word("show", text + b"status 0\n", old)._replace(
        refused={part + OUT_OF_MEMORY: Refusal() for part in printed})


CHANGES = {"changes": lines(NODE)}
WHOLE = {**SEQUENCE, "dir/state.txt": TOP}
SAVED = {"save": save(3, *PLENTY)}
FOLLOWED = {"save": b"osmrepl-save 3\nbase 0\nkinds nwr\nkeys 0\nsequence 1\n" + mirror(3, *ONE) + b"end\n"}
KINDS = (NODE, WAY, RELATION)


def begun(objects):
    """The save that begins with those objects at sequence 3."""
    return {"save": b"osmrepl-save 3\nbase 3\nkinds nwr\nkeys 0\nsequence 3\n" + mirror(3, objects, (), ()) + b"end\n"}


# The filter of ways with one key, and a save under it.
WAYS = ("filter", b"w " + LONG)


def ways_save(base, number, objects, users, changesets):
    head = b"osmrepl-save 3\nbase %d\nkinds w\nkeys 1\n%s\nsequence %d\n" % (base, LONG, number)
    return {"save": head + mirror(3, objects, users, changesets) + b"end\n"}


def for_ways(name, answer, old, new=None):
    """A word with that filter, which each run takes."""
    case = word(name, answer, old, new)
    return case._replace(before=(*case.before, WAYS), again=(WAYS,))


# A folder with a second sequence, an empty save, and its journal with the first sequence, or with both.
SECOND_TOP = state(4).replace(b"=4", b"=2")
BOTH = {**SEQUENCE, "dir/000/000/002.o5c": WAY_O5C, "dir/000/000/002.state.txt": SECOND_TOP, "dir/state.txt": SECOND_TOP}
NO_OBJECTS = EMPTY[:EMPTY.index(b"users")]


def journal(begins, number, *batches):
    """The journal of a save that begins with those lines, with the batches that come after that number. The time of each
    batch is two minutes after its number."""
    bodies = [b"batch %d %s %d\n" % (n, minute(n + 2), len(file)) + file + b"\n" for n, file in enumerate(batches, number + 1)]
    last = number + len(batches)
    return {"save.journal": lines(b"osmrepl-journal 1") + begins + lines(
        b"sequence %d" % last, b"time " + minute(last + 2), b"batches %d" % len(batches)) + b"".join(bodies) + b"end\n"}


EMPTY_SAVE = {"save": EMPTY}
KEPT_ONE = {**EMPTY_SAVE, **journal(NO_OBJECTS, 0, ONE_O5C)}
KEPT_BOTH = {**EMPTY_SAVE, **journal(NO_OBJECTS, 0, ONE_O5C, WAY_O5C)}
MERGED = {"save": b"osmrepl-save 3\nbase 0\nkinds nwr\nkeys 0\nsequence 2\n"
          + mirror(4, (NODE, WAY), ((5, 2),), ((7, 2),)) + b"end\n"}
EMPTIED = {"save.journal": b""}
BASE_AND_STATE = {"a.opl": lines(*PLENTY[0]), "state": state(3)}
BEGUN = begun(PLENTY[0])
# A journal of the save that begins, whose first batch comes after it.
OWN = journal(BEGUN["save"][:BEGUN["save"].index(NAMED)], 3, ONE_O5C)


def begins_beside(old):
    """A beginning over files with a journal. If memory is refused, they are as they were, or the journal is empty, if it
    wasn't one of the save."""
    left = {shown(old)} | ({shown({**old, **EMPTIED})} if old["save"] != BEGUN["save"] else set())
    return word("begin-opl", b"number 3\nstatus 0\n", old, {**BEGUN, **EMPTIED}, lambda text: text in left)


JOURNALS = [
    word("follow-journal", b"applied 1..1\nnumber 1\nstatus 0\n", {**WHOLE, **EMPTY_SAVE}, KEPT_ONE),
    word("follow-journal", b"applied 2..2\nnumber 2\nstatus 0\n", {**BOTH, **KEPT_ONE}, KEPT_BOTH),
    word("follow-merge", b"applied 2..2\nnumber 2\nstatus 0\n", {**BOTH, **KEPT_ONE}, MERGED),
    word("follow", b"applied 2..2\nnumber 2\nstatus 0\n", {**BOTH, **KEPT_ONE}, MERGED),
    word("lag", b"behind 1\nseconds 60\nstatus 0\n", {**BOTH, **KEPT_ONE}),
    word("show", b"number 1\n" + mirror(3, *ONE) + b"held 0\nstatus 0\n", KEPT_ONE),
    word("export-opl", b"status 0\n", KEPT_BOTH, {"b.opl": lines(NODE, WAY)}),
    word("export-o5m", b"status 0\n", KEPT_ONE, {"b.o5m": ONE_O5C.replace(b"o5c2", b"o5m2")}),
    begins_beside({**BASE_AND_STATE, **BEGUN, **OWN}),
    begins_beside({**BASE_AND_STATE, **SAVED, **OWN}),
    begins_beside({**BASE_AND_STATE, **KEPT_ONE, "save.journal": b"no journal\n"}),
    word("begin-opl", b"number 3\nstatus 0\n", {**BASE_AND_STATE, **KEPT_ONE}, BEGUN),
]

# The rows of a tally of the first sequence, and of both; and a folder without the changes of the second one.
HEAD_LINE = b"day,uid,user,created,modified,deleted,changesets"
FIRST_ROW, BOTH_ROW = (lines(HEAD_LINE, b"2024-01-01,5,ann,%d,0,0,1" % count) for count in (1, 2))
LOST = {name: data for name, data in BOTH.items() if name != "dir/000/000/002.o5c"}

RANGES = [
    word("changes-opl", b"changes 1..2: 2 objects\nstatus 0\n", BOTH, {"b.opl": lines(NODE, WAY)}),
    word("changes-o5c", b"changes 1..1: 1 objects\nstatus 0\n", WHOLE, {"b.o5c": ONE_O5C}),
    word("changes-opl", b"changes 1..1: 1 objects\nmissing 2\nstatus 1\n", LOST, {"b.opl": lines(NODE)}),
    word("tally", BOTH_ROW + b"status 0\n", BOTH),
    word("tally", FIRST_ROW + b"missing 2\nstatus 1\n", LOST)._replace(
        refused={OUT_OF_MEMORY: Refusal(), FIRST_ROW + OUT_OF_MEMORY: Refusal()}),
]

FILES = [
    word("replay", REPLIED + b"status 0\n", {}, given=ROW, script=ROW),
    word("publish", b"published 1\nstatus 0\n", CHANGES, WHOLE, is_part_published(CHANGES)),
    word("publish-as", b"published 1\nstatus 0\n", CHANGES, WHOLE, is_part_published(CHANGES)),
    word("begin-opl", b"number 3\nstatus 0\n", {"a.opl": lines(*PLENTY[0]), "state": state(3)}, begun(PLENTY[0])),
    word("begin-o5m", b"number 3\nstatus 0\n", {"a.o5m": DATA_FILE, "state": state(3), **SAVED}, begun(KINDS)),
    word("follow", b"applied 1..1\nnumber 1\nstatus 0\n", WHOLE, FOLLOWED),
    for_ways("follow", b"applied 1..1\nnumber 1\nstatus 0\n", WHOLE, ways_save(0, 1, (), *ONE[1:])),
    for_ways("follow", b"save: other filter\n", {**WHOLE, **SAVED}),
    for_ways("begin-opl", b"number 3\nstatus 0\n", {"a.opl": lines(*PLENTY[0]), "state": state(3)},
             ways_save(3, 3, (TAGGED,), (), ())),
    word("lag", b"behind 0\nseconds 0\nstatus 0\n", {"dir/state.txt": state(3), **SAVED}),
    show_word(show(3, *PLENTY), SAVED),
    word("export-opl", b"status 0\n", SAVED, {"b.opl": lines(*PLENTY[0])}),
    word("export-o5m", b"status 0\n", begun(KINDS), {"b.o5m": DATA_FILE}),
    word("convert", b"status 0\n", {"a.opl": OPL_FILE}, {"b.o5c": O5C_FILE}),
]

CASES = [*TEXTS, *VALUES, *FORMS, *MIRRORS, *LINES, *PUBLISHERS, *FOLLOWERS, *WORLDS, *SCRIPTS, *FILES,
         *RANGES, *JOURNALS]

# Calls that are tried under no memory at all: what they answer, and that they ask for none.
STILL = [
    ("texts", "Text::new", b"twenty-two-bytes-long!", b"twenty-two-bytes-long!\n", ()),
    ("texts", "Text::copy", b"", b"short\n", (("text", b"short"),)),
    ("values", "Change::copy", b"", lines(NODE), (("change", NODE),)),
    ("values", "Batch::copy", b"", b"", ()),
    ("values", "Filter::copy", b"", b"(false, true, false)\n", (("filter", b"w"),)),
    ("forms", "read_text", b"twenty-two-bytes-long!", b"twenty-two-bytes-long!\n", ()),
    ("forms", "Opl::read", b"", b"", ()),
    ("forms", "O5c::read", NONE_O5C, b"", ()),
    *[("mirrors", "head_read", text, b"1\n", ()) for text in (THIRD_VERSION, SECOND_VERSION, FIRST_VERSION)],
    ("mirrors", "head_read", WITH_A_BASE, b"2\n", ()),
    ("mirrors", "head_read", EMPTY, b"0\n", ()),
    ("mirrors", "head_read", FIRST_VERSION[:FIRST_VERSION.index(b"objects") + 3], b"1\n", ()),
    *[("mirrors", "head_read", text, b"BadHead { line: %d }\n" % line, ()) for text, line in (
        (b"osmrepl-save 1\nsequence 1\ntime none\n", 3), (b"osmrepl-save 1\nsequence 1\n", 3),
        (b"osmrepl-save 2\nsequence 1\n", 2), (b"osmrepl-save 2\nbase 2\nsequence 1\n", 3),
        (b"osmrepl-save 3\nbase 0\nsequence 1\n", 3))],
    ("mirrors", "save_read", EMPTY, b"done\n", ()),
    ("follower", "restart-from-nothing", b"", b"done\n", HOLDS),
    ("follower", "Follower::deliver::<Opl>", b"\0", b"BadState(MissingSequence)\n", ()),
    ("follower", "Follower::deliver::<Opl>", state(0) + b"\0", b"BadSequence\n", ()),
    ("follower", "Follower::deliver::<Opl>", delivery(1, b"no file"), b"Old\n", AT_FULL),
    ("follower", "Follower::deliver::<Opl>", delivery(3, b"no file"), b"Again\n", HOLDS),
    ("follower", "Follower::deliver::<Opl>", delivery(65, b"no file"), b"TooEarly\n", ()),
    ("follower", "Follower::deliver::<Opl>", delivery(1, b"no file"), b"Broken\n",
     (("Follower::restart", b"no save"),)),
    ("follower", "Follower::deliver::<Opl>", delivery(2, b""), b"Applied { low: 2, high: 2 }\n", AT_FULL),
    ("follower", "Follower::deliver::<O5c>", delivery(3, NONE_O5C), b"Held\n", AT_FULL),
]
