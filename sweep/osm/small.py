"""Small files and folders, arguments of runs and what they print, which several sweeps share."""

from osm.kept import journal_text
from osm.place import stamped
from osm.program import KEEP, MERGE
from osm.steps import prints
from osm.vectors import NODE, NODE_SET, WAY, WAY_SET, file_of


def at(minute):
    return f"2024-01-01T{minute // 60:02}:{minute % 60:02}:00Z"


def state(number, minute):
    return stamped(number, at(minute))


def lines(*texts):
    return b"".join(text + b"\n" for text in texts)


def counted(word, counts):
    """A list of counts of edits, as it stands in a save and is shown."""
    return f"{word} {len(counts)}\n" + "".join(f"{number} {edits}\n" for number, edits in counts)


def lists_of(objects, users, changesets):
    return (f"objects {len(objects)}\n" + lines(*objects).decode() + counted("users", users)
            + counted("changesets", changesets))


def save(number, time, objects=(), users=(), changesets=(), base=0, kinds="nwr", keys=()):
    """The text of a save at that number and time."""
    return (f"osmrepl-save 3\nbase {base}\nkinds {kinds}\nkeys {len(keys)}\n" + "".join(f"{key}\n" for key in keys)
            + f"sequence {number}\ntime {time}\n{lists_of(objects, users, changesets)}end\n").encode()


def shown(number, time, objects=(), users=(), changesets=(), base=0):
    """What is printed of it."""
    return (f"number {number}\n" + (f"base {base}\n" if base else "")
            + f"time {time}\n{lists_of(objects, users, changesets)}held 0\n")


def sequence(number, minute, form, changes):
    """The files of a sequence, with its changes in that form."""
    path = f"dir/000/000/{number:03}"
    return {f"{path}.state.txt": state(number, minute), f"{path}.{form}": changes}


def data_file_of(datasets):
    return file_of(datasets).replace(b"o5c2", b"o5m2")


ONE, ONE_O5C, ONE_O5M = lines(NODE), file_of(NODE_SET), data_file_of(NODE_SET)
NONE_O5C = file_of(b"")
TOP = "dir/state.txt"
PUBLISH = f"publish dir changes --now {at(0)}"
FOLLOW, LAG, SHOW = "follow dir save", "lag dir save", "show save"
# What the first publication writes, in this order.
WRITTEN = [("dir/000/000/001.o5c", ONE_O5C), ("dir/000/000/001.opl", ONE), ("dir/000/000/001.state.txt", state(1, 0)),
           (TOP, state(1, 0))]
# A folder of four empty sequences.
FOUR = {TOP: state(4, 3), **sequence(1, 0, "o5c", NONE_O5C), **sequence(2, 1, "o5c", NONE_O5C),
        **sequence(3, 2, "o5c", NONE_O5C), **sequence(4, 3, "o5c", NONE_O5C)}
LOST = ["dir/000/000/002.state.txt", "dir/000/000/002.o5c"]
# The same with nothing of the second and the third, and a right third one.
STATE_3, O5C_3, OPL_3 = (f"dir/000/000/003.{suffix}" for suffix in ("state.txt", "o5c", "opl"))
AFTER_A_LOSS = {name: content for name, content in FOUR.items() if name not in (*LOST, STATE_3, O5C_3)}
THIRD = {STATE_3: state(3, 2), OPL_3: b""}
SAVE_1 = save(1, at(0), [NODE], [(5, 1)], [(7, 1)])
SHOWN_1 = shown(1, at(0), [NODE], [(5, 1)], [(7, 1)])
EMPTY_SAVE, EMPTY_SAVE_4 = save(0, "none"), save(4, at(3))


def applied(*numbers, missing=(), number):
    """The report of a follower that took these numbers, and is at the last one."""
    return ("".join(f"applied {each}..{each}\n" for each in numbers)
            + "".join(f"missing {each}\n" for each in missing) + f"number {number}\n")


def prints_without_save(text, **more):
    """A follower that takes nothing and has no save: it writes none, and says how one is begun."""
    return prints(FOLLOW, text, **more).saying("osmrepl: save: not there\n")


def in_version_2(text):
    return text.replace(b"save 3", b"save 2").replace(b"kinds nwr\nkeys 0\n", b"")


SECOND_VERSION = in_version_2(SAVE_1)
FIRST_VERSION = SECOND_VERSION.replace(b"save 2\nbase 0", b"save 1")
EXTRACT = save(1, at(0), users=[(5, 1)], changesets=[(7, 1)], kinds="w", keys=["highway"])
BASES = {"state": state(1, 0), "a.opl": ONE, "a.o5m": ONE_O5M, "a.osm": ONE_O5M}
BEGUN_1, BEGUN_SHOWN_1 = save(1, at(0), [NODE], base=1), shown(1, at(0), [NODE], base=1)
BOB = b"n1 v2 dV c8 t2024-01-01T00:00:30Z i6 ubob T x1 y2"
DELETION = NODE.replace(b"dV", b"dD").replace(b"x1 y2", b"x y")
BEGUN_2 = {"save": save(2, at(1), base=2)}


def begin(base):
    return f"begin {base} state save"


BOTH = lines(NODE, WAY)
UNTAGGED = WAY.replace(b"v1", b"v2").replace(b"highway=path", b"")
FIRST = {TOP: state(1, 0), **sequence(1, 0, "opl", BOTH)}
SECOND = {TOP: state(2, 1), **sequence(2, 1, "opl", lines(UNTAGGED))}
HIGHWAYS = {"kinds": "w", "keys": ["highway"]}
EXTRACT_1 = save(1, at(0), [WAY], [(5, 2)], [(7, 2)], **HIGHWAYS)
FOLLOW_EXTRACT = f"{FOLLOW} highway --kinds w"
JOURNAL = "save.journal"
# Runs with these sizes.
KEEPS, MERGES = f"{FOLLOW} {KEEP}", f"{FOLLOW} {MERGE}"
BOB_O5C = file_of(b"\x10\x17\x02\x02\xbc\x82\x90\xd9\x0c\x10\x00\x06\x00bob\x00\x80\xda\xc4\x09\x80\xb4\x89\x13")
WAY_O5C = file_of(WAY_SET)
TO_1 = {TOP: state(1, 0), **sequence(1, 0, "opl", ONE)}
TO_2 = {**TO_1, TOP: state(2, 1), **sequence(2, 1, "opl", lines(BOB))}
TO_3 = {**TO_2, TOP: state(3, 2), **sequence(3, 2, "o5c", WAY_O5C)}
IN_2 = [BOB], [(5, 1), (6, 1)], [(7, 1), (8, 1)]
IN_3 = [BOB, WAY], [(5, 2), (6, 1)], [(7, 2), (8, 1)]
SAVE_2, SAVE_3, SHOWN_AT_2, SHOWN_AT_3 = save(2, at(1), *IN_2), save(3, at(2), *IN_3), shown(2, at(1), *IN_2), \
    shown(3, at(2), *IN_3)


def batch(number, data):
    return number, at(number - 1).encode(), data


def journal(text, *batches):
    """The journal of that save with these batches."""
    return journal_text(text, [batch(*each) for each in batches])


JOURNAL_2, JOURNAL_3 = journal(SAVE_1, (2, BOB_O5C)), journal(SAVE_1, (2, BOB_O5C), (3, WAY_O5C))
BESIDE_1 = {"save": SAVE_1, JOURNAL: JOURNAL_2}
OF_2 = journal(SAVE_2, (3, WAY_O5C))
# What a merge leaves beside its save: a journal that ends at the number of the save, or below.
OF_0 = journal(save(0, "none"), (1, NONE_O5C))
JOURNAL_FAILS = "save: journal: write failed"
WHOLE = "behind 0\nseconds 0\n"


def of_another(number):
    """The fault of a journal of another save that ends there."""
    return f"save: journal: of another save, at {number}"


DROPPED = "save: journal: dropped, at "


def drops(words, number, text, written):
    """A beginning that says to which number the journal went that it empties."""
    return prints(words, text, written).saying(f"osmrepl: {DROPPED}{number}\n")


BARE_WAY = b"w2 v1 dV c7 t2024-01-01T00:00:00Z i5 uann T Nn1"
OPL_2 = "dir/000/000/002.opl"
# Three sequences, the last two of them empty, and another second one, which deletes a node and makes one.
THREE = {TOP: state(3, 2), **sequence(1, 0, "opl", lines(NODE, BARE_WAY)), **sequence(2, 1, "opl", b""),
         **sequence(3, 2, "opl", b"")}
# What they leave, and a save of version 2 after the first of them.
UNEDITED_LISTS = [NODE, BARE_WAY], [(5, 2)], [(7, 2)]
OLD_1 = in_version_2(save(1, at(0), *UNEDITED_LISTS))
CHANGES, OPL_1, O5C_1 = "changes", "dir/000/000/001.opl", "dir/000/000/001.o5c"
STATE_1 = "dir/000/000/001.state.txt"
# A folder of one sequence, or of two, of which the first has the changes that are there.
AT_1 = {CHANGES: ONE, **dict(WRITTEN)}
AT_2 = {**AT_1, TOP: state(2, 1)}
OLDER, OLDER_STATE = "older than the number before it", "state: older than the data file"
# The time of the objects, and times before it.
NEWEST, DAY_BACK = "2024-01-01T00:00:00Z", "2023-12-30T23:00:00Z"
EIGHT_DAYS_BACK, FURTHER_BACK = "2023-12-24T00:00:00Z", "2023-12-23T23:59:59Z"


def timed(number, time, form="o5c", changes=NONE_O5C):
    """The files of a sequence of that time."""
    path = f"dir/000/000/{number:03}"
    return {f"{path}.state.txt": stamped(number, time), f"{path}.{form}": changes}
