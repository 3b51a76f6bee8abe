"""The public functions of the libraries, as their sources declare them, and those that take no memory."""

import re

# The libraries, lowest first.
LIBRARIES = ("osm_model osm_reading osm_opl osm_o5c osm_state osm_holding osm_mirror osm_save osm_publisher osm_follow "
             "osm_world osm_script osm_words osm_repl").split()
MODULE = re.compile(r"^pub mod (\w+);", re.MULTILINE)
BLOCK = re.compile(r"impl(?:<.*?>)? (?:(\w+)(?:<[^>]*>)? for )?(\w+)")
FUNCTION = re.compile(r"( *)(pub )?(?:const |unsafe )*fn (\w+)")
TRAIT = re.compile(r"^pub trait (\w+)", re.MULTILINE)

# A value is taken apart, made of parts that it gets, or looked up; a number is read or written in place; or nothing is
# done at all, by those that begin with `laws`.
TAKE_NO_MEMORY = set("""
    Batch::new Batch::within_limits Batch::limits Batch::changes Batch::into_changes check_next first_fault
    Change::node Change::way Change::relation Change::deleted Change::limits Change::key Change::meta
    Change::is_deletion Change::what
    Filter::all Filter::new Filter::keeps Filter::keeps_node Filter::limits Filter::nodes Filter::ways Filter::relations
    Filter::chooses Filter::keys
    FlatTag::within_limits FlatTag::key FlatTag::value
    Tag::limits Member::limits i64::limits i64::copy Parts::new Parts::from_vec Parts::as_slice
    Meta::new Meta::limits Meta::version Meta::time Meta::changeset Meta::uid Meta::user
    Text::as_str Text::limits time_read time_write
    split_line is_skipped_line cut cut_near sequence_read line_key written_key write_whole
    flat_line first_tag first_ref first_member LastTime::new
    Counters::new Counters::member Counters::set_member unsigned part positive signed id positive_sum longitude latitude
    FileString::new FileString::of_text FileString::as_slice FileString::copy FileString::is_known_text
    StringTable::new StringTable::clear StringTable::get StringTable::len Reader::new Reader::reset Buffers::new
    State::reset ChangeFile::check_next ChangeFile::laws DataFile::check_next DataFile::laws
    path_number State::new State::sequence State::time state_read
    HoldingArea::reached HoldingArea::is_held HoldingArea::hold HoldingArea::take_next HoldingArea::advance
    HoldingArea::reset
    Counts::new Counts::get Counts::len Counts::iter Counts::limits
    Mirror::new Mirror::limits Mirror::from_parts Mirror::objects_by_key Mirror::user_counts
    Mirror::changeset_counts Mirror::get Mirror::user_count Mirror::changeset_count
    next_line fixed_line numbered_line line_number read_number read_count is_key_above is_number_above is_text_above
    objects_limit
    Objects::new Objects::get Objects::len Objects::iter Objects::limits
    Publisher::new Publisher::resume Publisher::number Publisher::pending Publisher::take Publisher::check_close
    Published::number Published::state Published::o5c Published::opl
    Follower::is_broken Follower::filter Follower::number Follower::base Follower::time Follower::get
    Follower::user_count Follower::changeset_count Follower::is_held Follower::lag lag_from
    View::new View::number View::base View::time View::objects View::into_objects View::users View::changesets
    View::held
    World::publisher World::follower World::published
    ending_of_error ending_of_unread ending_of_fault ending_of_script ending_of_refusal
    is_ahead check_sizes lock_of written_by others_of named_twice Notes::new
    Refusal::status hint_of is_of_content look_of line_of_field stream_of
    Order::dir Order::save Order::with_save Order::base Order::changes Order::now Order::input Order::output
    Opl::laws O5c::laws laws_of_content laws_of_filters laws_of_texts laws_of_opl laws_of_data laws_of_o5c laws_of_state
    laws_of_holding
    laws_of_mirrors laws_of_saves laws_of_heads laws_of_deliveries laws_of_restarts laws_of_beginnings laws_of_runs
    laws_of_replies laws_of_histories laws_of_progress laws_of_archives laws_of_views laws_of_order laws_of_replays
""".split())

# These want a key or a number above all others, or are a part of a save text or of a file of datasets, or write the same
# as another one up to a bound. They are tried by a call of the whole.
TRIED_BY = {"Objects::push": "save_read", "Counts::push": "save_read", "Counts::add": "Counts::add_one",
            "read_head": "save_read",
            "read_objects": "save_read", "read_object": "save_read", "read_written": "save_read",
            "read_counts": "save_read",
            "write_head": "save_write", "write_objects": "save_write", "write_object": "save_write",
            "write_time_line": "save_write",
            "write_counts": "save_write", "write_count": "save_write", "write_number": "save_write",
            "push_shown": "echoes", "echo_of": "echoes", "write_held": "write_view",
            "Reader::next": "read_data", "StringTable::push": "read_data", "StringTable::pair": "read_data",
            "StringTable::single": "read_data", "text": "read_data", "read_changes": "read_data",
            "Writer::new": "O5c::write", "Writer::write_change": "O5c::write", "write_changes": "O5c::write",
            "O5c::write_within": "O5c::write",
            "name_or_enter": "O5c::write", "write_coordinate": "O5c::write", "write_difference": "O5c::write",
            "write_pair": "O5c::write", "write_single": "O5c::write", "write_unsigned": "O5c::write",
            "write_meta_parts": "O5c::write", "write_reference": "O5c::write", "write_member_parts": "O5c::write",
            "Writer::write_reset": "O5c::write", "Writer::write_content": "O5c::write"}

# What is said of a fault, if there is memory for it: the sweep over causes tries it. A new table of strings for a writer
# that has more than 65,536 of them: the sweep over large saves does. The first save of a follower, and the lines of a save
# that is merged: the sweep over refused growths does, by runs that follow. A dataset of a data file, and a node that
# isn't built and its line: the same sweep does, by beginnings. The path of a file of a run: it does so too, by each word.
TRIED_ELSEWHERE = {"field_text", "hint_of_times", "path_of_file", "Writer::forget_old", "save_write_left", "checked_key",
                   "Reader::dataset", "Reader::flat_node", "write_flat_node"}


def name_of(call):
    """The function that a command of the program calls: without its type, and without words after it."""
    return re.sub(r"::<\w+>$", "", call).split("-")[0]


def modules(crates):
    """The sources of the public modules."""
    for crate in LIBRARIES:
        source = crates / crate / "src"
        for module in MODULE.findall((source / "lib.rt").read_text()):
            yield (source / f"{module}.rt").read_text()


def functions_of(source, traits):
    """The public functions of a module: free ones, those of a type, and those of a type by one of the traits."""
    owner, is_public = None, False
    for line in source.split("\n"):
        if block := BLOCK.match(line):
            owner, is_public = block[2], block[1] in traits
        elif line == "}":
            owner = None
        elif function := FUNCTION.match(line):
            if not function[1] and function[2]:
                yield function[3]
            elif len(function[1]) == 4 and owner and (function[2] or is_public):
                yield f"{owner}::{function[3]}"


def surface(crates):
    """The public functions of all libraries, but for those of a trait of std, which compare, convert or show."""
    sources = list(modules(crates))
    traits = {trait for source in sources for trait in TRAIT.findall(source)}
    return {name for source in sources for name in functions_of(source, traits)}
