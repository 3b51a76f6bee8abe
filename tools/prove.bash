# shellcheck shell=bash disable=SC2154
# How the program is proved and built: each crate by rt, after those that it depends on, and as many at the same time as
# the machine has room for. ./osmrepl reads it, after tools/programs.bash.

# How many crates are proved at the same time: one for each processor and each 3 GB of memory.
most_at_once() {
    local processors memory
    processors=$(nproc)
    memory=$(awk '/^MemAvailable:/ { print int($2 / 3000000) }' /proc/meminfo)
    [ "$memory" -lt "$processors" ] && processors=$memory
    echo $((processors > 0 ? processors : 1))
}

# The jobs of a crate, if that many can be worked on. rt by itself takes four for each where many crates wait, which costs
# half as much again, and one for each of the large ones at the end, beside idle processors.
jobs_among() {
    local jobs=1
    [ "$1" -ge 4 ] || jobs=2
    [ "$1" -ge 3 ] || jobs=4
    echo $((jobs < most ? jobs : most))
}

# Copies a crate into a folder, with links to its files if the file system has links.
link() {
    cp -al "$top/crates/$1" "$2" 2>/dev/null || cp -a "$top/crates/$1" "$2"
}

# Proves and builds one crate with that many jobs, a library or the program; the others are all that it depends on. While
# rt works it keeps others out of these too, so each crate is built in a place of its own. Its status is in the file
# NAME.status when it ends.
build() {
    local jobs=$1 name=$2 place=$work/$2 below words=(lib --jobs "$1")
    [ "$name" != osmrepl ] || words=(run --jobs "$jobs" -- --version)
    {
        mkdir -p "$place/crates" &&
            awk -v names=" ${*:2} " -F '[ :]' 'index(names, " " $1 " ")' "$top/crates.txt" >"$place/crates.txt" &&
            for below in "${@:3}"; do link "$below" "$place/crates" || break; done &&
            cp -a "$top/crates/$name" "$place/crates" &&
            (cd "$place/crates/$name" && rt "${words[@]}" </dev/null) &&
            rm -rf "$top/crates/$name/out" && mv "$place/crates/$name/out" "$top/crates/$name"
    } >"$work/$name.log" 2>&1
    echo $? >"$work/$name.status"
    rm -rf "$place"
}

stop_builds() {
    local pid
    set +m
    for pid in "${!building[@]}"; do
        kill -- -"$pid" 2>/dev/null
    done
    [ -z "$ticking" ] || kill "$ticking" 2>/dev/null
}

# Whether all the crates of a list are built.
are_built() {
    local name
    for name in "$@"; do
        [ "${built[$name]-}" = yes ] || return 1
    done
}

# Starts what can be built now, as far as `most` allows. `left` has a line for each crate that isn't started.
start_builds() {
    local line name below able=() rest=() jobs
    for line in "${left[@]}"; do
        read -r name below <<<"$line"
        # shellcheck disable=SC2086
        if are_built $below; then able+=("$line"); else rest+=("$line"); fi
    done
    jobs=$(jobs_among $((${#building[@]} + ${#able[@]})))
    left=("${rest[@]}")
    for line in "${able[@]}"; do
        read -r name below <<<"$line"
        if [ "${#building[@]}" -lt "$most" ]; then
            # shellcheck disable=SC2086
            build "$jobs" "$name" $below {lock}>&- &
            building[$!]=$name
            begun[$name]=$SECONDS
        else
            left+=("$line")
        fi
    done
}

# Takes note of the builds that ended; the first that failed is shown whole, and the others are stopped.
end_builds() {
    local pid name
    for pid in "${!building[@]}"; do
        name=${building[$pid]}
        # one that is gone without a status was killed
        if [ ! -s "$work/$name.status" ] && kill -0 "$pid" 2>/dev/null; then
            continue
        fi
        unset "building[$pid]"
        if [ "$(cat "$work/$name.status" 2>/dev/null)" != 0 ]; then
            [ ! -t 2 ] || echo >&2
            cat "$work/$name.log" >&2
            echo "osmrepl: $name isn't proved, so the program isn't built" >&2
            exit 3
        fi
        built[$name]=yes
    done
}

# That many seconds, as people say it.
duration() {
    if [ "$1" -lt 60 ]; then echo "$1 s"; else echo "$(($1 / 60)) min"; fi
}

# Says that so many crates are proved, and which are at work. On a terminal the line takes the place of the one before it,
# and has to fit.
show_progress() {
    local name at_work=() line width
    for name in "${building[@]}"; do
        at_work+=("$name $(duration $((SECONDS - begun[$name])))")
    done
    line="osmrepl: $1 of $total proved, ${#building[@]} at work"
    [ "${#at_work[@]}" = 0 ] || line+=" ($(printf '%s\n' "${at_work[@]}" | paste -sd , | sed 's/,/, /g'))"
    line+=", $(duration $((SECONDS - start))) so far"
    if [ -t 2 ]; then
        width=$(stty size 2>/dev/null <&2) && width=${width#* }
        # some terminals say that they have none
        [ "${width:-0}" -gt 1 ] || width=80
        printf '\r%s\033[K' "${line:0:$((width - 1))}" >&2
    else
        echo "$line" >&2
    fi
}

# Elsewhere there is a line for each crate that ended.
show_ended() {
    while [ ! -t 2 ] && [ "$shown" -lt "${#built[@]}" ]; do
        shown=$((shown + 1))
        show_progress "$shown"
    done
}

# Waits for a build to end, or on a terminal for a while, after which the line is shown anew.
wait_for_build() {
    show_ended
    if [ -t 2 ]; then
        show_progress "${#built[@]}"
        if [ -z "$ticking" ] || ! kill -0 "$ticking" 2>/dev/null; then
            sleep 5 {lock}>&- &
            ticking=$!
        fi
    fi
    wait -n
}

prove_all() {
    local -A building=() built=() begun=()
    local most total left start=$SECONDS shown=0 ticking='' work
    clear_left "$top/out/build".*
    # on the file system of the crates, so that their files can be linked
    work=$(mktemp -d "$top/out/build.XXXXXX") || exit 3
    trap 'stop_builds; rm -rf "$work"' EXIT
    trap 'exit 130' INT
    trap 'exit 143' TERM HUP
    touch "$work/begun" || exit 3
    # each build is a process group of its own, which can be stopped whole
    set -m
    most=$(most_at_once)
    mapfile -t left < <(crates_of osmrepl)
    total=${#left[@]}
    while [ "${#left[@]}" -gt 0 ] || [ "${#building[@]}" -gt 0 ]; do
        start_builds
        wait_for_build
        end_builds
    done
    show_ended
    [ ! -t 2 ] || { show_progress "$total" && echo >&2; }
    stop_builds
    touch -r "$work/begun" "$(proved_at osmrepl)"
    text_of "$(proved_at osmrepl)" yes "$(version_of "$(kit_on_path)")" >"$(proved_at osmrepl).txt"
    rm -rf "$work"
    trap - EXIT INT TERM HUP
}

# Proves and builds the program, unless it is up to date. If two do so at once, the second waits, and finds it.
prove() {
    local lock
    mkdir -p "$top/out" && exec {lock}>"$top/out/prove.lock" || exit 3
    if ! flock -n "$lock"; then
        echo "osmrepl: another run proves the program, and this one waits for it" >&2
        flock "$lock"
    fi
    if ! is_proved osmrepl; then
        echo "osmrepl: the program is proved before it is built, which takes the better part of an hour the first time" >&2
        prove_all
    fi
    exec {lock}>&-
}
