# shellcheck shell=bash disable=SC2154
# What ./install and ./package share: which program they take, and how files come to their places. They read it after
# tools/programs.bash.

# Ends the run with a line.
end() {
    echo "${0##*/}: $1" >&2
    exit "${2-3}"
}

# Puts a copy of the file $1, with the mode $2, in place of $3, as a whole.
put() {
    if ! { mkdir -p "${3%/*}" && cp "$1" "$3.new" && chmod "$2" "$3.new" && mv -f -T "$3.new" "$3"; }; then
        rm -f "$3.new"
        end "$3: write failed"
    fi
}

# Sets `program` to the one that is taken, and `version` to what it says of itself. $1 is `--unproved` if it may be one
# that is compiled without proof.
choose() {
    if [ "$1" = --unproved ] || [ -n "${OSMREPL_PROGRAMS-}" ]; then
        program=$(path_of osmrepl) || end "no program can be compiled (rt of the kit has to be on the path)"
    elif is_proved osmrepl; then
        program=$(proved_at osmrepl)
    else
        end "no program is proved of the sources as they are: ./osmrepl --prove proves one, \
./${0##*/} --unproved takes one without proof"
    fi
    version=$(env -i "$program" --version) || end "$program doesn't run"
    version=${version##* }
}

# Puts osmrepl-planet, its modules, and what Grafana and Prometheus take into the folder $1. The modules say the version
# of the program. `filled` is a temporary file.
put_planet() {
    local file
    put "$top/planet/osmrepl-planet" 755 "$1/osmrepl-planet"
    for file in "$top"/planet/osmrepl_planet/*.py; do
        sed "s/^VERSION = .*/VERSION = \"$version\"/" "$file" >"$filled" || end "$file: read failed"
        put "$filled" 644 "$1/osmrepl_planet/${file##*/}"
    done
    for file in dashboard.json alerts.yml; do
        put "$top/planet/$file" 644 "$1/$file"
    done
}
