# Making what is built by rt, and what is said of it meanwhile: for preview and package. Source it; `root` is the repository's folder.

# needed CRATE: it, and all crates of the repository that it stands on, each once, in the order in which rt makes them: each after its own.
needed() {
    awk -v wanted="$1" '
        function visit(name,    below, n, k) {
            if (!(name in on) || seen[name]++) return
            n = split(on[name], below, " ")
            for (k = 1; k <= n; k++) visit(below[k])
            print name
        }
        /^[^#]/ { sub(/ +staticlib *:/, ":"); name = $1; sub(":", "", name); $1 = ""; on[name] = $0 }
        END { visit(wanted) }' "$root/crates.txt"
}

# say_progress WHO CRATE..: reads what rt prints while it makes these, in this order, and says of each that it is proved, how long that took, and
# how many are left: on a terminal one line that is rewritten, else a line each. Of a crate that had not changed rt says nothing.
say_progress() {
    local who=$1 name='' line began form='%s\n'
    local -A left
    shift
    while [ $# -gt 0 ]; do
        left[$1]=$(($# - 1))
        shift
    done
    [ ! -t 2 ] || form='%-60s\r'
    while IFS= read -r line; do
        if [[ $line =~ ^rt:\ chose\ --jobs\ [0-9]+\ for\ ([a-z0-9_]+)$ ]]; then
            name=${BASH_REMATCH[1]} began=$SECONDS
        elif [[ $line == 'logic=proved '* && -n ${left[${name:-.}]-} ]]; then
            printf "$form" "$who: $name is proved ($((SECONDS - began)) s), ${left[$name]} left" >&2
            name=
        fi
    done
    [ ! -t 2 ] || printf "$form" '' >&2
}

# is_made FILE: it is there, and no source is newer.
is_made() {
    [ -e "$1" ] && [ -z "$(find "$root/crates" "$root/crates.txt" -path "$root/crates/*/out" -prune -o -type f -newer "$1" -print -quit)" ]
}

# in_crate CRATE VERB: rt, in the crate's folder. A program that it runs reads nothing.
in_crate() {
    (cd "crates/$1" && rt "$2" </dev/null)
}

# make_file WHO FILE CRATE COMMAND..: FILE, by a command, in the repository's folder, that has rt prove the crate and what it stands on. Says what
# is proved and how long that took; returns 1 where it fails, and says all that the command said. What is there and new enough stays. Works in
# the folder `work`.
make_file() {
    local who=$1 file=$2 crates status began=$SECONDS
    mapfile -t crates < <(needed "$3")
    shift 3
    ! is_made "$file" || return 0
    command -v rt >/dev/null || { echo "$who: the Rattle kit is not installed: there is no command rt" >&2; return 1; }
    echo "$who: ${file##*/} is made first: ${#crates[@]} crates, proved where they are new or changed; from nothing that takes minutes" >&2
    : >"$work/began"
    (cd "$root" && "$@") 2>&1 | tee "$work/log" | say_progress "$who" "${crates[@]}"
    status=${PIPESTATUS[0]}
    if [ "$status" -ne 0 ] || [ ! -e "$file" ]; then
        cat "$work/log" >&2
        return 1
    fi
    # where nothing that the file stands on had changed, it was not written again
    touch -r "$work/began" "$file"
    echo "$who: all is proved and ${file##*/} made, in $((SECONDS - began)) s" >&2
}
