# What the scripts that run rt have in common. They read this from the repository's root.

# The crates of the C forms, whose archives ./staticlib joins.
static_libraries() {
    sed -n 's/^\([a-z0-9_]*\) staticlib:.*/\1/p' crates.txt
}

# A crate and the libraries of crates.txt below it.
with_those_below() {
    awk -v wanted="$1" '
        /^[a-z]/ {
            name = $1
            sub(/:$/, "", name)
            sub(/^[^:]*:/, "")
            uses[name] = $0
        }
        function add(name,    i, n, use) {
            if (!(name in uses) || name in added) return
            added[name] = 1
            print name
            n = split(uses[name], use, " ")
            for (i = 1; i <= n; i++) add(use[i])
        }
        END { add(wanted) }' crates.txt
}

# A sum of all that a build of a crate reads: nothing is built again that has not changed.
state_of() {
    local crates
    mapfile -t crates < <(with_those_below "$1")
    {
        rt version
        for crate in "${crates[@]}"; do
            grep -E "^$crate( |:)" crates.txt
            find "crates/$crate/src" "crates/$crate/specs" "crates/$crate/proofs" -type f 2>/dev/null
        done
        find "${crates[@]/#/crates/}" -path '*/out' -prune -o -path '*/must-fail' -prune -o -type f -print0 |
            sort -z | xargs -0 sha256sum
    } | sha256sum
}

# Proves and builds a crate by a command of rt, and moves what that makes in out/ to FILE, unless FILE was made of the
# crate as it stands. What rt says goes to standard output.
#
#   up_to_date CRATE FILE COMMAND ..
up_to_date() {
    local crate=$1 file=$2 state
    shift 2
    state=$(state_of "$crate")
    if [ ! -f "$file" ] || [ "$(cat "$file.of" 2>/dev/null)" != "$state" ]; then
        rm -f "$file" "$file.of"
        mkdir -p "${file%/*}"
        (cd "crates/$crate" && "$@") && cp "crates/$crate/out/${file##*/}" "$file" || return
        # Of the files as they stand, if none of them changed meanwhile.
        if [ "$(state_of "$crate")" = "$state" ]; then echo "$state" >"$file.of"; fi
    fi
}

# Copies crates and those below them to another place, with what rt keeps of them, so that nothing is proved twice: rt
# follows no link out of a repository.
#
#   copy_to PLACE CRATE ..
copy_to() {
    local place=$1 crate part
    shift
    mkdir -p "$place/.git"
    for crate in $(for crate; do with_those_below "$crate"; done | sort -u); do
        mkdir -p "$place/crates/$crate/out"
        for part in src specs proofs; do
            if [ -d "crates/$crate/$part" ]; then cp -R "crates/$crate/$part" "$place/crates/$crate"; fi
        done
        # What was proved is replaced by rt, and never changed, so that a second name will do.
        if [ -d "crates/$crate/out/rlib" ]; then
            cp -Rl "crates/$crate/out/rlib" "$place/crates/$crate/out" 2>/dev/null ||
                cp -R "crates/$crate/out/rlib" "$place/crates/$crate/out"
        fi
        if [[ " $* " == *" $crate "* && -d crates/$crate/out/incremental ]]; then
            cp -R "crates/$crate/out/incremental" "$place/crates/$crate/out"
        fi
        grep -E "^$crate( |:)" crates.txt >>"$place/crates.txt"
    done
}
