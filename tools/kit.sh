# Sourced by `try`, `test`, `build`, `.ci/run` and the benches: the kit that README.md names, the crates below a crate, sums of the
# sources, and how many checks go side by side. It sets `top`, the top of the repository, and goes to no other folder.
top=$(cd "$(dirname "$(realpath "${BASH_SOURCE[0]}")")/.." && pwd)

# The kit that README.md names, as `rt version` prints it.
wanted_kit() {
    grep -o -m 1 'rattle-kit-[0-9a-z]* logic [0-9a-f]*' "$top/README.md"
}

# Sets `kit`, the folder of the kit, and `kit_found`, its name. It ends in 2 where there is no `rt`; it warns, and returns 1, where
# `rt` is of another kit than README.md names. Both say the remedy.
require_kit() {
    local wanted
    wanted=$(wanted_kit)
    if ! command -v rt > /dev/null; then
        echo "no rt on the path: unpack the kit that README.md names, $wanted, and run this again with PATH=KIT/bin:\$PATH" >&2
        exit 2
    fi
    kit=$(dirname "$(dirname "$(realpath "$(command -v rt)")")")
    kit_found=$(rt version)
    [ "$kit_found" = "$wanted" ] && return 0
    echo "rt is of the kit $kit_found, and README.md names $wanted: put bin/ of that one first on the path" >&2
    return 1
}

# The names of the given crates and of those of this repository below them, a line each: crates_below CRATE..
crates_below() {
    local -A seen
    local left=("$@") crate
    while [ ${#left[@]} -gt 0 ]; do
        crate=${left[0]}
        left=("${left[@]:1}")
        [ -d "$top/crates/$crate" ] && [ -z "${seen[$crate]:-}" ] || continue
        seen[$crate]=yes
        echo "$crate"
        left+=($(sed -n "s/^$crate: *//p" "$top/crates.txt"))
    done
}

# Copies what a proof of these crates reads, and of those below them, to a folder, which then is the top of a repository, with
# nothing that earlier runs left and no must-fail edits: copy_below FOLDER CRATE..
copy_below() {
    local folder=$1 crate
    shift
    mkdir -p "$folder/.git" "$folder/crates" && cp "$top/HANDLES" "$folder" || return
    for crate in $(crates_below "$@"); do
        grep "^$crate:" "$top/crates.txt" >> "$folder/crates.txt" || return
        tar -C "$top" -cf - --exclude="crates/$crate"/{out,must-fail,wrong-bodies} "crates/$crate" | tar -C "$folder" -xf - || return
    done
}

# A sum over the files at or below these paths from the top, and the kit, in one line: sum_of PATH..
sum_of() {
    (cd "$top" && { echo "${kit_found:-$(rt version)}"; find "$@" -type f -print0 | LC_ALL=C sort -z | xargs -0 sha256sum; } |
        sha256sum | cut -d ' ' -f 1)
}

# The sum of all that a proof of this repository reads, in one line.
sources_sum() {
    (cd "$top" && shopt -s nullglob && sum_of HANDLES crates.txt crates/*/{src,specs,proofs})
}

# The path of the program that `./build` made, or status 1 where it isn't there or a source has changed since.
proved_program() {
    local program=$top/crates/ipmd/out/ipmd
    [ -x "$program" ] && [ "$(cat "$program.sources" 2> /dev/null)" = "$(sources_sum)" ] && echo "$program"
}

# How many checks, or tests, go side by side: as many as there are processors, and as the free memory holds, where each takes at
# most so many GB: lanes GB
lanes() {
    awk -v most="$(nproc)" -v each="$1" '/^MemAvailable:/ {
        found = int($2 / (each * 1000000))
        if (found > most) found = most
        print (found > 0 ? found : 1)
    }' /proc/meminfo
}
