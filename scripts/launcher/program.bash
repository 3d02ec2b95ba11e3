# Which program wsc, wsl, wss, wso, install and release take. They set top, the folder that they stand in.
# shellcheck shell=bash disable=SC2154

# The kit that builds and proves the programs.
kit=rattle-kit-13b

# Says of which program all else here is meant, wsc, wsl, wss or wso. What is installed or packed lies in programs/.
choose() {
    own=$1
    placed=$top/programs/$own
    proved=$top/crates/$own/out/$own
    kept=$top/crates/$own/out/unproved
    proves=./prove
    [ "$own" = wsc ] || proves="./prove $own"
}
choose wsc

# Ends where there is no program to run, with the reason.
no_program() {
    echo "$own: $1" >&2
    exit 70
}

# Whether a program is there that was made of the sources as they are. A changed proof changes neither the program nor
# what was proved of it. Where no source is newer that is known; else the checksums that the build left tell, as where a
# fresh checkout got a program that was kept.
is_current() {
    local more=()
    [ -x "$1" ] || return 1
    [ -z "${WSC_PROVED-}" ] || more=("$top"/crates/*/proofs)
    [ -n "$(find "$top/crates.txt" "$top"/crates/*/src "$top"/crates/*/specs "${more[@]}" -type f -newer "$1" \
        -print -quit 2>/dev/null)" ] || return 0
    [ -f "$1.sources" ] || return 1
    if [ -n "${WSC_PROVED-}" ]; then
        [ "$(sums_of_sources)" = "$(<"$1.sources")" ] || return 1
    else
        [ "$(sum_of src specs)" = "$(head -n 1 "$1.sources")" ] || return 1
    fi
    touch "$1" 2>/dev/null || true
}

# The checksum of these parts of all crates and of crates.txt: names and contents.
sum_of() {
    local part folders=()
    for part; do
        folders+=("$top"/crates/*/"$part")
    done
    (cd "$top" && find crates.txt "${folders[@]#"$top"/}" -type f -print0 2>/dev/null | LC_ALL=C sort -z |
        xargs -0 sha256sum | sha256sum | cut -d ' ' -f 1)
}

# Of sources, and of sources with their proofs: what stands in PROGRAM.sources beside a program.
sums_of_sources() {
    sum_of src specs
    sum_of src specs proofs
}

# Finds the program, and builds one where there is none.
find_program() {
    program=$placed
    if [ -x "$program" ]; then
        installed
        return
    fi
    program=$proved
    ! is_current "$program" || return 0
    [ -z "${WSC_PROVED-}" ] || no_program "no proved program of these sources is there; $proves makes it"
    if ! is_current "$kept/$own" && ! { in_cache && is_current "$kept/$own"; }; then
        . "$top/scripts/launcher/build.bash"
        build "$own" link
    # Standard error also takes the words that a job gives to port 1, so a later call says so to a terminal alone.
    elif [ -t 2 ]; then
        echo "$own: this program is built without proof; $proves proves it" >&2
    fi
    program=$kept/$own
}

# Whether a program is there, proved or not, that need not be built; the variable program then names it.
is_built() {
    for program in "$placed" "$proved" "$kept/$own"; do
        ! is_current "$program" || return 0
    done
    return 1
}

# Whether that program is proved, in the words of VERSION.
proof_of() {
    local lines
    if [ "$program" != "$placed" ]; then
        [ "$program" != "$proved" ] || echo proved
        [ "$program" = "$proved" ] || echo "built without proof"
        return
    fi
    mapfile -t lines <"$top/VERSION"
    case $own in
    wsc) echo "${lines[1]}" ;;
    wsl) echo "${lines[2]}" ;;
    wss) echo "${lines[3]}" ;;
    *) echo "${lines[4]}" ;;
    esac
}

# Where the repository can't be written a program is kept in the user's cache; fails where it can.
in_cache() {
    local name
    ! { mkdir -p "$kept" && [ -w "$kept" ]; } 2>/dev/null || return 1
    name=$(CDPATH='' cd "$top" && pwd -P | cksum)
    kept=${XDG_CACHE_HOME:-${HOME:-/nonexistent}/.cache}/wsc/${name%% *}
}

# The commit of the sources.
commit_of() {
    git -C "$top" describe --always --dirty --abbrev=12 2>/dev/null || echo unknown
}

# What ./install has put beside this file is the program, proved or not, as VERSION says.
installed() {
    [ "$(proof_of)" != proved ] || return 0
    [ -z "${WSC_PROVED-}" ] || no_program "the program that is installed was built without proof"
    [ ! -t 2 ] || echo "$own: this program is built without proof" >&2
}

# Prints the version: the commit, whether the program is there and proved, and the kit.
version() {
    local commit proof
    if [ -f "$top/VERSION" ]; then
        commit=$(head -n 1 "$top/VERSION")
        program=$placed
        proof=$(proof_of)
    else
        commit=$(commit_of)
        proof="not built yet"
        [ -w "$top/crates/$own" ] || in_cache || true
        ! is_current "$kept/$own" || proof="built without proof"
        ! is_current "$proved" || proof=proved
    fi
    printf '%s %s, %s\nsources for %s\n' "$own" "$commit" "$proof" "$kit"
}
