# shellcheck shell=bash
# What ./hash and ./sheet share, for them to source.
#
#   run_program NAME CRATE      becomes the proved program of the crate. The first use proves and builds it, and so does the first after a change of
#                               the crates; how far that is, it says on standard error after NAME. Only the program writes to standard output
set -euo pipefail
here=$(dirname "$(readlink -f "${BASH_SOURCE[0]}")")
# shellcheck source=machine.sh
. "$here/machine.sh"

say() {
    echo "$name: $1" >&2 || true
}
fail() {
    say "$1"
    exit 1
}

# The files and folders that the program is made of; what rt keeps in a crate's out/ is none of them.
parts() {
    (cd "$here" && find crates.txt crates -name out -prune -o "$@" -print | LC_ALL=C sort)
}

# The mark has the names that were there when the build began.
current() {
    [ -x "$program" ] && [ -e "$mark" ] && [ -z "$(parts -type f -newer "$mark")" ] && [ "$(parts)" = "$(cat "$mark")" ]
}

# Of what rt says, that a crate is proved, which it says of those that have changed; crates.txt names all that the program is made of, callees first.
progress() {
    local speaker word part total=0
    local -A place
    for part in $(sed -n "s/^$crate://p" "$here/crates.txt") "$crate"; do
        [ ! -d "$here/crates/$part" ] || place[$part]=$((total += 1))
    done
    say "proving and building the program, $total crates: a few minutes, the first time and after a change"
    while read -r speaker word _; do
        case $speaker in
            crate) part=${word%:} ;;
            logic=proved) say "$part proved, ${place[$part]:-$total} of $total" ;;
        esac
    done
}

build() {
    command -v rt >/dev/null || fail "the Rattle kit's command rt is missing, and the program is not built"
    mkdir -p "$here/target"
    # One for all programs: what rt builds with is in one folder.
    exec 9>"$here/target/program.lock"
    flock -n 9 || {
        say "waiting for another call, which builds the program"
        flock 9
    }
    if current; then
        return
    fi
    # Made before the build, so that a change of the crates during it asks for another.
    parts >"$mark.new"
    # It also runs the program, on nothing, which is of no use here.
    (cd "$here/crates/$crate" && rt run) </dev/null 2>&1 >/dev/null | tee "$log" | progress || fail "the program could not be built; $log says why"
    # By a name that appears whole: a call of before may be running the program that is there.
    mkdir -p "$here/target/bin"
    cp "$here/crates/$crate/out/$crate" "$program.new"
    mv "$program.new" "$program"
    mv "$mark.new" "$mark"
}

run_program() { # NAME CRATE
    name=$1
    crate=$2
    program=$here/target/bin/$crate
    mark=$here/target/$name.built
    log=$here/target/$name.log
    needs emulator || fail "$missing"
    if ! current; then
        build
    fi
    exec "${run[@]}" "$program" 9>&-
}
