# shellcheck shell=bash
# What the scripts of this folder share: finds the tools and folders, and builds the product's
# archive, the program and the driver. Sourced, not run. Exit status 2: something is missing.
compare=$(cd "$(dirname "${BASH_SOURCE[0]}")" && pwd)
root=$(dirname "$compare")

missing() {
    echo "compare: $1" >&2
    exit 2
}

# The folder of the original: a word of the command, or URATH_SRC, or the usual place.
find_source() {
    local folder=${1:-${URATH_SRC:-$root/../shared/docs/src}}
    for name in block chunk error noise terrain; do
        [ -f "$folder/crates/urath-core/src/$name.rs" ] ||
            missing "no crates/urath-core/src/$name.rs in '$folder': name the folder of the Rust original as the argument or in URATH_SRC"
    done
    URATH_SRC=$(cd "$folder" && pwd)
    export URATH_SRC
}

find_tools() {
    command -v rustc > /dev/null || missing "no rustc: a Rust compiler is needed to build the original"
    command -v cargo > /dev/null || missing "no cargo: a Rust compiler is needed to build the original"
    [ -n "${PERILLAHINGE_LIB:-}" ] || command -v rt > /dev/null || missing "no rt: the product's archive is built by 'hosts/build'"
}

# The log of a step, in a folder that is there.
log_of() {
    mkdir -p "$compare/target" || missing "no folder '$compare/target' can be made"
    echo "$compare/target/$1.log"
}

# A step that failed: the end of its log, and where the whole is.
failed() {
    tail -n 20 "$2" >&2
    missing "'$1' failed: $2 has it whole"
}

# Builds the archive, unless PERILLAHINGE_LIB names one that is there already.
build_product() {
    if [ -z "${PERILLAHINGE_LIB:-}" ]; then
        local log
        log=$(log_of staticlib) || exit 2
        "$root/hosts/build" > "$log" 2>&1 || failed hosts/build "$log"
        PERILLAHINGE_LIB=$root/target/host/lib/libperillahinge.a
    fi
    [ -f "$PERILLAHINGE_LIB" ] || missing "no archive '$PERILLAHINGE_LIB'"
    PERILLAHINGE_LIB=$(realpath "$PERILLAHINGE_LIB")
    export PERILLAHINGE_LIB
}

# Proves and builds the program that opens a map, unless OPENMAP names one that is there already.
build_openmap() {
    if [ -z "${OPENMAP:-}" ]; then
        local log
        command -v rt > /dev/null || missing "no rt: it builds the program, unless OPENMAP names one"
        log=$(log_of openmap) || exit 2
        (cd "$root/crates/openmap" && rt run < /dev/null) > "$log" 2>&1 || failed 'rt run of openmap' "$log"
        OPENMAP=$root/crates/openmap/out/openmap
    fi
    [ -x "$OPENMAP" ] || missing "no program '$OPENMAP'"
    OPENMAP=$(realpath "$OPENMAP")
    export OPENMAP
}

# Builds and runs the example hosts: 0 where all is right, 1 where a host failed, which is a difference.
run_hosts() {
    "$root/hosts/run" "$PERILLAHINGE_LIB"
    case $? in
    0) return 0 ;;
    1) return 1 ;;
    *) missing "an example host cannot be built" ;;
    esac
}

# Builds this driver, offline and for the baseline of the processor's family.
build_driver() {
    (cd "$compare" && env -u RUSTFLAGS cargo build --quiet --release --offline --bins) ||
        missing "the driver does not build"
}

# Tests the driver itself: the model against the scope's example and the reference model, that slips are found, and
# that the C interface is declared as the header has it. Then the original, with checks of overflow.
test_driver() {
    (cd "$compare" && unset RUSTFLAGS &&
        cargo test --quiet --release --offline \
            --test model --test idle --test marks --test mark_slips --test tally --test planes --test crowns --test seeds --test sizes --test header &&
        cargo test --quiet --profile checked --offline --test overflow)
}
