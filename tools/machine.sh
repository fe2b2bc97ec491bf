# shellcheck shell=sh
# How the programs and the library are built and run, and how C is compiled for them. The kit is for x86-64; on another machine, where the
# system has to run it under an emulator, tools/native has it compile the same proved code for the machine itself.
# Read by the scripts of this repository with '.', from its root.

. tools/running.sh

command -v rt >/dev/null 2>&1 || give_up "the Rattle kit's command rt is not on the PATH; README.md names the kit that this repository needs"

top=$PWD
machine=$(uname -m)
# rt itself is not asked in each run: it takes as long as most commands do, and more memory
kit=$(dirname "$(dirname "$(readlink -f "$(command -v rt)")")")
toolchain=$kit/toolchain

# Our version, which the header has.
our_version() {
    sed -n 's/^#define FQ_VERSION "\(.*\)"$/\1/p' include/fidhaqooban.h
}

# Prints our version and the kit's.
versions() {
    echo "fidhaqooban $(our_version)"
    rt version </dev/null
}

# Runs a program: judge or desk, WORDS.
run_program() {
    (become_program "$@")
}

# The same in place of this shell.
become_program() {
    started=$top/$(program_of "$1")
    shift
    if [ "$way" = native ]; then
        exec "$started" "$@"
    else
        become_kits "$started" "$@"
    fi
}

# Becomes a program for x86-64, with the C library of the kit: PROGRAM, WORDS.
become_kits() {
    exec "$toolchain/lib/ld-linux-x86-64.so.2" --library-path "$toolchain/lib" "$@"
}

# Whether there is a C compiler for this machine, after it was installed from Debian's packages where it was missing and root asks.
find_c_compiler() {
    find_command gcc gcc libc6-dev
}

# Whether there is a command, after its packages were installed where it was missing and root asks: COMMAND, PACKAGES.
find_command() {
    wanted=$1
    shift
    command -v "$wanted" >/dev/null 2>&1 && return 0
    [ "$(id -u)" = 0 ] && command -v apt-get >/dev/null 2>&1 || return 1
    echo "$name: installing Debian's packages $*" >&2
    install_packages "$@" || { apt-get update && install_packages "$@"; } >/dev/null 2>&1
    command -v "$wanted" >/dev/null 2>&1
}

install_packages() {
    DEBIAN_FRONTEND=noninteractive apt-get install -y "$@" >/dev/null 2>&1
}

# Compiles C against the library: OUTPUT, then sources and flags.
compile_c() {
    c_output=$1
    shift
    gcc -std=c11 -Wall -Wextra -Werror -O2 -static -Iinclude -o "$c_output" "$@" "$library"
}

# The mark that a build of a file leaves: FILE.
mark_of() {
    echo "target/$(echo "$1" | tr / .).built"
}

# Whether a file was built by this kit from the crates as they stand: only a build that went through leaves its mark.
is_built() {
    mark=$(mark_of "$1")
    [ -e "$1" ] && [ -e "$mark" ] && [ "$(cat "$mark")" = "$(cat "$kit/KIT-ID")" ] && [ -z "$(find crates.txt crates/*/src crates/*/specs crates/*/proofs -newer "$mark" -print 2>/dev/null | head -n 1)" ]
}

# Proves and builds what is not built yet: FILE, then the command that makes it, whose last word is the crate. One build goes on at a time,
# under a lock that is let go when its holder ends.
build() {
    built=$1
    shift
    is_built "$built" && return 0
    if ! (mkdir -p target && : >target/lock) 2>/dev/null; then
        give_up "the folder $PWD is not writable, and $built has still to be built there"
    fi
    exec 9>target/lock
    flock -n 9 || echo "$name: waiting for another build in $PWD" >&2
    flock 9 &
    attend "$!"
    is_built "$built" || make_built "$@"
    exec 9>&-
}

# Marks what the kit's gate built, the programs, from the crates as they stood when a copy of the kit's version was made: FILE.
mark_programs() {
    mkdir -p target
    for program in judge desk; do
        cp -p "$1" "$(mark_of "$(kits_program "$program")")"
    done
}

# The build itself, in a session of its own so that its processes can be ended together.
make_built() {
    echo "$name: proving and building $built, which takes some minutes the first time" >&2
    rm -f "$mark"
    cp "$kit/KIT-ID" target/building
    : >target/build.log
    setsid "$@" >>target/build.log 2>&1 </dev/null 9>&- &
    building=$!
    shift "$(($# - 1))"
    tell_progress "$building" "$1" </dev/null 9>&- &
    telling=$!
    ended=0
    attend "-$building" || ended=$?
    wait "$telling" || :
    if [ "$ended" -ne 0 ]; then
        tail -n 5 target/build.log >&2
        give_up "$built could not be proved and built; $PWD/target/build.log says why"
    fi
    mv target/building "$mark"
}

# Tells of each crate that the build's log says is proved, as it comes: which, how many of how many, the seconds. PROCESS that builds, CRATE.
tell_progress() {
    all=$(crates_below "$2" | wc -l)
    told=0
    tail -n +1 -f -s 0.2 --pid="$1" target/build.log | while IFS= read -r line; do
        case $line in
        'built: '*' proved ('*)
            told=$((told + 1))
            crate=${line#built: }
            took=${line##*\(}
            echo "$name: ${crate%% *} proved ($told of $all, ${took%)})" >&2
            ;;
        esac
    done
}

# The crates of this repository that a crate stands on, itself with them, lowest first: CRATE.
crates_below() {
    awk -F: -v crate="$1" '
        function visit(one, words, word, count) {
            if (!(one in needs) || seen[one]++) return
            count = split(needs[one], words, " ")
            for (word = 1; word <= count; word++) visit(words[word])
            print one
        }
        { sub(/#.*/, "") }
        NF > 1 { sub(/ .*/, "", $1); needs[$1] = $2 }
        END { visit(crate) }
    ' crates.txt
}

# Where the kit builds a program: NAME.
kits_program() {
    echo "crates/$1/out/$1"
}

# What is built, and the way in which it is run: on x86-64 as the kit builds it; elsewhere natively, as tools/native makes it, or, where no
# C compiler can be had to link that, the kit's program under the system's emulator.
way=native
if [ "$machine" = x86_64 ]; then
    way=kit
elif ! find_c_compiler; then
    way=emulated
fi
if [ "$way" = native ]; then
    maker=tools/native
    library=target/native/libfidhaqooban.a
    program_of() { echo "target/native/$1"; }
else
    maker=tools/prove
    library=crates/fidhaqooban/out/libfidhaqooban.a
    program_of() { kits_program "$1"; }
fi
build_program() { build "$(program_of "$1")" "$maker" "$1"; }
build_library() { build "$library" "$maker" fidhaqooban; }
