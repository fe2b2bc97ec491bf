# shellcheck shell=sh
# What stands in the place of tools/machine.sh where the desk is installed: its programs are built, and run without the kit.

. tools/running.sh

programs=$PWD/programs

# Prints our version, and that of the kit that proved and built the programs.
versions() {
    cat tools/versions
}

# Nothing is left to build.
build_program() {
    :
}

# Becomes a program: judge or desk, WORDS.
become_program() {
    started=$programs/$1
    shift
    exec "$started" "$@"
}
