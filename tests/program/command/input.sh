# shellcheck shell=sh
# What the run command reads: in pieces, through a pipe that does not block, with errors, typed at a terminal.
# Read by tests/run_command with '.', which has the functions and names that are used here.

# A log in pieces of odd lengths through a slow pipe, and a record one byte at a time.
in_odd_pieces() {
    perl -e '$| = 1; binmode STDIN; binmode STDOUT; my $size = 1; while (read STDIN, my $piece, $size) { print $piece; $size = ($size * 7 + 2) % 97 + 1; select undef, undef, undef, 0.01 }'
}
./desk replay examples/only_lowered_pass.sheet examples/relay_box.log >"$work/whole"
in_odd_pieces <examples/relay_box.log | ./desk replay examples/only_lowered_pass.sheet - >"$work/printed"
cmp -s "$work/printed" "$work/whole"
settle 'a log in pieces of odd lengths' $?
sed 's/^       3,     3/3,1/' examples/relay_box.txt | in_odd_pieces | ./desk write - "$work/lowered"
head -c 300 examples/relay_box.record | perl -e '$| = 1; binmode STDIN; while (read STDIN, my $byte, 1) { print $byte; select undef, undef, undef, 0.002 }' | ./desk check "$work/lowered" - >"$work/printed"
[ "$(cat "$work/printed")" = accepted ]
settle 'a record one byte at a time' $?

# Input in pieces through a pipe that does not block: the right answer, or an error and nothing printed.
answered=0
for turn in $(seq 300); do
    perl -e '
        use Fcntl;
        open my $sheet, "<", $ARGV[0] or die; binmode $sheet; local $/; my $bytes = <$sheet>;
        pipe my $from, my $to or die; my $child = fork;
        if (!$child) {
            close $from; my $cut = 1 + $ARGV[1] % 28;
            syswrite $to, substr($bytes, 0, $cut); select undef, undef, undef, ($ARGV[1] % 8) * 0.01;
            syswrite $to, substr($bytes, $cut); exit 0;
        }
        close $to; fcntl $from, F_SETFL, O_NONBLOCK or die; open STDIN, "<&", $from or die;
        my $ended = system @ARGV[2 .. $#ARGV]; waitpid $child, 0; exit $ended >> 8;
    ' "$a" "$turn" ./desk >"$work/printed" 2>"$work/said"
    status=$?
    if [ "$status" -eq 1 ]; then
        answered=$((answered + 1))
        ended "non-blocking input, turn $turn" 1 "$a_out" ''
    else
        troubled "non-blocking input, turn $turn" 'standard input: Resource temporarily unavailable'
    fi
done
echo "of 300 runs on a pipe that does not block $answered were answered, the others told of an error"

# Errors injected into each read: an interrupted one is tried again, another is told, and no part of a sheet is judged.
if [ "$way" != emulated ] && find_command strace strace && strace -o /dev/null true 2>/dev/null; then
    # Runs the program with its reads traced: FILE for what is traced, further words of strace.
    traced() {
        if [ "$way" = kit ]; then
            set -- "$@" "$toolchain/lib/ld-linux-x86-64.so.2" --library-path "$toolchain/lib"
        fi
        strace -e trace=read -o "$@" "$(program_of judge)"
    }
    reads=$(traced "$work/traced" <"$a" >/dev/null 2>&1; grep -c '^read(0,' "$work/traced")
    before=$(grep '^read(' "$work/traced" | grep -vc '^read(0,')
    for turn in $(seq "$reads"); do
        for error in EINTR EIO EAGAIN; do
            traced /dev/null -e inject=read:error=$error:when=$((before + turn)) <"$a" >"$work/printed" 2>"$work/said"
            if [ "$error" = EINTR ]; then
                cmp -s "$work/printed" "$a_out" && ! [ -s "$work/said" ]
            else
                ! [ -s "$work/printed" ] && grep -q 'desk: standard input: ' "$work/said"
            fi
            settle "$error at read $turn of the sheet" $?
        done
    done
    echo "errors were injected into each of $reads reads of a sheet"
else
    echo "NO ERRORS WERE INJECTED: strace cannot be had here, or the program runs under the emulator"
fi

# A pseudo-terminal: one Ctrl-D ends typed input, and a refusal is explained unasked.
if find_command script bsdutils; then
    : >"$work/printed"
    # shellcheck disable=SC2094
    (
        await grep -q 'Ctrl-D ends it' "$work/printed"
        printf '0\004'
        await grep -q 'fewer than 3 bytes' "$work/printed"
    ) | script -qefc ./desk /dev/null >"$work/printed" 2>/dev/null
    grep -q 'refused 1' "$work/printed" && grep -q 'fewer than 3 bytes' "$work/printed"
    settle 'typed input, one Ctrl-D' $?
fi
