# shellcheck shell=sh
# The file OUT that the run command writes: whole or as it was, a link, the system's, the input itself.
# Read by tests/run_command with '.', which has the functions and names that are used here.

# OUT: whole or as it was, and nothing left beside it.
rm -rf "$work/out"
mkdir "$work/out"
(umask 027 && ./desk write examples/relay_box.txt "$work/out/box")
[ "$(stat -c %a "$work/out/box")" = 640 ] && cmp -s "$work/out/box" examples/only_lowered_pass.sheet
settle 'a new file has the mode that the umask leaves' $?
cp "$a" "$work/out/box"
printf '300\n4 4 5\n' | ./desk write - "$work/out/box" >/dev/null 2>&1
[ $? -eq 2 ] && cmp -s "$work/out/box" "$a"
settle 'a refused text leaves the file as it was' $?
./desk mend "$work/out/box" "$work/out/box" && cmp -s "$work/out/box" "$a"
settle 'a sheet mended into itself' $?
(ulimit -f 0 && trap '' XFSZ && exec ./desk write examples/relay_box.txt "$work/out/box") >/dev/null 2>&1
cmp -s "$work/out/box" "$a" && [ "$(ls "$work/out")" = box ]
settle 'a file that cannot be written stays as it was' $?
if [ "$(id -u)" -eq 0 ]; then
    chmod 444 "$work/out/box"
    chmod 755 "$work/out"
    setpriv --reuid 65534 --clear-groups ./desk write examples/relay_box.txt "$work/out/box" >"$work/printed" 2>"$work/said"
    status=$?
    troubled 'a file that may not be written' 'box: Permission denied'
fi
mkfifo "$work/out/pipe"
cat "$work/out/pipe" >"$work/out/read" &
./desk write examples/relay_box.txt "$work/out/pipe" && wait "$!" && [ -p "$work/out/pipe" ] && cmp -s "$work/out/read" examples/only_lowered_pass.sheet
settle 'a pipe as OUT stays a pipe' $?
./desk write examples/relay_box.txt "$work/out/pipe" &
writer=$!
sleep 1
timeout 10 cat "$work/out/pipe" >"$work/out/read"
wait "$writer" && cmp -s "$work/out/read" examples/only_lowered_pass.sheet
settle 'a pipe as OUT waits for its reader' $?

# OUT that is a link: what it leads to is replaced, with its mode.
mkdir "$work/out/folder"
ln -s folder/real "$work/out/link"
ln -s link "$work/out/linked"
./desk write examples/relay_box.txt "$work/out/linked" && cmp -s "$work/out/folder/real" examples/only_lowered_pass.sheet
settle 'a link to a link to a file that is not there yet' $?
chmod 604 "$work/out/folder/real"
./desk mend "$a" "$work/out/linked" && cmp -s "$work/out/folder/real" "$a" && [ "$(stat -c %a "$work/out/folder/real")" = 604 ]
settle 'a replaced file has the mode of the one before it' $?
[ "$(readlink "$work/out/linked") $(readlink "$work/out/link")" = 'link folder/real' ] && [ "$(ls "$work/out/folder")" = real ]
settle 'links as OUT stay links, and nothing is left beside the file' $?
ln -s circle "$work/out/circle"
desk write examples/relay_box.txt "$work/out/circle"
troubled 'a link to itself' 'Too many levels of symbolic links'

# OUT that is the system's: written as it stands, and never replaced.
{ echo above && ./desk write examples/relay_box.txt /dev/stdout; } >"$work/printed" && { echo above && cat examples/only_lowered_pass.sheet; } | cmp -s - "$work/printed"
settle '/dev/stdout goes on where standard output stands' $?
ln -s /dev/stdout "$work/out/stdout"
./desk write examples/relay_box.txt "$work/out/stdout" | cmp -s - examples/only_lowered_pass.sheet && [ -L /dev/stdout ] && [ -L "$work/out/stdout" ]
settle 'a link to /dev/stdout' $?
desk write examples/relay_box.txt /dev/full
troubled '/dev/full' '/dev/full: No space left on device'
ln -s /dev/null "$work/out/null"
./desk write examples/relay_box.txt "$work/out/null" && [ -c /dev/null ] && [ -c /dev/full ]
settle 'a link to /dev/null, and the devices stay' $?
desk write examples/relay_box.txt /dev/no_such_device
troubled 'a device that is not there' 'no_such_device: No such file or directory'
head -c 65536 /dev/zero >"$work/out/disk"
if block=$(losetup -f --show "$work/out/disk" 2>/dev/null); then
    ./desk write examples/relay_box.txt "$block" && [ -b "$block" ] && head -c 39 "$block" | cmp -s - examples/only_lowered_pass.sheet
    settle 'a block device is written from its start' $?
    losetup -d "$block"
else
    echo "NO BLOCK DEVICE WAS WRITTEN: none can be had here"
fi

# OUT that is the input: refused, unless mend replaces it.
cp examples/relay_box.txt "$work/out/text"
ln "$work/out/text" "$work/out/same"
for out in text same; do
    desk write "$work/out/text" "$work/out/$out"
    troubled "a text as OUT, named $out" 'OUT is the file that is read'
done
# shellcheck disable=SC2094
desk write - "$work/out/text" <"$work/out/text"
troubled 'standard input as OUT' 'OUT is the file that is read'
cmp -s "$work/out/text" examples/relay_box.txt
settle 'the text stays as it was' $?

# What a killed run left is no obstacle, and a list that cannot be printed leaves OUT unwritten.
# shellcheck disable=SC2016
sh -c '. tools/machine.sh && echo left >"$0.new$$" && become_program desk status write examples/relay_box.txt "$0" 3>/dev/null' "$work/out/killed" &&
    cmp -s "$work/out/killed" examples/only_lowered_pass.sheet && [ "$(echo "$work"/out/killed*)" = "$work/out/killed" ]
settle 'a file that a killed run left beside OUT' $?
: >"$work/printed"
./desk mend tests/program/runs/refused_8_deadline_above_period.sheet "$work/out/mended" >/dev/full 2>"$work/said"
status=$?
troubled 'changes that cannot be printed' 'standard output: No space left on device'
! [ -e "$work/out/mended" ]
settle 'changes that cannot be printed are not made' $?
