# shellcheck shell=sh
# The run command where it is installed.
# Read by tests/run_command with '.', which has the functions and names that are used here.

# An installation: it runs without the kit, takes the place of one before it, replaces no other file, and leaves nothing when it goes.
rm -rf "$work/prefix"
mkdir -p "$work/prefix/share/man"
(cd "$work" && exec "$OLDPWD/desk" install prefix) >"$work/printed" 2>"$work/said"
status=$?
ended 'an installation' 0 /dev/null ''
desk install "$work/prefix"
ended 'an installation in the place of another' 0 /dev/null ''
(cd / && exec env -i PATH=/usr/bin:/bin "$work/prefix/bin/desk" --explain "$OLDPWD/$a") >"$work/printed" 2>"$work/said"
status=$?
ended 'an installed desk judges' 1 "$a_out" ''
env -i PATH=/usr/bin:/bin "$work/prefix/bin/desk" show "$a" >"$work/printed" 2>"$work/said"
status=$?
ended 'an installed desk carries out another command' 0 "${a%.sheet}.txt" ''
versions >"$work/versions"
env -i PATH=/usr/bin:/bin "$work/prefix/bin/desk" --version >"$work/printed" 2>"$work/said"
status=$?
ended 'the version of an installed desk' 0 "$work/versions" ''
for part in share/man/man1/desk.1 share/bash-completion/completions/desk share/zsh/site-functions/_desk; do
    grep -q 'interval.* replay\|desk interval' "$work/prefix/$part"
    settle "the commands in $part" $?
done
desk uninstall "$work/prefix"
ended 'an installation taken away' 0 /dev/null ''
[ "$(cd "$work/prefix" && find . | sort | tr '\n' ' ')" = '. ./share ./share/man ' ]
settle 'what was there before an installation stays, and nothing else' $?
desk uninstall "$work/prefix"
troubled 'nothing to take away' 'nothing is installed'
mkdir "$work/prefix/bin"
echo other >"$work/prefix/bin/desk"
desk install "$work/prefix"
[ "$status" -eq 2 ] && grep -q 'is there already' "$work/said" && [ "$(cat "$work/prefix/bin/desk")" = other ] &&
    [ "$(cd "$work/prefix" && find . | sort | tr '\n' ' ')" = '. ./bin ./bin/desk ./share ./share/man ' ]
settle 'another file in the place of an installed one' $?
desk install
troubled 'install without a folder' 'install takes one word, PREFIX'
