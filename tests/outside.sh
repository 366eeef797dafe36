#!/bin/sh
# Runs the program on the real system, where files and streams fail: prints a line for each case, and exits 1 where one fails.
root=$(cd "$(dirname "$0")/.." && pwd)
model=$root/crates/spudd/stdin
result=$root/crates/spudd/stdout

spudd() {
    "$root/spudd" "$@"
}

spudd --version >/dev/null || exit 1

scratch=$(mktemp -d)
trap 'rm -rf "$scratch"' EXIT
output=$scratch/output
errors=$scratch/errors
wanted=$scratch/wanted
mkdir "$scratch/here" "$scratch/here/folder"
cd "$scratch/here" || exit 1
cp "$model" model
cp "$model" unreadable
chmod 000 unreadable
files=$(ls -A)
failed=0

# verdict CASE STATUS MESSAGE TEXT FOUND: compares the status that was found, the message on standard error, and standard output with the file TEXT.
# The command leaves no file.
verdict() {
    if [ -n "$3" ]; then printf '%s\n' "$3"; fi >"$wanted"
    if [ "$5" -ne "$2" ]; then
        found="status $5 in place of $2"
    elif ! cmp -s "$errors" "$wanted"; then
        found="message: $(cat "$errors")"
    elif ! cmp -s "$output" "$4"; then
        found="output: $(cat "$output")"
    elif [ "$(ls -A)" != "$files" ]; then
        found="files: $(ls -A)"
    else
        echo "ok      $1"
        return
    fi
    echo "FAILED  $1: $found"
    failed=1
}

# fails CASE STATUS MESSAGE COMMAND: the command writes nothing, and ends with this status and this message.
fails() {
    (eval "$4") >"$output" 2>"$errors"
    verdict "$1" "$2" "$3" /dev/null $?
}

# succeeds CASE TEXT COMMAND: the command writes what the file TEXT holds, and no message.
succeeds() {
    (eval "$3") >"$output" 2>"$errors"
    verdict "$1" 0 "" "$2" $?
}

succeeds "a model file" "$result" 'spudd solve model'
succeeds "standard input" "$result" 'spudd solve - <model'
succeeds "standard input through a pipe" "$result" 'cat model | spudd solve -'

fails "a missing file" 3 "cannot open missing" 'spudd solve missing'
fails "a missing folder" 3 "cannot open missing/model" 'spudd solve missing/model'
fails "a name that isn't UTF-8" 3 "cannot open $(printf '\377')" 'spudd solve "$(printf "\\377")"'
long=$(printf '%0300d' 0)
fails "a name of 300 bytes" 3 "cannot open $long" 'spudd solve "$long"'
fails "a folder in place of a file" 3 "cannot read folder" 'spudd solve folder'
fails "a folder as standard input" 3 "cannot read -" 'spudd solve - <folder'
fails "a closed standard input" 3 "cannot read -" 'spudd solve - <&-'
if [ "$(id -u)" -eq 0 ]; then
    echo "skipped a file without read permission: root reads every file"
else
    fails "a file without read permission" 3 "cannot open unreadable" 'spudd solve unreadable'
fi
fails "a file that never ends" 4 "/dev/zero is too long" 'spudd solve /dev/zero'
fails "an empty file" 5 "refused at byte 0: expected variables" 'spudd solve /dev/null'

fails "a closed standard output" 12 "cannot write" 'spudd solve model >&-'
fails "a full device" 12 "cannot write" 'spudd solve model >/dev/full'
fails "a full device for a page" 12 "cannot write" 'spudd --help >/dev/full'
fails "a refused file where standard error is full" 5 "" 'spudd solve /dev/null 2>/dev/full'
fails "a missing file where standard error is closed" 3 "" 'spudd solve missing 2>&-'

fails "no words" 2 "usage: word 0" 'spudd'
fails "an unknown command" 2 "usage: word 0" 'spudd frob'
fails "no file" 2 "usage: word 1" 'spudd solve'
fails "an empty name" 2 "usage: word 1" 'spudd solve ""'
fails "a name that begins with a dash" 2 "usage: word 1" 'spudd solve --help'
fails "a word too many" 2 "usage: word 2" 'spudd solve model more'
fails "a word too many after a name that isn't UTF-8" 2 "usage: word 2" 'spudd solve "$(printf "\\377")" more'
fails "a page with a word" 2 "usage: word 0" 'spudd --version more'
fails "a page's short name with a word" 2 "usage: word 0" 'spudd help -h'

# The models of tests/small, whose results an independent calculation gave.
for file in "$root"/tests/small/*.spudd; do
    base=${file%.spudd}
    name=$(basename "$base")
    options=""
    if [ -f "$base.options" ]; then options=$(cat "$base.options"); fi
    message=""
    status=0
    if grep -q '^status limit$' "$base.result"; then
        status=8
        message="turn limit reached, $(grep '^residual ' "$base.result")"
    fi
    for command in solve plain; do
        # shellcheck disable=SC2086
        (spudd $command "$file" $options) >"$output" 2>"$errors"
        verdict "$command on $name" $status "$message" "$base.result" $?
    done
done

# Refused files, prefixes, examples, command words, both ways to solve, rings, and certificates, which scripts of their own compare with references.
if command -v python3 >/dev/null; then
    for script in refused words diagrams ring check mistakes; do
        python3 "$root/tests/$script/run.py" "$root/crates/spudd/out/spudd" || failed=1
    done
    python3 "$root/tests/show/run.py" || failed=1
else
    echo "skipped tests/refused, tests/words, tests/diagrams, tests/ring, tests/check, tests/mistakes and tests/show: there is no python3"
fi

# The script at the root, with a stand-in for rt.
"$root/tests/script/run.sh" || failed=1

echo "spudd 0.1.0" >"$scratch/version"
for word in -V --version version; do succeeds "$word" "$scratch/version" "spudd $word"; done
for word in -h --help help; do succeeds "$word" "$root/tests/help.txt" "spudd $word"; done

exit $failed
