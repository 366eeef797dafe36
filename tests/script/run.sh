#!/bin/sh
# Runs the script spudd in a folder of its own with a stand-in for rt, which notes what it is asked for: prints a line for each case, and exits 1 where
# one fails. Nothing is proved here.
root=$(cd "$(dirname "$0")/../.." && pwd)
room=$(mktemp -d)
trap 'rm -rf "$room"' EXIT
failed=0

mkdir "$room/house" "$room/bin" "$room/bare" "$room/elsewhere"
cp "$root/spudd" "$room/house"
cat >"$room/house/crates.txt" <<'END'
# a comment
low: itoa
side:
wrong:

high tests_may=Threads: low side
spudd: high low
rows: high wrong
END
for crate in low side wrong high spudd rows; do
    mkdir -p "$room/house/crates/$crate/src" "$room/house/crates/$crate/specs" "$room/house/crates/$crate/proofs"
    echo "// $crate" >"$room/house/crates/$crate/src/lib.rt"
done
cat >"$room/bin/rt" <<'END'
#!/bin/sh
crate=$(basename "$PWD")
echo "$crate" >>"$ASKED"
mkdir -p out
if [ "$crate" = "$BAD" ]; then echo "fn bad: not proved"; exit 1; fi
if [ "$crate" = spudd ]; then printf '#!/bin/sh\necho "ran $*"\nexit 8\n' >out/spudd; chmod +x out/spudd; fi
END
chmod +x "$room/bin/rt"
for tool in sh awk sort cut find readlink dirname basename mktemp tail wc uniq xargs getconf rm touch mv cat; do
    ln -s "$(command -v $tool)" "$room/bare/$tool"
done
ln -s "$room/house/spudd" "$room/elsewhere/far"
ln -s far "$room/elsewhere/near"
cd "$room/elsewhere" || exit 1
ASKED=$room/asked
export ASKED

# runs CASE STATUS OUTPUT ERRORS COMMAND..: the status, standard output, and a text that standard error has, or none where it is empty.
runs() {
    case=$1 status=$2 output=$3 errors=$4
    shift 4
    : >"$ASKED"
    found=$("$@" 2>"$room/errors")
    got=$?
    if [ "$got" -ne "$status" ]; then
        echo "FAILED  $case: status $got in place of $status"
    elif [ "$found" != "$output" ]; then
        echo "FAILED  $case: $found"
    elif [ -z "$errors" ] && [ -s "$room/errors" ]; then
        echo "FAILED  $case: $(cat "$room/errors")"
    elif ! grep -qF "$errors" "$room/errors" && [ -n "$errors" ]; then
        echo "FAILED  $case: $(cat "$room/errors")"
    else
        echo "ok      $case"
        return
    fi
    failed=1
}

# asked CASE CRATES..: the crates that were to be proved, in an order where those of a level may change places.
asked() {
    case=$1
    shift
    if [ "$(sort "$ASKED" | xargs)" = "$(printf '%s\n' "$@" | sort | xargs)" ]; then
        echo "ok      $case"
    else
        echo "FAILED  $case: $(tr '\n' ' ' <"$ASKED")"
        failed=1
    fi
}

runs "without rt, through a link" 70 "" "the command rt isn't on the path" env PATH="$room/bare" ./near solve model
PATH=$room/bin:$PATH
BAD=side
export BAD
runs "a crate that isn't proved" 70 "" "side wasn't proved" ./near solve model
BAD=
runs "the first time, through a link" 8 "ran solve model" "1 of 4 crates are left" ./near solve model
asked "each crate of the program is proved once, and no other" low side high spudd
runs "the second time, from another folder" 8 "ran solve a b" "" "$room/house/spudd" solve "a b"
asked "nothing is proved again"
sleep 1
touch "$room/house/crates/rows/src/lib.rt"
runs "a change of a crate that the program doesn't use" 8 "ran -" "" ./far -
asked "nothing is proved for it"
touch "$room/house/crates/low/proofs/New.antt"
runs "a change of a proof" 8 "ran -" "proving and building 4 crates" ./far -
runs "without rt, where nothing changed" 8 "ran -" "" env PATH="$room/bare" ./far -
exit $failed
