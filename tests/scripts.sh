#!/usr/bin/env bash
# Tests of block-write, block-show, block-draw and scanpick. The last line says how many checks were made; the status is 0 where none failed. Graphviz and rt
# are not needed: stand-ins take their places. The program is, and is proved and built first where it is not there.
set -uo pipefail
cd "$(dirname "$0")/.." || exit 1
room=$(mktemp -d)
trap 'rm -rf "$room"' EXIT

if ! ./scanpick examples/empty.fvg >/dev/null; then
    echo 'scripts: no checks made, since there is no proved program'
    exit 1
fi

# One check: the command ends with status 0. Checks are counted in files, since many are made at the end of a pipe, in a shell of their own.
check() { # WHAT COMMAND..
    echo >>"$room/checks"
    "${@:2}" && return
    echo >>"$room/failed"
    echo "failed: $1"
}

# One check: what comes from standard input is the file, byte for byte.
gives() { # WHAT FILE
    cat >"$room/given"
    check "$1" cmp "$room/given" "$2"
}

# Three checks: the command ends with the status, says the message alone, and prints nothing.
refuses() { # STATUS MESSAGE COMMAND..
    local status=0
    "${@:3}" >"$room/printed" 2>"$room/said" </dev/null || status=$?
    check "status $1, not $status: $2" [ "$status" -eq "$1" ]
    check "nothing printed: $2" [ ! -s "$room/printed" ]
    gives "message: $2" "$room/said" <<<"$2"
}

# Six checks: a bad text is refused, and neither makes a block file nor changes one.
bad_text() { # MESSAGE TEXT
    printf %s "$2" >"$room/bad.txt"
    refuses 1 "block-write: $room/bad.txt: $1" tools/block-write "$room/bad.txt" "$room/none.fvg"
    check "no file: $1" [ ! -e "$room/none.fvg" ]
    cp examples/a.fvg "$room/old.fvg"
    check "refused again: $1" not tools/block-write "$room/bad.txt" "$room/old.fvg" 2>/dev/null
    gives "old file kept: $1" "$room/old.fvg" <examples/a.fvg
}

# Four checks: block-show refuses a bad file with the message, and the program with its line.
bad_file() { # LINE MESSAGE < FILE
    cat >"$room/bad.fvg"
    refuses 1 "block-show: $room/bad.fvg: $2" tools/block-show "$room/bad.fvg"
    ./scanpick "$room/bad.fvg" | gives "the program's line: $2" <(echo "$1")
}

not() { ! "$@"; }
times() { # NUMBER TEXT
    for _ in $(seq "$1"); do printf %b "$2"; done
}

# ---- the examples: text and file make each other, and the program prints what is expected

for name in a a-twice all17 empty pipeline ring63 ring64 self too-large two; do
    tools/block-write "examples/$name.txt" | gives "$name: text to file" "examples/$name.fvg"
    tools/block-show "examples/$name.fvg" | tools/block-write | gives "$name: shown and written" "examples/$name.fvg"
done
for file in examples/*.fvg; do
    name=$(basename "$file" .fvg)
    ./scanpick "$file" | gives "$name: picked" "tests/expected/$name.out"
    ./scanpick <"$file" | gives "$name: picked from standard input" "tests/expected/$name.out"
done
for output in tests/expected/*.out; do
    check "$output has its example" [ -e "examples/$(basename "$output" .out).fvg" ]
done

# ---- block-write and block-show

printf 'costs 1, 5, 5, 1\nedges 0>1, 1>2, 2>0, 2>3, 3>1\n' >"$room/shown"
tools/block-show examples/a.fvg | gives 'the text of block A' "$room/shown"
tools/block-show - <examples/a.fvg | gives 'the text of block A, from standard input' "$room/shown"
also_a() { printf %b "$1" | tools/block-write - - | gives "block A as $1" examples/a.fvg; }
also_a 'costs 1 5 5 1\nedges 0>1 1>2 2>0 2>3 3>1'
also_a 'costs 1,5,5,1\r\nedges 0>1,1>2,2>0,2>3,3>1\r\n'
also_a 'edges 3>1 , 2>3,\n\n#\n\tcosts\t1\t5 # two\ncosts 5,\ncosts 1\nedges 2>0, 1>2\nedges\nedges 0>1#'
also_a '\xef\xbb\xbfcosts 01, 0000000000005, 5, 1\nedges 00>1, 1>02, 2>0, 2>3, 3>1'
{ printf 'FVG\1\0\100' && times 768 '\xff'; } >"$room/full.fvg"
tools/block-show "$room/full.fvg" | tools/block-write | gives 'every cost and row at its most' "$room/full.fvg"
tools/block-write examples/a.txt "$room/a file.fvg"
gives 'a file by name' examples/a.fvg <"$room/a file.fvg"

bad_text 'there is no line of costs; a block without flip-flops has the word alone' '# nothing'
bad_text "line 2: unknown word 'cost'; a line starts with costs or edges" $'costs 1\ncost 1'
bad_text "line 1: unknown word 'FVG\\x01'; a line starts with costs or edges" $'FVG\x01 1'
bad_text "line 1: '-1' is no cost; a cost is a number from 0 to 4294967295" 'costs -1'
bad_text "line 3: 'five' is no cost; a cost is a number from 0 to 4294967295" $'costs 1\n\ncosts 2, five'
bad_text "line 1: cost '4294967296' is above 4294967295" 'costs 4294967295, 4294967296'
bad_text "line 1: cost '1111111111111111111111111111111111111111..' is above 4294967295" "costs $(times 5000 1)"
bad_text 'line 1: an item is missing beside a comma' 'costs 1,,2'
bad_text 'line 2: an item is missing beside a comma' $'costs 1\nedges , 0>0'
bad_text "line 2: '0-1' is no edge; the edge from 0 to 1 is 0>1" $'costs 1, 1\nedges 0-1'
bad_text "line 2: '0' is no edge; the edge from 0 to 1 is 0>1" $'costs 1, 1\nedges 0 > 1'
bad_text "line 1: edge '0>2' names a flip-flop that is not there; the flip-flops are 0 to 1" $'edges 0>1, 0>2\ncosts 1, 1'
bad_text "line 2: edge '2>0' names a flip-flop that is not there; the flip-flops are 0 to 1" $'costs 1, 1\nedges 2>0'
bad_text "line 2: edge '0>0' names a flip-flop that is not there; there are no flip-flops" $'costs\nedges 0>0'
bad_text 'line 3: edge 0>1 is given twice' $'costs 1, 1\nedges 0>1, 1>0\nedges 0>1'
bad_text 'line 2: this is one cost too many, a block has at most 64 flip-flops' "costs $(times 64 '1 ')"$'\ncosts 1'
bad_text 'this is not a text' $'costs 1\xff'
refuses 1 "block-write: $room/none.txt: No such file or directory" tools/block-write "$room/none.txt" "$room/none.fvg"
refuses 1 "block-write: $room/none/a.fvg: No such file or directory" tools/block-write examples/a.txt "$room/none/a.fvg"
refuses 1 'block-write: standard input: there is no line of costs; a block without flip-flops has the word alone' tools/block-write
cp examples/a.txt "$room/same"
refuses 1 "block-write: $room/same: the block file would overwrite its text" tools/block-write "$room/same" "$room/same"
gives 'the text is kept' examples/a.txt <"$room/same"

foreign='this is not a block file: one has 6 bytes or more, and the first three are FVG (refusal 5)'
bad_file 'refused 5 0' "$foreign" </dev/null
bad_file 'refused 5 0' "$foreign" < <(printf 'FVG\1\0')
bad_file 'refused 5 0' "$foreign" < <(printf 'FVH\1\0\0')
bad_file 'refused 6 0' 'the file version is 2, not 1 (refusal 6)' < <(printf 'FVG\2\0\0')
bad_file 'refused 6 0' 'the file version is 257, not 1 (refusal 6)' < <(printf 'FVG\1\1\0')
bad_file 'refused 1 0' '65 flip-flops are more than 64 (refusal 1)' < <(printf 'FVG\1\0\101' && times 780 '\0')
bad_file 'refused 7 0' 'the file has 53 bytes; with 4 flip-flops it has 54 (refusal 7)' <examples/damaged.fvg
bad_file 'refused 7 0' 'the file has 55 bytes; with 4 flip-flops it has 54 (refusal 7)' < <(cat examples/a.fvg && printf '\0')
bad_file 'refused 7 0' 'the file has 775 bytes; with 64 flip-flops it has 774 (refusal 7)' < <(cat examples/ring64.fvg && printf '\0')
bad_file 'refused 7 0' 'the file has 7 bytes; with 0 flip-flops it has 6 (refusal 7)' < <(cat examples/empty.fvg && printf '\0')
bad_file 'refused 3 0' 'row 0 has bit 1; the flip-flops are 0 to 0 (refusal 3)' < <(printf 'FVG\1\0\1\1\0\0\0\2' && times 7 '\0')
bad_file 'refused 3 3' 'row 3 has bit 63; the flip-flops are 0 to 3 (refusal 3)' < <(head -c 53 examples/a.fvg && printf '\200')
refuses 1 "block-show: $room/none.fvg: No such file or directory" tools/block-show "$room/none.fvg"
refuses 1 "block-show: $room: Is a directory" tools/block-show "$room"

# ---- block-draw; the folder tools has no Graphviz and no rt

mkdir "$room/tools"
for tool in bash cat chmod date dirname find mkdir readlink rm sed sort tee touch; do ln -s "$(command -v $tool)" "$room/tools/$tool"; done
ln -s "$(python3 -c 'import sys; print(sys.executable)')" "$room/tools/python3"
without() { PATH=$room/tools "$@"; }

for name in a pipeline; do
    tools/block-draw "examples/$name.fvg" | gives "$name: drawn" "tests/expected/$name.dot"
done
tools/block-draw <examples/a.fvg | gives 'drawn from standard input' tests/expected/a.dot
tools/block-draw --circle examples/a.fvg | sed 's/layout=circo/rankdir=LR/' | gives 'drawn on a circle' tests/expected/a.dot
check 'the circle is asked for' grep -q layout=circo <(tools/block-draw --circle examples/a.fvg)
without tools/block-draw examples/a.fvg "$room/a.dot"
gives 'drawn to a file, without Graphviz' tests/expected/a.dot <"$room/a.dot"
refuses 1 "block-draw: $room/a.svg: .svg and .png need Graphviz, whose program dot is not on the path; .dot does not" \
    without tools/block-draw examples/a.fvg "$room/a.svg"
check 'no picture without Graphviz' [ ! -e "$room/a.svg" ]
refuses 1 'block-draw: a.gif: the name of a picture ends with .svg, .png or .dot' tools/block-draw examples/a.fvg a.gif
refuses 1 'block-draw: examples/damaged.fvg: the file has 53 bytes; with 4 flip-flops it has 54 (refusal 7)' tools/block-draw examples/damaged.fvg
refuses 1 'block-draw: nothing is drawn, as the program says: refused 4 0 (its node room is too small for the component of flip-flop 0)' \
    tools/block-draw examples/too-large.fvg

printf '#!/bin/sh\necho "$@" && cat\n' >"$room/tools/dot"
chmod +x "$room/tools/dot"
for kind in svg png; do
    without tools/block-draw examples/a.fvg "$room/a.$kind"
    { echo "-T$kind" && cat tests/expected/a.dot; } >"$room/expected"
    gives "a picture as $kind" "$room/expected" <"$room/a.$kind"
done
printf '#!/bin/sh\nexit 3\n' >"$room/tools/dot"
refuses 1 'block-draw: nothing is drawn, as dot ended with status 3' without tools/block-draw examples/a.fvg "$room/b.svg"
check 'no picture where dot fails' [ ! -e "$room/b.svg" ]

mkdir "$room/other"
cp -r tools "$room/other"
printf '#!/bin/sh\nprintf "cost 7\\ncount 3\\nscan 0\\nscan 1\\nscan 3\\n"\n' >"$room/other/scanpick"
chmod +x "$room/other/scanpick"
refuses 1 'block-draw: nothing is drawn, as no loop meets the picked set in 0 only' "$room/other/tools/block-draw" examples/a.fvg
printf '#!/bin/sh\nexit 2\n' >"$room/other/scanpick"
refuses 1 'block-draw: nothing is drawn, as scanpick ended with status 2' "$room/other/tools/block-draw" examples/a.fvg

# ---- scanpick: which file

cp examples/a.fvg "$room/a file.fvg"
root=$PWD
(cd "$room" && "$root/scanpick" 'a file.fvg') | gives 'another folder, a name with a space' tests/expected/a.out
ln -s "$root/scanpick" "$room/link"
"$room/link" - <examples/a.fvg | gives 'by a link, from standard input' tests/expected/a.out
refuses 2 'scanpick: no such.fvg: there is no such file' ./scanpick 'no such.fvg'
refuses 2 'scanpick: examples: this is a folder' ./scanpick examples
refuses 2 'scanpick: usage: scanpick FILE, or scanpick < FILE' ./scanpick examples/a.fvg examples/two.fvg

# ---- the program: reading fails, writing fails

from_folder() { ./scanpick <examples; }
to_full_disk() { ./scanpick examples/a.fvg >/dev/full; }
refuses 1 'Error: Os { code: 21, kind: IsADirectory, message: "Is a directory" }' from_folder
refuses 1 'Error: Os { code: 28, kind: StorageFull, message: "No space left on device" }' to_full_disk

# ---- scanpick: when the program is proved, in a repository with a stand-in for rt that makes a program which prints what it reads

mkdir -p "$room/repo/crates/one/src" "$room/repo/crates/one/specs" "$room/repo/crates/scanpick" "$room/repo/crates/two"
cp scanpick "$room/repo"
touch "$room/repo/crates.txt" "$room/repo/crates/one/src/lib.rt" "$room/repo/crates/one/specs/Lib.antt" "$room/repo/crates/one/stdin"
parts=(crates.txt crates crates/one/src crates/one/src/lib.rt)
older() { (cd "$room/repo" && find crates.txt crates -regex 'crates/[^/]*/out' -prune -o -exec touch -d "$1" {} +); }
older '2 hours ago'
pick() { without "$room/repo/scanpick" "$@"; }
says() { # WHAT LINES..
    printf '%s\n' "${@:2}" >"$room/expected"
    pick examples/a.txt 2>"$room/said" | gives "$1: what the program prints" examples/a.txt
    gives "$1: what is said" "$room/expected" <"$room/said"
}
silent() { # WHAT
    pick - <examples/a.txt 2>"$room/said" | gives "$1: what the program prints" examples/a.txt
    check "$1: nothing is said" [ ! -s "$room/said" ]
}
program=$room/repo/crates/scanpick/out/scanpick
proving='scanpick: proving and building the program; the first time this takes minutes'
unproved='scanpick: the program is not proved, so it is not run; target/scanpick.log has what the checker said'

refuses 2 'scanpick: the program has to be proved and built first, which needs the Rattle kit: rt is not on the path' pick examples/a.txt
cat >"$room/tools/rt" <<'END'
#!/usr/bin/env bash
# what it reads here would be missing from the block
cat >/dev/null
[ "$*" = run ] && [ "${PWD##*/}" = scanpick ] || exit 2
echo 'fn one::of_many: proved' >&2
echo 'crate one: modules loaded=1 checked=0' >&2
mkdir -p out ../one/out
if [ ! -e out/scanpick ]; then
    printf '#!/bin/sh\nexec cat\n' >out/scanpick
    chmod +x out/scanpick
fi
echo 'what the program prints where rt runs it'
END
chmod +x "$room/tools/rt"
says 'the first time' "$proving" 'crate one: modules loaded=1 checked=0'
silent 'the second time'
check 'the log has what rt said' grep -q 'fn one::of_many: proved' "$room/repo/target/scanpick.log"
for part in "${parts[@]}"; do
    touch -d '3 hours ago' "$program"
    older '4 hours ago'
    silent 'older than the program'
    touch -d '2 hours ago' "$room/repo/$part"
    says "$part is newer" "$proving" 'crate one: modules loaded=1 checked=0'
    silent "$part is newer, but the program need not change"
done
touch "$room/repo/crates/one/out/new"
silent 'what rt keeps is newer'
mkdir -p "$room/repo/crates/one/data" "$room/repo/crates/one/src/out"
older '4 hours ago'
says 'a folder in a crate is new' "$proving" 'crate one: modules loaded=1 checked=0'
touch "$room/repo/crates/one/src/out/mod.rt"
says 'a file in a folder out of src/ is new' "$proving" 'crate one: modules loaded=1 checked=0'
for part in crates/one/specs crates/one/stdin crates/two; do
    rm -r "$room/repo/$part"
    older '4 hours ago'
    says "$part is gone" "$proving" 'crate one: modules loaded=1 checked=0'
    silent "$part is gone, and the program was proved without it"
done
rm "$program"
says 'the program alone removed' "$proving" 'crate one: modules loaded=1 checked=0'
rm "$program"
printf '#!/bin/sh\necho "crate one: modules loaded=1 checked=0" >&2\n' >"$room/tools/rt"
refuses 2 "$proving
crate one: modules loaded=1 checked=0
scanpick: rt left no crates/scanpick/out/scanpick; target/scanpick.log has what it said" pick examples/a.txt
printf '#!/bin/sh\ntouch out/scanpick\nchmod +x out/scanpick\necho "crate one: modules loaded=1 checked=0" >&2\nexit 1\n' >"$room/tools/rt"
for _ in first second; do
    refuses 1 "$proving
crate one: modules loaded=1 checked=0
$unproved" pick examples/a.txt
done

touch "$room/failed"
echo "scripts: $(wc -l <"$room/checks") checks, $(wc -l <"$room/failed") failed"
[ ! -s "$room/failed" ]
