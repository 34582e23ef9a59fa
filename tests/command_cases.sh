#!/bin/bash
# The command ./staran from outside: exit statuses, names of folders, links, several folders, why, convert, list and numbers; and building, by a stand-in for `rt`
# in a copy of the command: a stale program, a failed and an interrupted build, a checkout that cannot be written, no python3. Also tests/make_blocks.py.
# Prints a line for each case, and at last 'N passed, 0 failed'.
#   tests/command_cases.sh
set -u
here=$(cd "$(dirname "$0")/.." && pwd -P)
work=$(mktemp -d)
trap 'rm -rf "$work"' EXIT
passed=0 failed=0
die() { printf 'tests/command_cases.sh: %s\n' "$*" >&2; exit 2; }
"$here/staran" --build >"$work/build" 2>&1 || { cat "$work/build" >&2; die "the program cannot be built"; }
staran=$here/staran
cd "$work" || die "no temporary folder"
blocks=$work/blocks
# shellcheck disable=SC2016
printf '#!/bin/sh\nexec python3 -B "%s/tests/make_blocks.py" "$@"\n' "$here" >"$blocks"
chmod +x "$blocks"

# A folder with the printed example of document 01; a second argument is its list.
folder() { mkdir -p -- "$1"; cp "$here"/crates/program/data/* "./$1"; [ $# -eq 1 ] || "$blocks" --unfit list "./$1/run.lst" "$2"; }
call() { timeout 60 "$@" >"$work/out" 2>"$work/err"; status=$?; }
judge() { # NAME CONDITION: counts a case; CONDITION is the status of the test before it
    if [ "$2" -eq 0 ]; then passed=$((passed + 1)); echo "ok   $1"
    else failed=$((failed + 1)); echo "FAIL $1 (status $status)"; sed 's/^/     out: /' "$work/out"; sed 's/^/     err: /' "$work/err"; fi
}
# NAME STATUS LINE COMMAND..: the status, and the first line printed (empty: nothing is)
gives() {
    name=$1 want=$2 line=$3
    shift 3
    call "$@"
    [ "$status" -eq "$want" ] && [ "$(head -n 1 "$work/out")" = "$line" ]
    judge "$name" $?
}
# NAME STATUS SENTENCE COMMAND..: the status, nothing printed, and a line of standard error that has SENTENCE
complains() {
    name=$1 want=$2 sentence=$3
    shift 3
    call "$@"
    [ "$status" -eq "$want" ] && [ ! -s "$work/out" ] && grep -qF -- "$sentence" "$work/err" && ! grep -q 'Traceback' "$work/err"
    judge "$name" $?
}
done_line='r 0 0 0 2 0 1'

# ---- exit statuses
folder good
folder bad 02030000FF000000
gives "0 for a run that is done" 0 "$done_line" "$staran" good
gives "1 for a run that is refused" 1 'r 7 0 2 0 0 0' "$staran" bad
mkdir empty; gives "1 for a file that is refused" 1 'p 20 0 0 0 0 0' "$staran" empty
folder blocked; mkdir blocked/after.pic; complains "2 where after.pic cannot be written" 2 'after.pic: Is a directory' "$staran" blocked
complains "2 where there is no folder" 2 'nowhere: no folder' "$staran" nowhere
complains "2 for a file" 2 'no folder' "$staran" good/before.pic
complains "2 for an empty name" 2 'an empty name is no folder' "$staran" ''
# shellcheck disable=SC2016
complains "2 for an empty name among others, after the others ran" 2 'an empty name is no folder' sh -c '"$0" good "" >/dev/null' "$staran"
timeout 60 "$staran" good >/dev/full 2>err; status=$?; : >out
[ $status -eq 2 ] && grep -qx 'staran: standard output: No space left on device' err; judge "2 for an output that takes nothing, with the reason" $?

# ---- the folder named, whatever its name
mkdir -p x; folder work; folder x/work FF00000000000000
CDPATH=x gives "CDPATH leads nowhere else" 0 "$done_line" "$staran" work
folder -d; gives "a dash in front" 0 "$done_line" "$staran" -d
folder --odd; gives "two dashes in front" 0 "$done_line" "$staran" --odd
folder -; gives "a dash alone" 0 "$done_line" "$staran" -
complains "a dash in front of nothing" 2 'no folder, and no option' "$staran" -nothing
folder 'two words  and more'; gives "blanks" 0 "$done_line" "$staran" 'two words  and more'
folder "a'quote\"and \$dollar*"; gives "quotes, a dollar and a star" 0 "$done_line" "$staran" "a'quote\"and \$dollar*"
ln -s good linked; gives "a link to a folder" 0 "$done_line" "$staran" linked
# shellcheck disable=SC2016
gives "the folder one stands in" 0 "$done_line" sh -c 'cd good && exec "$0" .' "$staran"
gives "a path from the root" 0 "$done_line" "$staran" "$work/good"
folder why; folder numbers; folder convert; folder list; gives "a folder named as a task, after --" 0 "$done_line" "$staran" -- why
gives "and by its path" 0 "$done_line" "$staran" ./numbers
gives "and so one named convert" 0 "$done_line" "$staran" -- convert
gives "and one named list" 0 "$done_line" "$staran" -- list
gives "by its path too" 0 "$done_line" "$staran" ./list

# ---- the command called through links
mkdir -p bin/deep; ln -s "$staran" bin/staran; ln -s ../staran bin/deep/again
gives "a link to the command" 0 "$done_line" bin/staran good
gives "a link to a link, relative" 0 "$done_line" bin/deep/again good
PATH=$work/bin:$PATH gives "found on PATH" 0 "$done_line" staran good
# shellcheck disable=SC2016
CDPATH=/ gives "called by a path that CDPATH could lead elsewhere" 0 "$done_line" sh -c 'cd "$1" && exec tests/../staran "$2"' - "$here" "$work/good"

# ---- help, version, numbers
call "$staran" --help; [ $status -eq 0 ] && grep -q 'Exit status' "$work/out" && ! awk 'length > 100' "$work/out" | grep -q .; judge "--help, in lines that fit" $?
major=$(sed -n 's/^#define STARAN_VERSION_MAJOR //p' "$here/include/staran.h") minor=$(sed -n 's/^#define STARAN_VERSION_MINOR //p' "$here/include/staran.h")
gives "--version is the header's" 0 "staran $major.$minor" "$staran" --version
grep -q "^## $major.$minor" "$here/docs/CHANGELOG.md"; judge "and the newest of docs/CHANGELOG.md" $?
call "$staran" numbers; [ $status -eq 0 ] && [ "$(grep -cE '^ *[0-9]+  ' "$work/out")" -eq "$(grep -vc '^#' "$here/docs/numbers.tsv")" ]; judge "numbers: every row" $?
call "$staran" numbers 7; [ $status -eq 0 ] && grep -q 'no mode was given' "$work/out" && [ "$(grep -cE '^ *[0-9]+  ' "$work/out")" -eq 1 ]; judge "numbers 7: one row" $?
call "$staran" numbers 9; [ $status -eq 0 ] && grep -q '^     byte: the first of 2, 3 and 4 that is not 0' "$work/out"; judge "numbers 9: which byte is given" $?
call "$staran" numbers 14; [ $status -eq 0 ] && grep -q 'register is not set' <<<"$(tr -s ' \n' ' ' <"$work/out")" && grep -qx '     byte: 2' "$work/out"; judge "numbers 14: a register that is not set" $?
call "$staran" numbers 15; [ $status -eq 0 ] && grep -q 'a flag is over 1' <<<"$(tr -s ' \n' ' ' <"$work/out")" && ! grep -q 'byte:' "$work/out"; judge "numbers 15: of no instruction" $?
call "$staran" numbers 61; [ $status -eq 0 ] && grep -q '^ 61  making of a list from text: there is no such choice' "$work/out" && grep -q '^     do: behind logic write x' "$work/out"; judge "numbers 61: of a text" $?
complains "numbers 19: there is none" 2 'the number 19 is never given' "$staran" numbers 19
complains "numbers 10: it is not given any more" 2 'the number 10 is never given' "$staran" numbers 10
timeout 60 "$staran" numbers >/dev/full 2>err; status=$?; : >out
[ $status -eq 2 ] && grep -q 'No space left on device' err && ! grep -q 'never given\|parameter' err; judge "numbers: 2 for an output that takes nothing, with the reason" $?

# ---- why
call "$staran" why bad
[ $status -eq 1 ] && [ "$(head -n 1 "$work/out")" = 'r 7 0 2 0 0 0' ] && grep -q 'no mode was given' "$work/out" && grep -q 'do: give the mode' "$work/out" &&
    grep -q 'byte 2  00  mode tag: no mode is given.*<-- here' "$work/out" && grep -q 'byte 0  02  kind: store' "$work/out" && [ "$(grep -c 'here$' "$work/out")" -eq 1 ]
judge "why: a store without a mode" $?
folder damaged; printf '\001' | dd of=damaged/before.pic bs=1 seek=600 conv=notrunc status=none
call "$staran" why damaged; [ $status -eq 1 ] && grep -q '^Block 1' "$work/out" && grep -q 's1.*<-- here' "$work/out"; judge "why: a damaged block" $?
call "$staran" why empty; [ $status -eq 1 ] && grep -q 'before.pic is not there' "$work/out"; judge "why: an absent picture" $?
call "$staran" why good; [ $status -eq 0 ] && grep -q 'Done' "$work/out"; judge "why: a run that is done" $?
complains "why: no folder" 2 'one folder' "$staran" why
# the text of the instruction stands before its bytes, where an instruction is refused
textual() { # NAME TEXT: of what why printed
    [ $status -eq 1 ] && [ "$(grep -A 1 '^Text: ' "$work/out" | sed 's/^\(Instruction [0-9]*\),.*/\1/')" = "Text: $2" ]; judge "why: $1" $?
}
call "$staran" why bad; textual "the text of an instruction that is refused by itself" $'bytes 02 03 00 00 FF 00 00 00 ; refused 7 byte 2\nInstruction 0'
folder each '0500000000000000 060003FF00000000 020402000D000000'; call "$staran" why each; textual "of one under a register that is not set" $'store mode a address 13 from outside ; reaches ? words\nInstruction 2'
folder each '0500000000000000 0404000000000000'; call "$staran" why each; textual "of one that lacks an item" $'deliver outside\nInstruction 1'
folder each "$(yes 0500000000000000 | head -n 257)"; call "$staran" why each; textual "of one without room for its item" $'resolve\nInstruction 256'
call "$staran" why good; [ $status -eq 0 ] && ! grep -q '^Text: ' "$work/out"; judge "why: none of a run that is done" $?
call "$staran" why damaged; [ $status -eq 1 ] && ! grep -q '^Text: ' "$work/out"; judge "why: nor of a file that is refused" $?
folder ' -odd  name' 02030000FF000000; call "$staran" why ' -odd  name'; textual "whatever the folder's name" $'bytes 02 03 00 00 FF 00 00 00 ; refused 7 byte 2\nInstruction 0'
folder each 02030000FF000000; mv each/run.lst each/kept; mkfifo each/run.lst; timeout 60 cat each/kept >each/run.lst & call "$staran" why each; wait
[ $status -eq 1 ] && [ "$(head -n 1 "$work/out")" = 'r 7 0 2 0 0 0' ] && ! grep -q '^Text: ' "$work/out"; judge "why: a list from a pipe is not read again" $?
rm each/run.lst each/kept
# NUMBER LIST BYTE SENTENCE: the byte that the program names is marked, and no other, and its line has the sentence
while read -r number list byte sentence <&3; do
    folder each "$list"; call "$staran" why each
    [ $status -eq 1 ] && [ "$(head -n 1 "$work/out")" = "r $number 0 $byte 0 0 0" ] && grep -qF "$sentence   <-- here" <<<"$(grep "^  byte $byte " "$work/out")" &&
        [ "$(grep -c 'here$' "$work/out")" -eq 1 ]
    judge "why: $number in $list, byte $byte" $?
done 3<<'ROWS'
5 FF00000000000000 0 kind: there is no such one
6 0200010000000000 1 source: memory; a store takes none from there: it must be 1 to 4
6 0501000000000000 1 source: M; a resolve has none: it must be 0
6 060402FF00000000 1 source: outside, the next item of in.itm; kind 6 has none: it must be 0
7 0000000000000000 2 mode tag: no mode is given; this instruction touches memory and needs one
7 060000FF00000000 2 mode tag: no register is named; kind 6 needs 2, for A, or 3, for B
8 0203040000000000 2 mode tag: there is no such tag; this instruction touches memory and needs one
8 060001FF00000000 2 mode tag: it names no register; kind 6 needs 2, for A, or 3, for B
8 060004FF00000000 2 mode tag: there is no such tag; kind 6 needs 2, for A, or 3, for B
9 0002010700000000 2 mode tag: of no use, for memory is not touched: it must be 0
9 040300FF0D000000 3 mode: of no use, for memory is not touched: it must be 0
9 0203020109000000 3 mode: of no use, for it is that of register A: it must be 0
9 040300000D000000 4 address: of no use, for memory is not touched: it must be 0
9 060002FF09000000 4 address: of no use in this kind: it must be 0
14 0203020009000000 2 mode tag: the mode of register A, which is not set
14 0000030009000000 2 mode tag: the mode of register B, which is not set
18 0203010009009000 6 shift: p is 9 and m is 0; a store may not shift: it must be 0
18 0303010009001000 6 shift: p is 1 and m is 0; a masked store may not shift: it must be 0
18 0500000000018800 5 flip: line I goes to I xor 1; a resolve may not flip: it must be 0
18 0500000000008800 6 shift: p is 8 and m is 8; a resolve may not shift: it must be 0
18 060002FF00018800 5 flip: line I goes to I xor 1; kind 6 may not flip: it must be 0
18 060003FF00001000 6 shift: p is 1 and m is 0; kind 6 may not shift: it must be 0
16 0002000000009F00 6 shift: p is 9 and m is 15; p is over 8, and a group has at most 256 lines
17 0002000000008800 6 shift: p is 8 and m is 8; m is not below p
17 0002000000000100 6 shift: p is 0 and m is 1; m is not below p
11 0002000000000050 7 function 0: old and passed bit 00, 01, 10, 11 become 0, 0, 0, 0
11 0203010009000001 7 logic: of no use in this kind: it must be 0
ROWS
folder each "$(yes 000200000000000A | head -n 57) 040300FF0D000000"; call "$staran" why each
[ $status -eq 1 ] && [ "$(head -n 1 "$work/out")" = 'r 9 57 3 0 0 0' ] && grep -qx 'Instruction 57, counted from 0, at byte 456 of the list: 04 03 00 ff 0d 00 00 00' "$work/out"; judge "why: the instruction at the place" $?
# which mode registers are set before the instruction, where it names one: by the last kind 6 before it, or not at all, or only after it
folder each '0600020700000000 060002FF00000000 020302000D000000 020303000D000000 0600030000000000'; call "$staran" why each
[ $status -eq 1 ] && [ "$(head -n 1 "$work/out")" = 'r 14 3 2 0 0 0' ] && grep -qx '  byte 3  00  mode: that of register B: nobody gave one' "$work/out" &&
    [ "$(tail -n 2 "$work/out")" = "$(printf '%s\n' 'Mode register A is set before it, to 255 by instruction 1.' 'Mode register B is not set before it: before.pic, of kind 1, has none; instruction 4 sets it, and comes after.')" ]
judge "why: 14, and which mode registers are set before it" $?
folder each '060003FF00000000 020403000D000000'; call "$staran" why each
[ $status -eq 1 ] && [ "$(head -n 1 "$work/out")" = 'r 12 1 0 0 0 0' ] && grep -qx '  byte 2  03  mode tag: the mode of register B, which is set' "$work/out" && grep -qx '  byte 3  00  mode: that of register B, 255: one word' "$work/out" &&
    grep -qx 'Mode register B is set before it, to 255 by instruction 0.' "$work/out"; judge "why: the mode that a register has" $?
folder each 0500000000000001; call "$staran" why each; grep -qx '  byte 1  00  source: none' "$work/out"; judge "why: a resolve has no source" $?
folder each 060002FF00000001; call "$staran" why each; grep -qx '  byte 0  06  kind: set a mode register' "$work/out" && grep -qx '  byte 1  00  source: none' "$work/out" && grep -qx '  byte 2  02  mode tag: register A' "$work/out" &&
    grep -qx '  byte 3  ff  mode: one word' "$work/out" && ! grep -q '^Mode register' "$work/out"; judge "why: kind 6" $?
# pictures with mode registers (document 02, Eight): a register that the picture has set, or has unset; and what is wrong with the picture itself
four() { "$blocks" --replace --unfit picture each/before.pic "$1"; } # FOUR BYTES: before.pic of kind 4 with these mode registers
folder each '020302000D000000 020303000D000000'; four 01070000; call "$staran" why each
[ $status -eq 1 ] && [ "$(head -n 1 "$work/out")" = 'r 14 1 2 0 0 0' ] &&
    [ "$(tail -n 2 "$work/out")" = "$(printf '%s\n' 'Mode register A is set before it, to 7 by before.pic.' 'Mode register B is not set before it: before.pic, of kind 4, has it unset.')" ]
judge "why: 14, and a register that the picture has set" $?
folder each '020302000D000000 060002FF00000000 020303000D000000 0600030000000000'; four 01070000; call "$staran" why each
[ $status -eq 1 ] && [ "$(head -n 1 "$work/out")" = 'r 14 2 2 0 0 0' ] && [ "$(tail -n 2 "$work/out")" = "$(printf '%s\n' 'Mode register A is set before it, to 255 by instruction 1.' 'Mode register B is not set before it: before.pic, of kind 4, has it unset; instruction 3 sets it, and comes after.')" ]
judge "why: and one that is set again before it" $?
folder each 020403000D000000; four 000001FF; call "$staran" why each
[ $status -eq 1 ] && [ "$(head -n 1 "$work/out")" = 'r 12 0 0 0 0 0' ] && grep -qx '  byte 2  03  mode tag: the mode of register B, which is set' "$work/out" && grep -qx '  byte 3  00  mode: that of register B, 255: one word' "$work/out" &&
    grep -qx 'Mode register B is set before it, to 255 by before.pic.' "$work/out"; judge "why: the mode that the picture brings" $?
while IFS=: read -r modes rows <&3; do
    folder each; four "$modes"; call "$staran" why each
    [ $status -eq 1 ] && [ "$(head -n 1 "$work/out")" = 'p 15 0 0 0 0 0' ] && grep -qx 'Refused: before.pic.' "$work/out" && grep -q '^ 15  ' "$work/out" && tr '|' '\n' <<<"$rows" >want &&
        [ "$(tail -n 5 "$work/out" | head -n 1)" = "The mode registers of before.pic, bytes 364 to 367 of block 16, its last: $(sed 's/../& /g; s/ $//' <<<"$modes")" ] && tail -n 4 "$work/out" | cmp -s - want
    judge "why: 15, and the mode registers $modes" $?
done 3<<'ROWS'
02070000:  flag of A  02  it must be 0, or 1 for set   <-- here|  mode of A  07  not looked at with such a flag|  flag of B  00  not set|  mode of B  00  none
00ff0107:  flag of A  00  not set|  mode of A  ff  it must be 0: the flag says that there is none   <-- here|  flag of B  01  set|  mode of B  07  a shape between slice and word
01ff0001:  flag of A  01  set|  mode of A  ff  one word|  flag of B  00  not set|  mode of B  01  it must be 0: the flag says that there is none   <-- here
0001ff00:  flag of A  00  not set|  mode of A  01  it must be 0: the flag says that there is none   <-- here|  flag of B  ff  it must be 0, or 1 for set   <-- here|  mode of B  00  not looked at with such a flag
ROWS
python() { # PYTHON, with `files` for tests/make_blocks.py
    python3 -B - "$here/tests" <<PYTHON
import sys
sys.path.insert(0, sys.argv[1])
import make_blocks as files
$1
PYTHON
}
python 'files.write("each/before.pic", files.blocks(260, bytes(8292)))'
call "$staran" why each; [ $status -eq 1 ] && [ "$(head -n 1 "$work/out")" = 'p 22 0 0 0 0 0' ] && grep -qx '  kind       260  it must be 1, picture, or 4, picture with mode registers   <-- here' "$work/out"; judge "why: a picture of neither kind" $?
python 'files.write("each/before.pic", files.blocks(4, bytes(8292))[:512] + files.blocks(1, bytes(8288))[512:])'
call "$staran" why each; [ $status -eq 1 ] && [ "$(head -n 1 "$work/out")" = 'p 22 1 0 0 0 0' ] && grep -qx '  kind         1  it must be 4, picture with mode registers   <-- here' "$work/out"; judge "why: blocks of kind 1 in a picture of kind 4" $?
python 'files.write("each/before.pic", files.blocks(1, bytes(8288))[:512] + files.blocks(4, bytes(8292))[512:])'
call "$staran" why each; [ $status -eq 1 ] && [ "$(head -n 1 "$work/out")" = 'p 22 1 0 0 0 0' ] && grep -qx '  kind         4  it must be 1, picture   <-- here' "$work/out"; judge "why: and of kind 4 in one of kind 1" $?
python 'files.write("each/before.pic", files.blocks(4, bytes(8288)))'
call "$staran" why each; [ $status -eq 1 ] && [ "$(head -n 1 "$work/out")" = 'p 25 0 0 0 0 0' ] && grep -qx 'Every block is good, but a picture of kind 4 has 8292 bytes, and not 8288.' "$work/out"; judge "why: a picture of kind 4 that is too short" $?
folder each; python 'files.write("each/run.lst", files.blocks(2, bytes(9)))'
call "$staran" why each; [ $status -eq 1 ] && [ "$(head -n 1 "$work/out")" = 'l 25 0 0 0 0 0' ] && grep -qx 'Every block is good, but lists are whole instructions of 8 bytes, and 9 bytes are not.' "$work/out"; judge "why: a list of nine bytes" $?
# before.pic is looked at no further than is needed: a long one, and one that can be read only once
folder each; truncate -s 3G each/before.pic
call "$staran" why each; [ $status -eq 1 ] && [ "$(head -n 1 "$work/out")" = 'p 20 0 0 0 0 0' ]; judge "why: a picture of 3 GB" $?
# shellcheck disable=SC2016
call sh -c 'ulimit -v 1000000; exec "$0" each p 20 0 0' "$here/tools/why.py"; [ $status -eq 0 ] && grep -qx 'before.pic has 3221225472 bytes, 6291456 blocks.' "$work/out"; judge "why: it is not read" $?
once() { rm -f each/before.pic; mkfifo each/before.pic; timeout 60 cat good/before.pic >each/before.pic & } # before.pic as a pipe
folder each 02030000FF000000; once; call "$staran" why each; wait
[ $status -eq 1 ] && [ "$(head -n 1 "$work/out")" = 'r 7 0 2 0 0 0' ] && grep -q 'byte 2  00  mode tag: no mode is given.*<-- here' "$work/out"; judge "why: a picture from a pipe" $?
rm each/before.pic; folder each 02030200FF000000; once; call "$staran" why each; wait
[ $status -eq 1 ] && [ "$(head -n 1 "$work/out")" = 'r 14 0 2 0 0 0' ] && grep -qx 'why: before.pic is no plain file, and is not read again' "$work/err"; judge "why: and what it had is not guessed" $?
rm each/before.pic; folder each
# with 12 and 13 no byte is wrong, and none is marked
folder each 0404000000000000; call "$staran" why each
[ $status -eq 1 ] && [ "$(head -n 1 "$work/out")" = 'r 12 0 0 0 0 0' ] && ! grep -q 'here$' "$work/out" && grep -qx 'No byte of it is wrong. The list takes 1 item.' "$work/out"; judge "why: 12, and no byte is marked" $?
folder each "$(yes 0500000000000000 | head -n 257)"; call "$staran" why each
[ $status -eq 1 ] && [ "$(head -n 1 "$work/out")" = 'r 13 256 0 0 0 0' ] && ! grep -q 'here$' "$work/out" && grep -qx 'No byte of it is wrong. The list gives 257 items.' "$work/out"; judge "why: 13, and no byte is marked" $?
folder each '0404000000000000 0404000000000000'; call "$staran" why each; grep -qx 'No byte of it is wrong. The list takes 2 items.' "$work/out"; judge "why: 12, of two" $?
folder each; printf x >each/in.itm; call "$staran" why each; grep -qx 'in.itm has 1 byte, which is no multiple of 512.' "$work/out"; judge "why: a file of one byte" $?
rm each/in.itm; folder each "$(yes 0500000000000000 | head -n 257)"
# what the program said is shown, and nothing judged again: another byte is marked if another is named; and no instruction where none is spoken of
call "$here/tools/why.py" each r 9 0 4; [ $status -eq 0 ] && [ "$(grep 'here$' "$work/out")" = '  byte 4  00  address: of no use, for memory is not touched   <-- here' ]; judge "why: the byte that is named" $?
call "$here/tools/why.py" each r 15 0 0; [ $status -eq 0 ] && [ "$(cat "$work/out")" = 'No instruction is wrong: it is of what the run is lent.' ]; judge "why: 15 is of no instruction" $?

# ---- convert: a picture of one kind made one of the other
mkdir pictures
python 'import random
draw = random.Random(8)
words, registers = [draw.randbytes(32) for _ in range(256)], draw.randbytes(96)
for name, modes in ("one", None), ("four", [0] * 4), ("set", [1, 255, 1, 0]), ("flags", [2, 7, 0, 5]):
    files.write("pictures/" + name, files.picture(words, registers, modes))
for name, kind, size in ("short", 1, 8292), ("cut", 4, 8288), ("list", 2, 16):
    files.write("pictures/" + name, files.blocks(kind, bytes(size)))'
cp pictures/one pictures/damaged; printf '\001\002' | dd of=pictures/damaged bs=1 seek=1600 conv=notrunc status=none
python 'good = files.blocks(1, bytes(8288))
def altered(name, block, changes):
    front = bytearray(good[512 * block:512 * block + 508])
    for at, value in changes:
        front[at] = value
    files.write("pictures/" + name, good[:512 * block] + bytes(front) + files.sums(front) + good[512 * block + 512:])
altered("moved", 2, [(2, 3)])
altered("used", 0, [(6, 200), (7, 0)])
altered("stray", 5, [(8, 7), (11, 9)])
altered("behind", 16, [(363, 1), (364, 2), (507, 3)])'
: >pictures/empty; printf x >pictures/byte; head -c 40960 /dev/zero >pictures/long
gives "convert new" 0 'new.pic: a picture of kind 4; the words, M, X and Y of pictures/one, and neither mode register set. A build before version 5.1 does not read it.' "$staran" convert new pictures/one new.pic
cmp -s new.pic pictures/four && [ ! -s "$work/err" ] && [ "$(wc -l <"$work/out")" -eq 1 ]; judge "it is kind 4, and nothing else is said" $?
gives "convert old" 0 'old.pic: a picture of kind 1; the words, M, X and Y of new.pic, which has neither mode register set. Every build reads it.' "$staran" convert old new.pic old.pic
cmp -s old.pic pictures/one; judge "and back gives the same bytes" $?
call "$staran" convert old pictures/four back.1; call "$staran" convert new back.1 back.2; [ $status -eq 0 ] && cmp -s back.2 pictures/four && ! cmp -s back.1 back.2; judge "and the other way round" $?
folder each; mv new.pic each/before.pic; rm each/run.lst; gives "what is made, the program takes" 0 'r 0 0 0 0 0 0' "$staran" each
# WAY|FILE|NUMBER|WHAT|LINE: WHAT is refused, the number and that nothing was made are said, and the line is there
while IFS='|' read -r way file number about line <&3; do
    call "$staran" convert "$way" "pictures/$file" x.pic
    [ $status -eq 1 ] && [ ! -e x.pic ] && [ ! -s "$work/err" ] && [ "$(head -n 1 "$work/out")" = "Refused: pictures/$about." ] && grep -q "^ $number  " "$work/out" && grep -q '^     do: ' "$work/out" &&
        grep -qx 'x.pic was not made.' "$work/out" && grep -qxF -- "$line" "$work/out"
    judge "convert $way: $number of $file" $?
done 3<<'ROWS'
old|flags|15|flags|  flag of A  02  it must be 0, or 1 for set   <-- here
old|flags|15|flags|  mode of B  05  it must be 0: the flag says that there is none   <-- here
old|set|28|set|The mode registers of set, bytes 364 to 367 of block 16, its last: 01 ff 01 00
old|set|28|set|  flag of B  01  set   <-- here
new|empty|20|empty|empty has 0 bytes, 0 blocks.
old|byte|20|byte|byte has 1 byte, which is no multiple of 512.
new|long|20|long|long has 40960 bytes, 80 blocks.
new|damaged|21|damaged, block 3|Block 3, counted from 0, at byte 1536 of damaged, which has 17 blocks:
old|damaged|22|damaged, block 0|  kind         1  it must be 4, picture with mode registers   <-- here
new|four|22|four, block 0|It is a good picture of kind 4 as it stands: there is nothing to convert.
new|set|22|set, block 0|It is a good picture of kind 4 as it stands: there is nothing to convert.
old|one|22|one, block 0|It is a good picture of kind 1 as it stands: there is nothing to convert.
new|list|22|list, block 0|  kind         2  it must be 1, picture   <-- here
new|moved|23|moved, block 2|  number       3  it must be 2, its place   <-- here
new|used|24|used, block 0|  used       200  of 496 bytes of payload; 496 in every block but the last   <-- here
new|stray|24|stray, block 5|  byte 8       7  it must be 0: it has no use   <-- here
new|behind|24|behind, block 16|  byte 364     2  it must be 0: it is payload behind what is used   <-- here
new|short|25|short|Every block is good, but a picture of kind 1 has 8288 bytes, and not 8292.
old|cut|25|cut|Every block is good, but a picture of kind 4 has 8292 bytes, and not 8288.
ROWS
call "$staran" convert new pictures/list x.pic; [ $status -eq 1 ] && ! grep -q 'nothing to convert' "$work/out"; judge "of a list that is not said" $?
call "$staran" convert new pictures/stray x.pic; [ "$(grep -c '<-- here$' "$work/out")" -eq 1 ]; judge "of 24 the first byte that is wrong is marked, and no other" $?
cp pictures/list $'pictures/\377'; PYTHONIOENCODING=utf-8:strict call "$staran" convert new $'pictures/\377' x.pic
[ $status -eq 1 ] && [ ! -s "$work/err" ] && LC_ALL=C grep -q $'at byte 0 of \377, which has 1 block' "$work/out"; judge "a name that is no text" $?
call "$staran" convert new pictures/one $'\377.pic'; [ $status -eq 0 ] && cmp -s $'\377.pic' pictures/four && [ ! -s "$work/err" ]; judge "nor that of the file to be made" $?
call "$staran" convert new pictures/one $'\377.pic'; [ $status -eq 2 ] && [ ! -s "$work/out" ] && LC_ALL=C grep -qx $'staran: \377.pic: it is there, and is not written over: name a file that is not there' "$work/err" && cmp -s $'\377.pic' pictures/four; judge "which is not written over where it is there" $?
call "$staran" convert new pictures/stray $'\376.pic'; [ $status -eq 1 ] && [ ! -e $'\376.pic' ] && ! ls -d new.*/ >/dev/null 2>&1; judge "nor made of a picture that is refused, and no folder is left" $?
rm -f $'\377.pic'; call "$staran" convert new $'missing\377' x.pic; [ $status -eq 2 ] && [ ! -s "$work/out" ] && LC_ALL=C grep -qx $'./missing\377: No such file or directory' "$work/err" && [ ! -e x.pic ]; judge "no file of such a name, with the reason" $?
cp old.pic there.pic
complains "convert: a file that is there is not written over" 2 'staran: there.pic: it is there, and is not written over: name a file that is not there' "$staran" convert new pictures/one there.pic
cmp -s there.pic old.pic; judge "and is as it was" $?
complains "convert: not in place" 2 'there.pic: the same file as there.pic, and nothing is converted in place' "$staran" convert new there.pic there.pic
ln -s there.pic link.pic; complains "convert: nor by a link" 2 'link.pic: the same file as there.pic' "$staran" convert new there.pic link.pic
complains "convert: nor by another path" 2 'the same file as there.pic' "$staran" convert new there.pic "$work/good/../there.pic"
cmp -s there.pic old.pic; judge "all of which leave it as it was" $?
ln -s nothing dangling.pic; complains "convert: a link that leads nowhere is there too" 2 'dangling.pic: it is there' "$staran" convert new there.pic dangling.pic
[ ! -e nothing ]; judge "and nothing is made where it leads" $?
complains "convert: a folder for the file to be made" 2 'staran: good: a folder; name the file that is to be made in it' "$staran" convert new there.pic good
complains "convert: no file, with the reason" 2 'missing: No such file or directory' "$staran" convert new missing x.pic
complains "convert: a name that is too long" 2 'staran: a name has at most 4,095 bytes' "$staran" convert new there.pic "$(printf '%4094s' '' | tr ' ' x)"
complains "convert: a folder" 2 'staran: good: a folder; the picture in it is before.pic or after.pic' "$staran" convert old good x.pic
complains "convert: an empty name" 2 'an empty name is no file' "$staran" convert new '' x.pic
complains "convert: another" 2 'an empty name is no file' "$staran" convert new there.pic ''
complains "convert: no words" 2 'new or old, and two files: ./staran convert new FROM TO' "$staran" convert
complains "convert: neither new nor old" 2 'new or old, and two files' "$staran" convert there.pic x.pic
complains "convert: one file" 2 'two files: ./staran convert old FROM TO' "$staran" convert old there.pic
complains "convert: three files" 2 'two files: ./staran convert new FROM TO' "$staran" convert new there.pic x.pic y.pic
complains "convert: a file that cannot be made, with the reason" 2 'no/x.pic: No such file or directory' "$staran" convert new there.pic no/x.pic
grep -qx 'staran: nothing was converted: the reason stands above' "$work/err"; judge "and that nothing was converted" $?
if [ "$(id -u)" -ne 0 ]; then
    cp there.pic barred.pic; chmod 000 barred.pic; complains "convert: a file that may not be read" 2 'barred.pic: Permission denied' "$staran" convert new barred.pic x.pic
    mkdir shut; chmod 555 shut; complains "convert: a folder that may not be written" 2 'shut/x.pic: Permission denied' "$staran" convert new there.pic shut/x.pic
fi
[ ! -e x.pic ]; judge "none of which made anything" $?
# names of any kind
converted() { # NAME FROM TO WORD..: the words convert FROM, which is then made, to TO
    name=$1 from=$2 to=$3
    shift 3
    cp pictures/one "./$from"
    call "$staran" convert "$@"
    [ $status -eq 0 ] && cmp -s "./$to" pictures/four; judge "convert: $name" $?
    rm -f "./$from" "./$to"
}
converted "blanks" 'a picture  of words' 'another  one' new 'a picture  of words' 'another  one'
converted "dashes in front" -from --to new -from --to
converted "and after --" -from --to new -- -from --to
converted "names that are dashes alone" --- -- new -- --- --
converted "names of tasks" new old new new old
converted "quotes, a dollar and a star" "a'q\"\$d*" '*' new "a'q\"\$d*" '*'
converted "a backslash" 'from\nhere' 'to\tthere' new 'from\nhere' 'to\tthere'
complains "convert: and it is said as it is" 2 'from\nhere: No such file or directory' "$staran" convert new 'from\nhere' x.pic
mkdir 'a\nfolder'; complains "convert: by the command too" 2 'staran: a\nfolder: a folder;' "$staran" convert new 'a\nfolder' x.pic
converted "paths from the root" from to new "$work/from" "$work/to"
converted "a path from the root and one from here" from to new "$work/from" to
converted "into a folder" from good/to new from good/to
cp pictures/one good/from; mkdir -p good/deep
# shellcheck disable=SC2016
call sh -c 'cd good/deep && CDPATH=/ exec "$0" convert new ../from to' "$staran"; [ $status -eq 0 ] && cmp -s good/deep/to pictures/four; judge "convert: from the folder one stands in" $?
call bin/deep/again convert old good/deep/to through; [ $status -eq 0 ] && cmp -s through pictures/one; judge "convert: called through links" $?
ln -s ../pictures/one good/linked; call "$staran" convert new good/linked by; [ $status -eq 0 ] && cmp -s by pictures/four && [ ! -L by ]; judge "convert: a link to a picture" $?
timeout 60 "$staran" convert new pictures/one full.pic >/dev/full 2>err; status=$?; : >out
[ $status -eq 2 ] && grep -qx 'staran: standard output: No space left on device' err && cmp -s full.pic pictures/four; judge "convert: 2 for an output that takes nothing, and the file is made" $?
timeout 60 "$staran" convert old pictures/set full.2 >/dev/full 2>err; status=$?
[ $status -eq 2 ] && grep -qx 'staran: standard output: No space left on device' err && [ ! -e full.2 ]; judge "convert: and for a refusal" $?

# ---- list: a list shown as text, made of it, and what its stores reach
mkdir lists sheet
printf '%s\n' 'set a 13' 'store mode a address 255 from outside ; reaches 32 words' 'logic y one x' 'bytes 02 04 00 0D 00 00 00 00 ; refused 7 byte 2' 'mstore word 9 from m flip 128 ; reaches 1 word' >lists/text
"$blocks" --unfit list lists/list 0600020D00000000 02040200FF000000 000200000000001F 0204000D00000000 030101FF09800000
"$blocks" list lists/empty; "$blocks" --unfit list lists/three 000200; printf x >lists/byte; cp "$here/crates/program/data/before.pic" lists/picture
"$blocks" --unfit list lists/damaged "$(yes 0500000000000000 | head -n 200)"; printf '\001' | dd of=lists/damaged bs=1 seek=1600 conv=notrunc status=none
call "$staran" list show lists/list; [ $status -eq 0 ] && cmp -s "$work/out" lists/text && [ ! -s "$work/err" ]; judge "list show: the text, and nothing else" $?
call "$staran" list show lists/empty; [ $status -eq 0 ] && [ ! -s "$work/out" ] && [ ! -s "$work/err" ]; judge "list show: of no instructions" $?
for place in 0 1 4 00 004; do
    call "$staran" list show lists/list $place; [ $status -eq 0 ] && [ "$(cat "$work/out")" = "$(sed -n "$((10#$place + 1))p" lists/text)" ]; judge "list show: place $place" $?
done
complains "list show: a place behind the last" 2 'staran: 5: there is no such place: lists/list has 5 instructions, at the places 0 to 4' "$staran" list show lists/list 5
complains "list show: one far behind it" 2 '99999999999999999999: there is no such place' "$staran" list show lists/list 99999999999999999999
complains "list show: a place of none" 2 'staran: 0: there is no such place: lists/empty has no instruction' "$staran" list show lists/empty 0
complains "list show: a place that is no number" 2 'staran: one: no place; the places of a list are numbers, and the first is 0: ./staran list show FILE 0' "$staran" list show lists/list one
complains "list show: nor is that" 2 '-1: no place' "$staran" list show lists/list -1
complains "list show: nor nothing" 2 ': no place' "$staran" list show lists/list ''
"$blocks" list lists/one 0500000000000000; complains "list show: a place behind the only one" 2 'lists/one has 1 instruction, at place 0' "$staran" list show lists/one 1
# TASK FILE|NUMBER|WHAT is refused; the number is said, and nothing on standard error
while IFS='|' read -r task file number about <&3; do
    call "$staran" list "$task" "lists/$file"
    [ $status -eq 1 ] && [ ! -s "$work/err" ] && [ "$(head -n 1 "$work/out")" = "Refused: lists/$about." ] && [ "$(sed 1d "$work/out")" = "$("$staran" numbers "$number")" ]
    judge "list $task: $number of $file" $?
done 3<<'ROWS'
show|byte|20|byte
show|damaged|21|damaged, block 3
show|picture|22|picture, block 0
show|three|25|three
reach|damaged|21|damaged, block 3
reach|three|25|three
ROWS
call "$staran" list show lists/damaged 0; [ $status -eq 1 ] && [ "$(head -n 1 "$work/out")" = 'Refused: lists/damaged, block 3.' ]; judge "list show: of a damaged list no place either" $?
complains "list show: no file, with the reason" 2 'missing: No such file or directory' "$staran" list show missing
grep -qx 'staran: nothing was shown: the reason stands above' "$work/err"; judge "and that nothing was shown" $?
complains "list show: a folder" 2 'staran: good: a folder; the list in it is run.lst' "$staran" list show good
complains "list reach: a folder" 2 'staran: good: a folder; the list in it is run.lst' "$staran" list reach good
complains "list show: an empty name" 2 'an empty name is no file' "$staran" list show ''
complains "list show: a name that is too long" 2 'staran: a name has at most 4,095 bytes' "$staran" list show "$(printf '%4094s' '' | tr ' ' x)"
complains "list: no words" 2 'show, make or reach: ./staran list show FILE' "$staran" list
complains "list: none of its words" 2 'show, make or reach' "$staran" list lists/list
complains "list show: no file" 2 'one list, and at most one place: ./staran list show FILE [PLACE]' "$staran" list show
complains "list show: three words" 2 'one list, and at most one place' "$staran" list show lists/list 0 1
complains "list reach: no file" 2 'one list: ./staran list reach FILE' "$staran" list reach
complains "list reach: two files" 2 'one list: ./staran list reach FILE' "$staran" list reach lists/list lists/one
complains "list make: one word" 2 'a text and a folder: ./staran list make TEXT FOLDER' "$staran" list make lists/text
complains "list make: three words" 2 'a text and a folder' "$staran" list make lists/text sheet --replace
# reach: BYTES|LINES, of which the last says what they come to
while IFS='|' read -r bytes lines <&3; do
    "$blocks" --unfit list lists/stores "$bytes"; call "$staran" list reach lists/stores
    tr '|' '\n' <<<"$lines" >want; [ $status -eq 0 ] && cmp -s "$work/out" want && [ ! -s "$work/err" ]; judge "list reach: $(tail -n 1 want)" $?
done 3<<'ROWS'
|No store.
0500000000000000 000200000000001F|No store.
0500000000000000 020101FF09000000|1: store word 9 from m ; reaches 1 word|1 store; it reaches 1 word.
020101FE09000000|0: store mode 254 address 9 from m ; reaches 2 words|1 store; it reaches 2 words.
020101FF09000000 0301010009000000 020101FE09000000|0: store word 9 from m ; reaches 1 word|1: mstore slice 9 from m ; reaches 256 words|2: store mode 254 address 9 from m ; reaches 2 words|3 stores; the widest reaches 256 words.
020101FF09000000 020101FF0A000000|0: store word 9 from m ; reaches 1 word|1: store word 10 from m ; reaches 1 word|2 stores; the widest reaches 1 word.
0500000000000000 0201020009000000|1: store mode a address 9 from m ; reaches ? words|1 store; what instruction 1 reaches is not known: its register is not set in the list.
0201020009000000 0301030009000000|0: store mode a address 9 from m ; reaches ? words|1: mstore mode b address 9 from m ; reaches ? words|2 stores; what the instructions 0 and 1 reach is not known: their registers are not set in the list.
0201020009000000 060002FF00000000 0201020009000000 0201030009000000 0201030009000000|0: store mode a address 9 from m ; reaches ? words|2: store mode a address 9 from m ; reaches 1 word|3: store mode b address 9 from m ; reaches ? words|4: store mode b address 9 from m ; reaches ? words|4 stores; the widest that is known reaches 1 word; what the instructions 0, 3 and 4 reach is not known: their registers are not set in the list.
0700000000000000|1 instruction is refused by itself: ./staran list show says which.|No store.
0204000D00000000 020101FF09000000 0700000000000000|1: store word 9 from m ; reaches 1 word|2 instructions are refused by themselves: ./staran list show says which.|1 store; it reaches 1 word.
ROWS
call "$staran" list reach lists/list
printf '%s\n' '1: store mode a address 255 from outside ; reaches 32 words' '4: mstore word 9 from m flip 128 ; reaches 1 word' '1 instruction is refused by itself: ./staran list show says which.' '2 stores; the widest reaches 32 words.' >want
[ $status -eq 0 ] && cmp -s "$work/out" want; judge "list reach: places, and one that is refused by itself" $?
# make
gives "list make" 0 'sheet/run.lst: 5 instructions' "$staran" list make lists/text sheet
cmp -s sheet/run.lst lists/list && [ ! -s "$work/err" ] && [ "$(wc -l <"$work/out")" -eq 1 ] && [ "$(ls -A sheet)" = run.lst ]; judge "it is the list that the text was of, and nothing else is said or made" $?
echo resolve >lists/short
complains "list make: a list that is there is not written over" 2 'staran: sheet/run.lst: it is there, and is replaced only if told to: ./staran list make --replace TEXT FOLDER' "$staran" list make lists/short sheet
cmp -s sheet/run.lst lists/list; judge "and is as it was" $?
gives "list make --replace" 0 'sheet/run.lst: 1 instruction' "$staran" list make --replace lists/short sheet
cmp -s sheet/run.lst lists/one && [ "$(ls -A sheet)" = run.lst ] && [ ! -s "$work/err" ] && [ "$(stat -c %a sheet/run.lst)" = "$(printf '%o' $((0666 & ~0$(umask))))" ]; judge "it is the new one, for whom a new file is, and nothing is left beside it" $?
printf 'resolve\n\nhalt\n' >lists/wrong
complains "list make --replace: a text that is refused" 1 'lists/wrong:3:1: no instruction and no statement has this name; ' "$staran" list make --replace lists/wrong sheet
cmp -s sheet/run.lst lists/one && [ "$(ls -A sheet)" = run.lst ]; judge "leaves the old one, and nothing beside it" $?
complains "list make --replace: a text that is not there" 2 'missing: No such file or directory' "$staran" list make --replace missing sheet
grep -qx 'staran: no list was made: the reason stands above' "$work/err" && cmp -s sheet/run.lst lists/one && [ "$(ls -A sheet)" = run.lst ]; judge "does so too" $?
rm sheet/run.lst; gives "list make --replace: where there is none" 0 'sheet/run.lst: 5 instructions' "$staran" list make --replace lists/text sheet
rm sheet/run.lst; ln -s ../nothing sheet/run.lst; complains "list make: a link that leads nowhere is there too" 2 'sheet/run.lst: it is there' "$staran" list make lists/text sheet
call "$staran" list make --replace lists/text sheet; [ $status -eq 0 ] && [ ! -L sheet/run.lst ] && cmp -s sheet/run.lst lists/list && [ ! -e nothing ]; judge "list make --replace: it takes the link's place, and nothing is made where it leads" $?
rm sheet/run.lst; mkdir sheet/run.lst; for option in --replace --; do complains "list make $option: run.lst is a folder" 2 'staran: sheet/run.lst: a folder, and nothing is made in its place' "$staran" list make $option lists/text sheet; done
[ -z "$(ls -A sheet/run.lst)" ]; judge "in which nothing is made" $?
rmdir sheet/run.lst; : >lists/nothing; gives "list make: an empty text" 0 'sheet/run.lst: 0 instructions' "$staran" list make lists/nothing sheet; cmp -s sheet/run.lst lists/empty; judge "which makes the empty list" $?
remake() { rm -f sheet/run.lst; call "$staran" list make "$1" sheet; } # TEXT
sed 's/$/\r/' lists/text >lists/dos; remake lists/dos; [ $status -eq 0 ] && cmp -s sheet/run.lst lists/list; judge "list make: lines that end with CR LF" $?
head -c -1 lists/text >lists/open; remake lists/open; [ $status -eq 0 ] && cmp -s sheet/run.lst lists/list; judge "list make: no line feed behind the last line" $?
yes resolve | head -n 992 >lists/most; remake lists/most; [ $status -eq 0 ] && [ ! -s "$work/err" ] && [ "$(cat "$work/out")" = 'sheet/run.lst: 992 instructions' ]; judge "list make: as many as a run takes" $?
yes resolve | head -n 993 >lists/more; remake lists/more; [ $status -eq 0 ] && [ "$(cat "$work/out")" = 'sheet/run.lst: 993 instructions' ] && [ "$(cat "$work/err")" = 'staran: sheet/run.lst: a run in a folder takes at most 992 instructions, and refuses this list with 20 (docs/COMMAND.md)' ]; judge "list make: of one more that is said" $?
cp "$here/crates/program/data/before.pic" sheet; gives "and a run does so" 1 'l 20 0 0 0 0 0' "$staran" sheet
call "$staran" list show sheet/run.lst; cmp -s "$work/out" lists/more; judge "and it is shown all the same" $?
cp "$here/crates/program/data/before.pic" sheet; printf 'logic y one x ; all\nresolve\n' >lists/example; remake lists/example; gives "what is made, the program runs" 0 "$done_line" "$staran" sheet
# a text that is refused: NUMBER WHERE TEXT; the words are those of docs/numbers.tsv, on one line
said() { awk -F '\t' -v number="$1" '$1 == number { print $4 "; " $6 " (" $1 ")" }' "$here/docs/numbers.tsv"; }
refused_text() { # NUMBER WHERE TEXT
    printf '%b' "$3" >lists/bad; remake lists/bad
    [ $status -eq 1 ] && [ ! -s "$work/out" ] && [ -n "$(said "$1")" ] && [ "$(cat "$work/err")" = "lists/bad:$2: $(said "$1")" ] && [ "$(ls -A sheet)" = $'after.pic\nbefore.pic' ]; judge "list make: $1 at $2" $?
}
while read -r number where text <&3; do refused_text "$number" "$where" "$text"; done 3<<'ROWS'
60 2:1 resolve\nResolve\n
61 1:7 logic z one m\n
62 1:9 logic x nxor m\n
63 1:6 setm a\n
64 1:12 store word 256 from m\n
65 1:14 store word 9 m\n
66 1:20 setm m shift 8 mod 8\n
67 3:9 \n\nresolve m\n
68 1:7 bytes 0G 01 02 03 04 05 06 07\n
69 1:13 store word 9\n
70 1:7 field ninechars 0 8\n
71 2:7 field a 0 8\nfield a 8 8\n
30 1:11 field a 0 65\n
31 1:13 field a 249 8\n
73 1:10 greatest a\n
74 3:7 field a 0 8\nfield b 8 9\nsum a b into a\n
32 3:14 field a 0 8\nfield s 7 8\nsum a a into s\n
75 2:1 reach at most 1 word\nstore slice 9 from m\n
76 2:8 field a 0 8\nless a x\n
34 2:9 field a 0 8\nequal a 256\n
ROWS
refused_text 72 257:7 "$(printf 'field f%d 0 8\\n' $(seq 257))"
refused_text 77 3:1 'field a 0 8\nsetm outside\nless a 5\n' # 77
rm -f sheet/run.lst sheet/in.itm # 77: made by a build that does not have the number yet
yes resolve | head -n 4097 >lists/many; remake lists/many; [ $status -eq 1 ] && [ ! -s "$work/out" ] && [ "$(cat "$work/err")" = "lists/many: $(said 3)" ] && [ ! -e sheet/run.lst ]; judge "list make: 4,097 instructions, which is of no line" $?
yes '; a comment' | head -c 1048577 >lists/long; remake lists/long; [ $status -eq 1 ] && [ ! -s "$work/out" ] && [ "$(cat "$work/err")" = "lists/long: $(said 50)" ] && [ ! -e sheet/run.lst ]; judge "list make: 1,048,577 characters, which are of no line" $?
grep -qF "    list.txt:3:7: $(said 61)" "$here/docs/COMMAND.md"; judge "docs/COMMAND.md: a refusal as it is said" $?
complains "list make: no folder" 2 'staran: nowhere: no folder' "$staran" list make lists/text nowhere
complains "list make: a file for the folder" 2 'staran: lists/text: no folder' "$staran" list make lists/text lists/text
complains "list make: an empty name for it" 2 'an empty name is no folder' "$staran" list make lists/text ''
complains "list make: an empty name for the text" 2 'an empty name is no file' "$staran" list make '' sheet
complains "list make: a folder for the text" 2 'staran: good: a folder; name the file that has the text' "$staran" list make good sheet
complains "list make: no text, with the reason" 2 'missing: No such file or directory' "$staran" list make missing sheet
complains "list make: a name that is too long" 2 'staran: a name has at most 4,095 bytes' "$staran" list make "$(printf '%4094s' '' | tr ' ' x)" sheet
if [ "$(id -u)" -ne 0 ]; then
    cp lists/text lists/barred; chmod 000 lists/barred; complains "list make: a text that may not be read" 2 'lists/barred: Permission denied' "$staran" list make lists/barred sheet
    complains "list show: a list that may not be read" 2 'lists/barred: Permission denied' "$staran" list show lists/barred
    mkdir closed; chmod 555 closed; complains "list make: a folder that may not be written" 2 'staran: closed: no new list can be made there: Permission denied' "$staran" list make lists/text closed
    complains "list make --replace: nor with it" 2 'staran: closed: no new list can be made there: Permission denied' "$staran" list make --replace lists/text closed
    chmod 755 closed; "$blocks" list closed/run.lst; chmod 555 closed; complains "list make --replace: nor a list that is there" 2 'closed: no new list can be made there' "$staran" list make --replace lists/text closed
    cmp -s closed/run.lst lists/empty; judge "which is as it was" $?
    chmod 755 closed
fi
[ "$(ls -A sheet)" = $'after.pic\nbefore.pic' ]; judge "none of which made anything" $?
# names of any kind: the text, the folder, and then the list in it
both_ways() { # NAME TEXT FOLDER
    mkdir -p -- "./$3"; cp lists/text "./$2"
    call "$staran" list make -- "$2" "$3"; printf '%s\n' "$3/run.lst: 5 instructions" >want
    [ $status -eq 0 ] && cmp -s "$work/out" want && cmp -s "./$3/run.lst" lists/list && call "$staran" list show -- "$3/run.lst" && [ $status -eq 0 ] && cmp -s "$work/out" lists/text
    judge "list: $1" $?
    printf 'resolve\nhalt\n' >"./$2"; call "$staran" list make --replace -- "$2" "$3"; printf '%s\n' "$2:2:1: $(said 60)" >want
    [ $status -eq 1 ] && cmp -s "$work/err" want && cmp -s "./$3/run.lst" lists/list && [ "$(ls -A -- "./$3")" = run.lst ]; judge "list: and a refusal is said of it" $?
    rm -rf -- "./$2" "./$3"
}
both_ways "blanks" 'a text  of words' 'a folder  of  words'
both_ways "dashes in front" -text --folder
both_ways "dashes alone" -- ---
both_ways "a text that is named as the option, and a folder named as a task" --replace reach
both_ways "quotes, a dollar and a star" "a'q\"\$t*" "a'q\"\$f*"
both_ways "a backslash" 'text\nhere' 'folder\there'
both_ways "line feeds" $'a\ntext\n' $'a\nfolder'
both_ways "what is no text" $'text\377' $'folder\377'
cp lists/text ./-text; call "$staran" list make -text sheet/; [ $status -eq 0 ] && [ "$(cat "$work/out")" = 'sheet/run.lst: 5 instructions' ]; judge "list make: a dash without --, and a slash behind the folder" $?
call "$staran" list make --replace "$work/-text" "$work/sheet"; [ $status -eq 0 ] && [ "$(cat "$work/out")" = "$work/sheet/run.lst: 5 instructions" ]; judge "list make: paths from the root" $?
# shellcheck disable=SC2016
call sh -c 'cd sheet && CDPATH=/ exec "$0" list make --replace ../lists/short .' "$staran"; [ $status -eq 0 ] && [ "$(cat "$work/out")" = './run.lst: 1 instruction' ] && cmp -s sheet/run.lst lists/one; judge "list make: in the folder one stands in" $?
call bin/deep/again list show sheet/run.lst; [ $status -eq 0 ] && [ "$(cat "$work/out")" = resolve ]; judge "list show: called through links" $?
ln -s sheet sheeted; call "$staran" list make --replace lists/text sheeted; [ $status -eq 0 ] && cmp -s sheet/run.lst lists/list; judge "list make: a link to a folder" $?
# shellcheck disable=SC2016
call sh -c '"$0" list show lists/list | "$0" list make --replace /dev/stdin sheet' "$staran"; [ $status -eq 0 ] && cmp -s sheet/run.lst lists/list; judge "list make: a text from a pipe" $?
rm sheet/run.lst; "$blocks" --unfit list lists/any "$(python 'import random; print(random.Random(6).randbytes(8 * 500).hex())')"
call "$staran" list show lists/any; cp "$work/out" lists/any.txt; call "$staran" list make lists/any.txt sheet; [ $status -eq 0 ] && cmp -s sheet/run.lst lists/any; judge "list: 500 instructions of any bytes are shown, and made again as they were" $?
for task in show reach; do
    timeout 60 "$staran" list $task lists/list >/dev/full 2>err; status=$?; : >out
    [ $status -eq 2 ] && grep -qx 'staran: standard output: No space left on device' err; judge "list $task: 2 for an output that takes nothing, with the reason" $?
done
timeout 60 "$staran" list make --replace lists/short sheet >/dev/full 2>err; status=$?
[ $status -eq 2 ] && grep -qx 'staran: standard output: No space left on device' err && cmp -s sheet/run.lst lists/one; judge "list make: 2 for an output that takes nothing, and the list is made" $?

# ---- list make where the text brings items: FOLDER/in.itm is made as well
printf 'field a 0 8\nless a 5\n' >lists/search; printf 'field a 0 8\nless b 5\n' >lists/lost
python 'files.write("lists/search.lst", files.blocks(2, files.search_list(True, 0, 8)))
files.write("lists/search.itm", files.blocks(3, files.search_items(5, 8)))'
"$blocks" list lists/old.lst 000200000000001F 0404000000000000; "$blocks" items lists/old.itm "$(printf '%064d' 7)"; cp lists/one lists/short.lst
place() { rm -rf "pair/${1:?}"; [ "$2" = - ] || cp "$2" "pair/$1"; } # NAME FILE: it is in pair under that name, or for - nothing is
holds() { # LIST ITEMS: these are in pair, or for - none of that name, and nothing else is
    for entry in run.lst in.itm; do
        if [ "$1" = - ]; then [ ! -e pair/$entry ] && [ ! -L pair/$entry ]; else cmp -s pair/$entry "$1"; fi || return
        shift
    done
    [ -z "$(find pair -mindepth 1 ! -name run.lst ! -name in.itm)" ]
}
files_of() { # LETTERS [TEXT]: the names of list and items that the two letters stand for: o old ones, n those of the text
    for at in 0:lst 1:itm; do case ${1:${at%:*}:1} in o) echo "lists/old.${at#*:}" ;; n) echo "lists/$2.${at#*:}" ;; *) echo - ;; esac; done
}
# HAD|OPTION|TEXT|STATUS|HAS|SENTENCE: of list and items in the folder before and after; the sentence is the first line that is printed or said
mkdir pair
while IFS='|' read -r had option text want has sentence <&3; do
    mapfile -t before < <(files_of "$had" "$text"); mapfile -t after < <(files_of "$has" "$text")
    place run.lst "${before[0]}"; place in.itm "${before[1]}"; call "$staran" list make "$option" "lists/$text" pair
    [ $status -eq "$want" ] && holds "${after[@]}" && [ "$(cat "$work/out" "$work/err" | head -n 1)" = "$sentence" ]; judge "list make $option: the text $text, where there is $had: $has" $?
done 3<<'ROWS'
--|--|search|0|nn|pair/run.lst: 26 instructions
--|--replace|search|0|nn|pair/run.lst: 26 instructions
o-|--|search|2|o-|staran: pair/run.lst: it is there, and is replaced only if told to: ./staran list make --replace TEXT FOLDER
o-|--replace|search|0|nn|pair/run.lst: 26 instructions
-o|--|search|2|-o|staran: pair/in.itm: it is there, and is replaced only if told to: ./staran list make --replace TEXT FOLDER; no list was made
-o|--replace|search|0|nn|pair/run.lst: 26 instructions
oo|--|search|2|oo|staran: pair/run.lst: it is there, and is replaced only if told to: ./staran list make --replace TEXT FOLDER
oo|--replace|search|0|nn|pair/run.lst: 26 instructions
-o|--|short|0|no|pair/run.lst: 1 instruction
oo|--replace|short|0|no|pair/run.lst: 1 instruction
o-|--replace|short|0|n-|pair/run.lst: 1 instruction
oo|--|short|2|oo|staran: pair/run.lst: it is there, and is replaced only if told to: ./staran list make --replace TEXT FOLDER
oo|--replace|missing|2|oo|./lists/missing: No such file or directory
ROWS
for had in -- -o oo; do
    mapfile -t before < <(files_of $had); place run.lst "${before[0]}"; place in.itm "${before[1]}"; call "$staran" list make --replace lists/lost pair
    [ $status -eq 1 ] && [ ! -s "$work/out" ] && [ "$(cat "$work/err")" = "lists/lost:2:6: $(said 73)" ] && holds "${before[@]}"; judge "list make --replace: a text that is refused, where there is $had" $?
done
place run.lst -; place in.itm -; call "$staran" list make lists/search pair; printf '%s\n' 'pair/run.lst: 26 instructions' 'pair/in.itm: 8 items' >want
[ $status -eq 0 ] && cmp -s "$work/out" want && [ ! -s "$work/err" ] && [ "$(stat -c %a pair/run.lst pair/in.itm | sort -u)" = "$(printf '%o' $((0666 & ~0$(umask))))" ]; judge "list make: both are said, and are for whom new files are" $?
echo 'field a 0 1' >lists/single; echo 'less a 1' >>lists/single; call "$staran" list make --replace lists/single pair; [ $status -eq 0 ] && [ "$(sed -n 2p "$work/out")" = 'pair/in.itm: 1 item' ]; judge "list make: one item" $?
for option in --replace --; do
    place run.lst -; place in.itm -; mkdir pair/in.itm; complains "list make $option: in.itm is a folder" 2 'staran: pair/in.itm: a folder, and nothing is made in its place; no list was made' "$staran" list make $option lists/search pair
    [ "$(ls -A pair)" = in.itm ] && [ -z "$(ls -A pair/in.itm)" ]; judge "and nothing is made in it, nor a list" $?
done
call "$staran" list make lists/short pair; [ $status -eq 0 ] && cmp -s pair/run.lst lists/one && [ -d pair/in.itm ] && [ "$(ls -A pair)" = $'in.itm\nrun.lst' ]; judge "list make: unless the text brings no items" $?
rm -r pair/in.itm pair/run.lst; ln -s ../nothing pair/in.itm; complains "list make: in.itm is a link that leads nowhere" 2 'pair/in.itm: it is there' "$staran" list make lists/search pair
call "$staran" list make --replace lists/search pair; [ $status -eq 0 ] && [ ! -L pair/in.itm ] && holds lists/search.lst lists/search.itm && [ ! -e nothing ]; judge "list make --replace: items take its place, and nothing is made where it leads" $?
for entry in run.lst in.itm; do
    rm -rf pair other; mkdir pair other; ln -s ../other pair/$entry; complains "list make --replace: $entry is a link to a folder" 2 "staran: pair/$entry: a folder, and nothing is made in its place" "$staran" list make --replace lists/search pair
    [ "$(ls -A pair)" = $entry ] && [ -L pair/$entry ] && [ -z "$(ls -A other)" ]; judge "and nothing is made there, nor where it leads" $?
done
rm -rf pair other; mkdir pair other; ln -s ../other pair/run.lst; complains "list make --replace: and so for a list alone" 2 'staran: pair/run.lst: a folder, and nothing is made in its place' "$staran" list make --replace lists/short pair
[ -L pair/run.lst ] && [ -z "$(ls -A other)" ]; judge "nor is anything made there" $?
rm pair/run.lst; mkdir pair/run.lst.new.mine; call "$staran" list make --replace lists/search pair; [ $status -eq 0 ] && [ "$(ls -A pair)" = $'in.itm\nrun.lst\nrun.lst.new.mine' ]; judge "list make: what another left is in nobody's way, and stays" $?; rmdir pair/run.lst.new.mine
# names of any kind, a pipe, and an output that takes nothing
name=$'--odd  f*o"l\'d\\er\n'; mkdir -- "$name"; call "$staran" list make -- lists/search "$name/"; printf '%s\n' "$name/run.lst: 26 instructions" "$name/in.itm: 8 items" >want
[ $status -eq 0 ] && cmp -s "$work/out" want && cmp -s "./$name/run.lst" lists/search.lst && cmp -s "./$name/in.itm" lists/search.itm && [ "$(ls -A "./$name")" = $'in.itm\nrun.lst' ]; judge "list make: items in a folder of any name" $?
# shellcheck disable=SC2016
call sh -c 'cd pair && "$0" list make --replace /dev/stdin . <../lists/search' "$staran"; [ $status -eq 0 ] && [ "$(cat "$work/out")" = $'./run.lst: 26 instructions\n./in.itm: 8 items' ] && holds lists/search.lst lists/search.itm; judge "list make: items of a text from a pipe, in the folder one stands in" $?
place run.lst -; place in.itm -; timeout 60 "$staran" list make lists/search pair >/dev/full 2>err; status=$?; : >out
[ $status -eq 2 ] && grep -qx 'staran: standard output: No space left on device' err && holds lists/search.lst lists/search.itm; judge "list make: 2 for an output that takes nothing, and both are made" $?
# how much a run takes
several_items() { # COUNT: a text that brings so many, in searches of 31 bits
    { echo 'field a 0 31'; for _ in $(seq $(($1 / 31))); do echo 'equal a 9'; done; [ $(($1 % 31)) -eq 0 ] || printf 'field b 0 %d\nequal b 1\n' $(($1 % 31)); } >lists/items; call "$staran" list make --replace lists/items pair
}
many_items='a run in a folder takes at most 248 items, and refuses these with 20 (docs/COMMAND.md)' many_steps='a run in a folder takes at most 992 instructions, and refuses this list with 20 (docs/COMMAND.md)'
several_items 248; [ $status -eq 0 ] && [ ! -s "$work/err" ] && [ "$(sed -n 2p "$work/out")" = 'pair/in.itm: 248 items' ]; judge "list make: as many items as a run takes" $?
cp "$here/crates/program/data/before.pic" pair; gives "and it takes them" 0 'r 0 0 0 760 248 0' "$staran" pair
several_items 249; [ $status -eq 0 ] && [ "$(sed -n 2p "$work/out")" = 'pair/in.itm: 249 items' ] && [ "$(cat "$work/err")" = "staran: pair/in.itm: $many_items" ]; judge "list make: of one more that is said" $?
gives "and a run refuses them" 1 'i 20 0 0 0 0 0' "$staran" pair
{ cat lists/items; yes resolve | head -n 227; } >lists/more; call "$staran" list make --replace lists/more pair; [ $status -eq 0 ] && [ "$(cat "$work/err")" = "staran: pair/in.itm: $many_items" ] && [ "$(head -n 1 "$work/out")" = 'pair/run.lst: 992 instructions' ]; judge "list make: but not of as many instructions as it takes" $?
echo resolve >>lists/more; call "$staran" list make --replace lists/more pair; [ $status -eq 0 ] && printf '%s\n' "staran: pair/run.lst: $many_steps" "staran: pair/in.itm: $many_items" | cmp -s - "$work/err"; judge "list make: of too many of both" $?
several_items 1024; [ $status -eq 0 ] && [ "$(sed -n 2p "$work/out")" = 'pair/in.itm: 1024 items' ]; judge "list make: 1,024 items" $?
cp pair/run.lst lists/kept.lst; cp pair/in.itm lists/kept.itm; rm pair/before.pic pair/after.pic
several_items 1025; [ $status -eq 1 ] && [ ! -s "$work/out" ] && [ "$(cat "$work/err")" = "lists/items: $(said 4)" ] && holds lists/kept.lst lists/kept.itm; judge "list make: one more, which is of no line" $?
# the text is run: the page's lines, and the marks that the resolver tells of
sed -n '/^    field height 0 32$/,/^    less /s/^    //p' "$here/docs/TEXT.md" >lists/page; call "$staran" list make --replace lists/page pair
[ $status -eq 0 ] && sed -n 's,^    FOLDER/\([a-z.]*: [0-9]* .*s\)$,pair/\1,p' "$here/docs/COMMAND.md" | cmp -s - "$work/out"; judge "docs/COMMAND.md: what is printed of docs/TEXT.md's sum and search" $?
{ cat lists/page; echo resolve; } >lists/page.2; call "$staran" list make --replace lists/page.2 pair
python 'import random
draw = random.Random(2)
values = [(draw.randrange(30000), draw.randrange(2 ** 32) if w % 3 else 47) for w in range(256)]
files.write("pair/before.pic", files.picture([files.station(a, b, 9) for a, b in values]))
low = [w for w in range(256) if sum(values[w]) % 2 ** 32 < 20000]
files.write("want", ("r 0 0 0 260 32 1\n%s\n" % (bytes([1]) + files.two(low[0]) + files.two(len(low)) + bytes(27)).hex()).encode())'
call "$staran" pair; [ $status -eq 0 ] && cmp -s "$work/out" want; judge "what is made of statements, the program runs: the stations below 20,000 are told" $?
rm pair/in.itm; call "$staran" why pair; textual "an item that a search lacks" $'logic y load outside\nInstruction 162'
rm -rf pair; mkdir pair; printf 'field a 6 2\nsum a a into a\n' >lists/sum; call "$staran" list make lists/sum pair; call "$staran" list reach pair/run.lst
[ $status -eq 0 ] && [ "$(cat "$work/out")" = $'3: store slice 6 from y ; reaches 256 words\n8: store slice 7 from y ; reaches 256 words\n2 stores; the widest reaches 256 words.' ]; judge "list reach: of a sum" $?
call "$staran" list show pair/run.lst 4; [ $status -eq 0 ] && [ "$(cat "$work/out")" = 'logic x-if-y not x' ]; judge "list show: of a sum" $?

# what is not moved: a stand-in for mv that fails at one of its calls, or waits there until it is let go; nothing is then as if no list had been asked for
mkdir moving
cat >moving/mv <<STAND
#!/bin/sh
at=\$((\$(cat "$work/moves" 2>/dev/null || echo 0) + 1))
echo \$at >"$work/moves"
[ \$at -ne "\${FAILS:-0}" ] && [ \$at -lt "\${FROM:-99}" ] || { echo 'mv: cannot move: No room' >&2; exit 1; }
[ \$at -ne "\${WAITS:-0}" ] || { : >"$work/held"; while [ -e "$work/hold" ]; do sleep 0.02; done; }
exec "$(command -v mv)" "\$@"
STAND
chmod +x moving/mv
# HAD TEXT CALL NAME: it is this file that could not be moved
while read -r had text at name <&3; do
    mapfile -t before < <(files_of "$had"); place run.lst "${before[0]}"; place in.itm "${before[1]}"; rm -f moves
    FAILS=$at PATH=$work/moving:$PATH call "$staran" list make --replace "lists/$text" pair
    [ $status -eq 2 ] && [ ! -s "$work/out" ] && [ "$(wc -l <"$work/err")" -eq 1 ] && grep -qx "staran: pair/$name: No room: what was there is as it was" "$work/err" && holds "${before[@]}"; judge "list make: move $at of the text $text fails, where there is $had" $?
done 3<<'ROWS'
oo search 1 run.lst
oo search 2 in.itm
oo search 3 in.itm
oo search 4 run.lst
o- search 1 run.lst
o- search 2 in.itm
o- search 3 run.lst
-o search 1 in.itm
-o search 2 in.itm
-o search 3 run.lst
-- search 1 in.itm
-- search 2 run.lst
oo short 1 run.lst
-- short 1 run.lst
ROWS
# moves that fail from one on: the old files cannot be put back either, and are not lost
for at in 2 3 4; do
    place run.lst lists/old.lst; place in.itm lists/old.itm; rm -f moves; FROM=$at PATH=$work/moving:$PATH call "$staran" list make --replace lists/search pair
    for name in lst itm; do find pair -type f -exec cmp -s {} lists/old.$name \; -print; done >kept
    [ $status -eq 2 ] && [ "$(wc -l <kept)" -eq 2 ] && grep -q "what was there is in .*pair/run.lst.new.*/old" "$work/err" && ! grep -q 'as it was' "$work/err"; judge "list make: every move from $at on fails: the old list and items are there still, and it is said where" $?
    rm -rf pair/run.lst.new.*
done
# shellcheck disable=SC2016
printf '#!/bin/sh\ncase $* in */old) echo "mkdir: cannot create: No room" >&2; exit 1 ;; esac\nexec "%s" "$@"\n' "$(command -v mkdir)" >moving/mkdir; chmod +x moving/mkdir
place run.lst lists/old.lst; place in.itm lists/old.itm; PATH=$work/moving:$PATH call "$staran" list make --replace lists/search pair; rm moving/mkdir
[ $status -eq 2 ] && [ "$(cat "$work/err")" = 'staran: pair/run.lst: No room: what was there is as it was' ] && holds lists/old.lst lists/old.itm; judge "list make: no place for the old ones: that is said, and they are as they were" $?
# SIGNAL HAD TEXT CALL: the command is interrupted while that move is under way, and is no longer
while read -r signal had text at <&3; do
    mapfile -t before < <(files_of "$had"); place run.lst "${before[0]}"; place in.itm "${before[1]}"; rm -f moves held; : >hold
    WAITS=$at PATH=$work/moving:$PATH python3 -c 'import os, signal, sys; signal.signal(signal.SIGINT, signal.SIG_DFL); os.execv(sys.argv[1], sys.argv[1:])' "$staran" list make --replace "lists/$text" pair >out 2>err & one=$!
    for _ in $(seq 400); do [ ! -e held ] || break; sleep 0.02; done
    kill "-$signal" $one; rm hold; wait $one; status=$?
    [ $status -eq 130 ] && [ -e held ] && [ ! -s out ] && holds "${before[@]}"; judge "list make: $signal at move $at of the text $text, where there is $had" $?
done 3<<'ROWS'
INT oo search 1
INT oo search 2
INT oo search 3
INT oo search 4
TERM oo search 1
TERM oo search 2
TERM oo search 3
TERM oo search 4
TERM o- search 1
TERM o- search 2
TERM o- search 3
TERM -o search 1
TERM -o search 2
TERM -o search 3
INT -- search 1
INT -- search 2
ROWS

# ---- the demonstration: its list is made of demo/run.txt
mkdir shown text; "$blocks" demo shown; for name in before.pic in.itm; do cmp -s shown/$name "$here/demo/$name"; judge "the demonstration's $name is that of tests/make_blocks.py" $?; done
gives "demo/run.txt is made" 0 'text/run.lst: 519 instructions' "$staran" list make "$here/demo/run.txt" text
cmp -s text/run.lst shown/run.lst && [ "$(ls -A text)" = run.lst ]; judge "and is the list of tests/make_blocks.py, and no items" $?
{ "$staran" shown; echo; "$blocks" heights shown; } >want; call "$staran"; [ $status -eq 0 ] && [ ! -s "$work/err" ] && tail -n "$(wc -l <want)" "$work/out" | cmp -s - want && [ "$(wc -l <"$work/out")" -eq $(($(wc -l <want) + 3)) ]; judge "the demonstration: what the program prints of it, and the heights" $?

# ---- several folders
call "$staran" good bad 'two words  and more'
printf '%s\n' good: "$done_line" "$(sed -n 2p <<<"$("$staran" good)")" bad: 'r 7 0 2 0 0 0' 'two words  and more:' "$done_line" "$(sed -n 2p <<<"$("$staran" good)")" >want
[ $status -eq 1 ] && cmp -s want "$work/out" && grep -q '3 of 3 folders' "$work/err"; judge "several: each one's lines under its name, in order, and the worst status" $?
call "$staran" good work; [ $status -eq 0 ]; judge "several: all done" $?
call "$staran" good bad nowhere; [ $status -eq 2 ] && grep -qx 'staran: nowhere: no folder' "$work/err" && grep -qx 'r 7 0 2 0 0 0' "$work/out"; judge "several: one that is no folder" $?
for k in $(seq 40); do folder "many/$k"; rm -f "many/$k/after.pic"; done
call "$staran" many/*; [ $status -eq 0 ] && [ "$(grep -cx "$done_line" "$work/out")" -eq 40 ] && [ "$(find many -name after.pic | wc -l)" -eq 40 ]; judge "several: 40 folders" $?
call "$staran" good good; [ $status -eq 0 ] && [ "$(grep -cx "$done_line" "$work/out")" -eq 2 ]; judge "several: the same one twice" $?

# ---- building, with a stand-in for rt that counts its calls and does as it is told
copy=$work/copy
mkdir -p "$copy/docs" "$copy/include" "$copy/tests" stand
cp -r "$here/staran" "$here/crates.txt" "$here/demo" "$here/tools" "$copy"
(cd "$here" && find crates -name out -prune -o -type f -print0 | tar -c --null -T -) | tar -x -C "$copy"
cp "$here/docs/numbers.tsv" "$copy/docs"; cp "$here/include/staran.h" "$copy/include"; cp "$here/tests/kit.sh" "$here/tests/make_blocks.py" "$copy/tests"
# shellcheck source=tests/kit.sh
. "$here/tests/kit.sh"
cat >stand/rt <<STAND
#!/bin/sh
case "\$* \$PWD" in 'run '*/copy/crates/program) ;; *) exit 2 ;; esac
echo \$\$ >>"$work/calls"
echo 'note: of the stand-in'
echo 'crate bits: modules loaded=0 checked=3'
echo 'logic=proved functions=1'
[ ! -e "$work/hold" ] || { : >"$work/held"; while [ -e "$work/hold" ]; do sleep 0.05; done; }
echo 'crate program: modules loaded=0 checked=1'
[ ! -e "$work/fail" ] || { echo 'logic=not-proved'; exit 1; }
mkdir -p out
cp "$here/crates/program/out/program" out/program
echo 'logic=proved functions=1'
STAND
chmod +x stand/rt
kit_home=${RATTLE_HOME:-$kit}
copied() { RATTLE_HOME=$kit_home PATH=$work/stand:$PATH timeout 60 "$copy/staran" "$@"; }
calls() { if [ -e calls ]; then wc -l <calls; else echo 0; fi; }
total=$(awk '/^[a-z0-9_]+:/ { name = $1; sub(/:.*/, "", name); sub(/^[^:]*:/, ""); on[name] = $0 }
    function all(n,   i, k, d) { if (!(n in on) || seen[n]++) return; c++; k = split(on[n], d, " "); for (i = 1; i <= k; i++) all(d[i]) } END { all("program"); print c }' "$here/crates.txt")
built() { # NAME CALLS STATUS [FOLDER]: a run gives the status, and rt has been called so often by then
    copied "${4:-good}" >"$work/out" 2>"$work/err"; status=$?
    [ "$status" -eq "$3" ] && [ "$(calls)" -eq "$2" ]
    judge "$1" $?
}
built "no program: it is built, then run" 1 0
grep -q 'some ten minutes' "$work/err" && grep -qx "staran: 1 of $total crates: bits proved" "$work/err" && ! grep -q 'note:' "$work/err" && grep -q 'note:' "$copy/target/staran.log"
judge "it says how long that takes and which of how many crates is proved, and keeps the notes" $?
built "nothing changed: nothing is built" 1 0; [ ! -s "$work/err" ]; judge "and nothing is said" $?
echo '// more' >>"$copy/crates/bits/src/lib.rt"; built "a source changed: it is built again" 2 0
touch -d '2001-01-01' "$copy/crates/bits/src/lib.rt"; built "only a time changed: nothing is built" 2 0
echo '// less' >"$copy/crates/bits/src/lib.rt"; touch -d '2001-01-01' "$copy/crates/bits/src/lib.rt"; built "a source changed under an old time: it is built again" 3 0
echo >>"$copy/crates/promises/src/lib.rt"; built "a crate that the program does not stand on changed: nothing is built" 3 0
echo '# an edit' >"$copy/crates/bits/must-fail/another.edit"; built "a must-fail edit changed: nothing is built" 3 0
echo x >>"$copy/crates/program/out/program"; built "the program is another than the one built: it is built again" 4 0
rm "$copy/crates/program/out/program"; built "the program is gone: it is built again" 5 0
: >fail; echo '// no' >>"$copy/crates/bits/src/lib.rt"; built "a build that fails: nothing is run" 6 2
[ ! -s "$work/out" ] && grep -q "what the checker said is in $copy/target/staran.log" "$work/err" && grep -q 'logic=not-proved' "$copy/target/staran.log"; judge "and it says where the checker's notes are" $?
built "the program of before is not run either" 7 2
rm fail; built "the next build stands" 8 0
# two commands at once
: >hold; rm -f held; echo '// two' >>"$copy/crates/bits/src/lib.rt"
copied good >out.1 2>/dev/null & one=$!
for _ in $(seq 400); do [ ! -e held ] || break; sleep 0.02; done
copied good >out.2 2>/dev/null & two=$!
sleep 0.3; rm hold; wait $one; first=$?; wait $two; second=$?
[ $first -eq 0 ] && [ $second -eq 0 ] && cmp -s out.1 out.2 && { ! command -v flock >/dev/null || [ "$(calls)" -eq 9 ]; }; judge "two commands at once: one builds, and both run" $?
# an interrupted build
: >calls; : >hold; rm -f held; echo '// more' >>"$copy/crates/bits/src/lib.rt"
RATTLE_HOME=$kit_home PATH=$work/stand:$PATH "$copy/staran" good >out.1 2>/dev/null & one=$!
for _ in $(seq 400); do [ ! -e held ] || break; sleep 0.02; done
kill -TERM $one; wait $one 2>/dev/null; kill -TERM "$(tail -n 1 calls)" 2>/dev/null; rm hold
[ ! -s out.1 ]; judge "an interrupted build runs nothing" $?
: >calls; built "after an interrupted build it is built again" 1 0
# what cannot be written, and what is not there
rm -rf "$copy/target"; : >"$copy/target"
copied good >"$work/out" 2>"$work/err"; status=$?
[ $status -eq 2 ] && [ ! -s "$work/out" ] && grep -q "$copy/target cannot be written" "$work/err" && [ "$(wc -l <"$work/err")" -eq 1 ]; judge "a checkout that cannot be written: a sentence" $?
rm "$copy/target"; copied good >/dev/null 2>&1
if [ "$(id -u)" -ne 0 ]; then
    chmod -R a-w "$copy"; built "a checkout that cannot be written, with its program built: it is run" 2 0; chmod -R u+w "$copy"
fi
echo '// convert' >>"$copy/crates/bits/src/lib.rt"; copied convert new pictures/one built.pic >"$work/out" 2>"$work/err"; status=$?
[ $status -eq 0 ] && [ "$(calls)" -eq 3 ] && grep -q 'building the program' "$work/err" && cmp -s built.pic pictures/four; judge "convert builds too" $?
echo '// list' >>"$copy/crates/bits/src/lib.rt"; copied list show lists/list >"$work/out" 2>"$work/err"; status=$?
[ $status -eq 0 ] && [ "$(calls)" -eq 4 ] && grep -q 'building the program' "$work/err" && cmp -s "$work/out" lists/text; judge "list builds too" $?
mkdir few
for tool in sh dirname readlink cat awk sed find sort sha256sum uname mktemp cp rm mv mkdir paste seq getconf wc head flock chmod sleep; do
    at=$(command -v $tool) && ln -s "$at" few/$tool
done
ln -s "$(command -v timeout)" few/timeout
ln -s "$(command -v grep)" few/grep
RATTLE_HOME=$kit_home PATH=$work/few complains "no rt: a sentence" 2 'rt, the command of the Rattle kit, is not on PATH' "$copy/staran" good
ln -s "$work/stand/rt" few/rt
bare() { RATTLE_HOME=$kit_home PATH=$work/few "$copy/staran" "$@" >"$work/out" 2>"$work/err"; status=$?; }
bare good; [ $status -eq 0 ] && [ ! -s "$work/err" ]; judge "no python3: a folder is run" $?
bare; [ $status -eq 0 ] && grep -qx 'r 0 0 0 519 1 3' "$work/out" && grep -q 'python3 is not on PATH' "$work/err"; judge "no python3: the demonstration says so" $?
bare why bad; [ $status -eq 1 ] && grep -q 'no mode was given' "$work/out" && grep -q 'python3 is not on PATH' "$work/err"; judge "no python3: why says what it can, and so" $?
bare convert new pictures/one bare.pic; [ $status -eq 0 ] && cmp -s bare.pic pictures/four && [ ! -s "$work/err" ]; judge "no python3: a picture is converted" $?
bare convert old pictures/set bare.2; [ $status -eq 1 ] && grep -q '^ 28  ' "$work/out" && grep -qx 'bare.2 was not made.' "$work/out" && grep -q 'python3 is not on PATH' "$work/err"; judge "no python3: and a refusal says what it can, and so" $?
bare list show lists/list; [ $status -eq 0 ] && cmp -s "$work/out" lists/text && [ ! -s "$work/err" ]; judge "no python3: a list is shown" $?
rm -f sheet/run.lst; bare list make lists/text sheet; [ $status -eq 0 ] && cmp -s sheet/run.lst lists/list && [ ! -s "$work/err" ]; judge "no python3: and made" $?
mkdir made2; bare list make lists/search made2; [ $status -eq 0 ] && cmp -s made2/run.lst lists/search.lst && cmp -s made2/in.itm lists/search.itm && [ "$(ls -A made2)" = $'in.itm\nrun.lst' ] && [ ! -s "$work/err" ]; judge "no python3: with items too" $?
bare list reach lists/list; [ $status -eq 0 ] && [ "$(tail -n 1 "$work/out")" = '2 stores; the widest reaches 32 words.' ] && [ ! -s "$work/err" ]; judge "no python3: and its stores told" $?

# ---- the lists that docs/MACHINE.md works through: their commands as they stand there, what it says they print, and that the bytes of a table are those of its commands
mkdir page; ln -s "$here/tests" page/tests; ln -s "$here/demo" page/demo; ln -s "$staran" page/staran
printed() { # HEADING NUMBER: the lines of the section's block, counted from 1, that starts with a run's line or is an item alone
    awk -v heading="## $1" -v number="$2" '$0 == heading { on = 1; next } /^## / { on = 0 } !on { next }
        /^    / { if (!block && /^    (r [0-9]|[0-9a-f]+$)/) { block = 1; count++ } if (block && count == number) print substr($0, 5); next } { block = 0 }' "$here/docs/MACHINE.md"
}
section() { # HEADING FOLDER: the section and its commands
    awk -v heading="## $1" '$0 == heading { on = 1; next } /^## / { on = 0 } on' "$here/docs/MACHINE.md" >page/section
    sed -n "/^    mkdir $2/,/^    .\\/staran $2/s/^    //p" page/section >page/commands
}
worked() { # HEADING FOLDER LINES
    section "$1" "$2"
    printed "$1" 1 >page/want
    call sh -c 'cd page && sh -eu commands'
    sed -i "/^$2\/run.lst: /d" out # what is said of a list that was made of a text
    [ $status -eq 0 ] && [ "$(wc -l <page/want)" -eq "$3" ] && cmp -s page/want out; judge "the manual: $1" $?
    # shellcheck disable=SC2016
    grep -oE '^\| [0-9] \| `([0-9A-F]{2} ){7}[0-9A-F]{2}`' page/section | sed 's/.*`\(.*\)`/\1/' | tr -d ' ' >page/bytes
    "$blocks" list page/again "$(cat page/bytes)" && cmp -s page/again "page/$2/run.lst"; judge "and its table" $?
}
worked "A first list, worked through" first 4
"$blocks" --unfit list page/first/run.lst "$(sed 's/^02030100/02030000/' page/bytes)" && call "$staran" page/first
[ $status -eq 1 ] && [ "$(cat out)" = 'r 7 5 2 0 0 0' ] && grep -q "(\`02 03 00 00 30 00 00 00\`) and the run is refused, \`$(cat out)\`:" page/section; judge "and without the tag of instruction 5" $?
# its text: the table's column is what is shown but for the reach, what list reach prints, and the store that leaves its mode out
"$blocks" list page/first/run.lst "$(cat page/bytes)"
# shellcheck disable=SC2016
sed -n 's/^| [0-9] | `[0-9A-F ]*` | `\([^`]*\)` |.*/\1/p' page/section >page/texts
call "$staran" list show page/first/run.lst; [ $status -eq 0 ] && [ "$(wc -l <page/texts)" -eq 9 ] && sed 's/ ;.*//' out | cmp -s - page/texts; judge "and its texts" $?
sed -n 's/^    \([0-9]: .*\|[0-9] stores; .*\)/\1/p' page/section >page/want
call "$staran" list reach page/first/run.lst; [ $status -eq 0 ] && [ "$(wc -l <page/want)" -eq 5 ] && cmp -s page/want out; judge "and what it reaches" $?
sed 's/^store slice 48/store 48/' page/first/list.txt >page/first/without.txt
call sh -c 'cd page && ./staran list make --replace first/without.txt first'; [ $status -eq 1 ] && grep -q '^first/without.txt:6:7: .*(63)$' err; judge "and the store without its mode, as text" $?
# fields by name: what the text makes and its run prints, and the store that the limit refuses
below='Fields by name, worked through'
section "$below" below
# shellcheck disable=SC2016
{ grep -oE '`below/(run.lst|in.itm): [0-9]+ [a-z]+`' page/section | tr -d '`'; printed "$below" 1; } >page/want
call sh -c 'cd page && sh -eu commands'; [ $status -eq 0 ] && [ "$(wc -l <page/want)" -eq 5 ] && cmp -s page/want out; judge "the manual: $below" $?
sed 's/^store word 200/store slice 200/' page/below/list.txt >page/below/wide.txt; cp page/below/run.lst page/left
call sh -c 'cd page && ./staran list make --replace below/wide.txt below'
[ $status -eq 1 ] && grep -q '^below/wide.txt:9:1: .*(75)$' err && grep -q 'below/list.txt:9:1., with 75' page/section && cmp -s page/left page/below/run.lst
judge "and the store that its limit refuses" $?
# document 02, Three: what the office's list writes now; what it wrote before is on the page the item of another run, of the list that flips M with the item, which comes after
mirrored='Every second station, mirrored'
worked "$mirrored" mirror 2
[ "$(printed "$mirrored" 2)" = "$(printed "$mirrored" 3 | tail -n 1)" ] && [ "$(printed "$mirrored" 2)" != "$(tail -n 1 page/want)" ]
judge "it wrote the other half before" $?
# shellcheck disable=SC2016
flips=$(sed -n 's/^(`\(01 01 [0-9A-F ]*\)`, twice).*/\1/p' page/section | tr -d ' ')
"$blocks" list page/mirror/run.lst "$(sed "s/^03.*/$flips\n&\n$flips/" page/bytes)" && printed "$mirrored" 3 >page/want
call sh -c 'cd page && ./staran mirror'; [ $status -eq 0 ] && [ "$(wc -l <page/want)" -eq 2 ] && cmp -s page/want out; judge "and writes it with M flipped as well" $?
python3 -B - page/mirror/after.pic <<'READ'; judge "which leaves M as it was set" $?
import sys
blocks = open(sys.argv[1], 'rb').read()
content = b''.join(blocks[k + 12:k + 508] for k in range(0, len(blocks), 512))
sys.exit(content[8192:8224] != b'\x55' * 32)
READ

# document 02, Six: a refused list, what why shows of it, and what each row of the section's table leads to
refused='A refused list, and what to do'
section "$refused" refused
call sh -c 'cd page && sh -eu commands'; [ $status -eq 1 ] && [ "$(cat out)" = "$(printed "$refused" 1)" ] && [ "$(cat out)" = 'r 9 57 3 0 0 0' ]; judge "the manual: $refused" $?
sed -n 's/^    \(Instruction .*\|  byte .*\)/\1/p' page/section >page/want
call sh -c 'cd page && ./staran why refused'; [ $status -eq 1 ] && [ "$(wc -l <page/want)" -eq 9 ] && tail -n 9 out | cmp -s - page/want; judge "and what why shows" $?
# shellcheck disable=SC2016
sed -n 's/^| [^|]*| `\(04 [0-9A-F ]*\)`[^|]*| `\(r [0-9 ]*\)`.*/\1:\2/p' page/section >page/rows
while IFS=: read -r bytes line <&3; do
    "$blocks" --unfit list page/refused/run.lst "$(yes 000200000000000A | head -n 57)" "$bytes"
    call "$staran" page/refused; [ "$(head -n 1 out)" = "$line" ]; judge "and with $bytes" $?
done 3<page/rows
[ "$(wc -l <page/rows)" -eq 4 ]; judge "four rows" $?

# document 02, Seven: a list that sets its modes once, what it is without the instruction that sets A, what why shows of that, and what each row of the section's table leads to
once='A mode that is set once'
worked "$once" once 3
cp page/once/after.pic page/left
turned() { "$blocks" --unfit list page/once/run.lst "$1"; call "$staran" page/once; } # BYTES: the section's folder with another list
turned "$(sed 1d page/bytes)"
[ $status -eq 1 ] && [ "$(cat out)" = 'r 14 1 2 0 0 0' ] && grep -q "^Leave instruction 0 out and the run is refused, \`$(cat out)\`:" page/section && cmp -s page/once/after.pic page/left; judge "and without instruction 0" $?
sed -n 's/^    \(Instruction .*\|  byte .*\|Mode register .*\)/\1/p' page/section >page/want
call sh -c 'cd page && ./staran why once'; [ $status -eq 1 ] && [ "$(wc -l <page/want)" -eq 11 ] && tail -n 11 out | cmp -s - page/want; judge "and what why shows of that" $?
# shellcheck disable=SC2016
sed -n 's/^| [^|]*| `\(r [0-9 ]*\)`: .*/\1/p' page/section >page/rows
row() { [ "$(head -n 1 out)" = "$(sed -n "$1p" page/rows)" ]; judge "and with $2" $?; } # NUMBER NAME
# shellcheck disable=SC2016
stored() { sed -n "s/^| $1, \`\(02 04 [0-9A-F ]*\)\` | .*/\1/p" page/section | tr -d ' '; } # WORDS: the store that a row has
turned "$(sed 1d page/bytes; sed -n 1p page/bytes)"; row 1 "instruction 0 at the end"
turned "$(sed '1s/^060002/060003/' page/bytes)"; row 2 "B set and not A"
turned "$(sed "3s/.*/$(stored 'the mode left in the store as well')/" page/bytes)"; row 3 "a mode beside the register's"
turned "$(sed "3s/.*/$(stored 'the store with tag 1')/" page/bytes)"; row 4 "a mode of its own"
cmp -s page/once/after.pic page/left; judge "which leaves the same picture" $?
turned "$(sed 1,2d page/bytes)"; row 5 "neither set, on a picture of kind 1"
cmp -s page/once/after.pic page/left; judge "which leaves after.pic as it was" $?
cp page/once/before.pic page/first.pic; cp page/left page/once/before.pic; turned "$(sed 1,2d page/bytes)"; row 6 "neither set, on the picture that the list left"
cmp -s page/once/after.pic page/left; judge "which leaves the same picture" $?
[ "$(wc -l <page/rows)" -eq 6 ]; judge "six rows" $?
# shellcheck disable=SC2016
command=$(grep -o '`\./staran convert [^`]*`' page/section | tr -d '`')
call sh -c "cd page && $command"; [ $status -eq 1 ] && [ -n "$command" ] && grep -q '^ 28  ' "$work/out" && grep -q 'refused with 28' page/section; judge "and what it says of convert" $?

# ---- make_blocks.py
mkdir made
call "$blocks" picture made/p; [ $status -eq 0 ] && cp made/p made/q; judge "a picture is made" $?
complains "a picture is not overwritten" 1 'is not overwritten without --replace' "$blocks" picture made/p
cmp -s made/p made/q; judge "it is as it was" $?
call "$blocks" demo good; [ $status -eq 1 ] && cmp -s good/before.pic "$here/crates/program/data/before.pic"; judge "nor by the demonstration's" $?
call "$blocks" --replace picture made/p; [ $status -eq 0 ]; judge "unless it is told to" $?
complains "odd hex digits" 1 'no whole bytes' "$blocks" list made/l 000
complains "no hex digits" 1 "'x' is no hex digit" "$blocks" list made/l 0x00
complains "half an instruction" 1 'whole instructions of 8 bytes' "$blocks" list made/l 00020000
complains "an instruction that is refused" 1 'would be refused with 7 at byte 2' "$blocks" list made/l 02030000FF000000
complains "an instruction under a register that none sets before it" 1 'instruction 0, 02 03 02 00 09 00 00 00, would be refused with 14 at byte 2' "$blocks" list made/l 0203020009000000 060002FF00000000
call "$blocks" picture made/before.pic 01FF0000; [ $status -eq 0 ] && call "$blocks" list made/under 0203020009000000 && [ $status -eq 0 ] && [ -s made/under ]; judge "unless the before.pic beside it has it set" $?
complains "and not the other" 1 'instruction 0, 02 03 03 00 09 00 00 00, would be refused with 14 at byte 2' "$blocks" list made/l 0203030009000000
call "$blocks" --replace picture made/before.pic 00000000; complains "nor one that has it unset" 1 'would be refused with 14 at byte 2' "$blocks" list made/l 0203020009000000
python 'data = open("made/before.pic", "rb").read(); print(data == files.picture([bytes(32)] * 256, modes=bytes(4)), files.taken(data), len(data), data[8198:8200].hex())' >out
[ "$(cat out)" = 'True 4 8704 6401' ]; judge "a picture of kind 4: 17 blocks, the last of which uses 356" $?
complains "mode registers that are refused" 1 'the mode registers 00 07 00 00 would be refused with 15' "$blocks" picture made/bad 00070000
complains "and that are not four bytes" 1 'the mode registers are four bytes, and not 3' "$blocks" picture made/bad 01FF00
[ ! -e made/bad ]; judge "are not written" $?
complains "half an item" 1 'whole items of 32 bytes' "$blocks" items made/i 00
complains "too many instructions" 1 'at most 992 instructions' "$blocks" list made/l "$(yes 0002000000000000 | head -n 993)"
complains "a damaged picture has no table" 1 'block 1 is refused with 21' "$blocks" heights damaged
complains "no folder has no table" 1 'No such file' "$blocks" heights nowhere
[ ! -e made/l ] && [ ! -e made/i ]; judge "and nothing was written" $?
call "$blocks" list made/l 060002FF00000000 0203020009000000; [ $status -eq 0 ] && [ "$(wc -c <made/l)" -eq 512 ]; judge "and one under a register that is set is" $?
call python3 -B -c 'import sys; sys.path.insert(0, sys.argv[1]); import make_blocks; print(len(make_blocks.blocks(2, b"")))' "$here/tests"
[ $status -eq 0 ] && [ "$(cat "$work/out")" = 512 ]; judge "it can be imported" $?
folder signed 02040100FF000000
# word 200 alone is stored: height -1, and word 201 has a bit in no field
python3 -B - "$here/tests" signed <<'PYTHON'
import sys
sys.path.insert(0, sys.argv[1])
import make_blocks as files
words = [bytes(32)] * 256
words[200] = b'\xff' * 4 + bytes(28)
words[201] = bytes(31) + b'\x80'
files.write(sys.argv[2] + '/before.pic', files.picture(words))
PYTHON
call "$blocks" --signed heights signed; [ $status -eq 0 ] && grep -qE '^ 200 +-1 +0 +0$' "$work/out" && grep -qE '^ 201 +0 +0 +0$' "$work/out" && [ "$(wc -l <"$work/out")" -eq 3 ]; judge "every station that is not all zero, signed" $?
call "$blocks" heights signed; [ $status -eq 0 ] && grep -qE '^ 200 +4294967295 ' "$work/out"; judge "or unsigned" $?
# the same in kind 4, with station 200 marked in Y, and A set: its mode is no mark
cp "$work/out" plain; python 'data = files.read_picture("signed/before.pic")
files.write("signed/after.pic", files.blocks(4, data[:8256] + bytes(25) + b"\x01" + bytes(6) + bytes([1, 255, 0, 0])))
files.write("signed/before.pic", files.blocks(4, data + bytes(4)))'
call "$blocks" heights signed; [ $status -eq 0 ] && grep -qE '^ 200 +4294967295 .* \*$' "$work/out" && [ "$(grep -c '\*$' "$work/out")" -eq 1 ] && [ "$(wc -l <"$work/out")" -eq 4 ]; judge "and of pictures of kind 4" $?

echo "$passed passed, $failed failed"
[ "$failed" -eq 0 ]
