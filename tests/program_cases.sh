#!/bin/bash
# The program on folders of every kind, from outside: absent, empty, too long, damaged and unreadable files; which byte of an instruction is wrong; the
# mode registers, and pictures of both kinds; what happens to an old after.pic; what is left behind; the command's exit status; two runs in one folder;
# a picture of one kind made one of the other; lists shown as text and made of it, with fields by name, sums and searches; how much stack a run needs. Prints a
# line for each case, and at last 'N passed, 0 failed'. Run it from anywhere; it builds the program if the sources have changed.
#   tests/program_cases.sh
set -u
here=$(cd "$(dirname "$0")/.." && pwd -P)
work=$(mktemp -d)
trap 'chmod -R u+rwx "$work" 2>/dev/null; rm -rf "$work"' EXIT
passed=0 failed=0
blocks() { python3 -B "$here/tests/make_blocks.py" --unfit "$@"; }
times() { yes "$2" | head -n "$1"; } # COUNT TEXT: so many lines of it
die() { printf 'tests/program_cases.sh: %s\n' "$*" >&2; exit 2; }
"$here/staran" --build >"$work/build" 2>&1 || { cat "$work/build" >&2; die "the program cannot be built"; }

# A fresh folder with the document's example: an all-zero picture, no items, and a list of two instructions.
fresh() { rm -rf "$work/f"; mkdir "$work/f"; cp "$here"/crates/program/data/* "$work/f"; cd "$work/f" || exit 2; }

# Runs the program in the folder, and keeps what it says.
run() { timeout 20 "$here/staran" "$work/f" >"$work/out" 2>"$work/err"; status=$?; }

judge() { # NAME CONDITION: counts a case; CONDITION is the status of the test before it
    if [ "$2" -eq 0 ]; then passed=$((passed + 1)); echo "ok   $1"
    else failed=$((failed + 1)); echo "FAIL $1"; sed 's/^/     out: /' "$work/out"; sed 's/^/     err: /' "$work/err"; fi
}

# NAME LINES [REASON]: the program prints LINES, on standard error REASON or nothing, and leaves no other file; the status is that of its first line.
says() {
    run
    printf '%b' "$2" >"$work/want"
    case $2 in 'r 0 '*) expected=0 ;; '') expected=2 ;; *) expected=1 ;; esac
    cmp -s "$work/out" "$work/want" && [ "$status" -eq "$expected" ] && [ "$(left)" -eq 0 ] &&
        if [ -n "${3:-}" ]; then grep -qx -- "$3" "$work/err"; else [ ! -s "$work/err" ]; fi
    judge "$1" $?
}
left() { find "$work/f" -name 'after.pic.new.*' | wc -l; } # how many new files stand there that no run has given its name
kept() { cmp -s "$work/f/after.pic" "$work/old"; judge "$1" $?; }
none() { [ ! -e "$work/f/after.pic" ]; judge "$1" $?; }
old() { head -c 5000 /dev/urandom >"$work/old"; cp "$work/old" "$work/f/after.pic"; }
same() { cmp -s "$work/f/after.pic" "$work/f/before.pic"; judge "$1" $?; }

zeros=$(printf '%064d' 0)
item() { printf %s "$1${zeros#??????????}"; } # FIVE BYTES: a resolved item (document 02, Four)
all_respond=$(item 0100000001) none_responds=$(item 0000010000)
done_lines="r 0 0 0 2 0 1\n$all_respond\n"

# ---- the document's example, and absent files
fresh; says "the document's example" "$done_lines"
size=$(wc -c <"$work/f/after.pic"); [ "$size" -eq 8704 ]; judge "after.pic is 17 blocks" $?
fresh; rm run.lst; says "absent run.lst is the empty list" "r 0 0 0 0 0 0\n"; same "the empty list leaves the picture as it was"
fresh; rm before.pic; old; says "absent before.pic" "p 20 0 0 0 0 0\n"; kept "a refusal keeps an old after.pic"
fresh; rm before.pic run.lst; says "an empty folder" "p 20 0 0 0 0 0\n"; none "a refusal makes no after.pic"
fresh; blocks items in.itm; says "a lone block of no items" "$done_lines"
fresh; blocks list run.lst; says "a lone block of no instructions" "r 0 0 0 0 0 0\n"

# ---- files with no bytes, and of a wrong length
for name in before.pic:p run.lst:l in.itm:i; do
    file=${name%:*} letter=${name#*:}
    fresh; : >"$file"; says "empty $file" "$letter 20 0 0 0 0 0\n"; none "no after.pic with an empty $file"
    fresh; [ -f "$file" ] || blocks items in.itm; printf x >>"$file"; says "$file and a byte more" "$letter 20 0 0 0 0 0\n"
done
fresh; head -c 9216 /dev/zero >before.pic; says "a picture file of 18 blocks" "p 20 0 0 0 0 0\n"
fresh; head -c 8704 /dev/zero >before.pic; says "17 blocks of zeros are read" "p 22 0 0 0 0 0\n"
fresh; head -c 8705 /dev/zero >before.pic; says "a picture file of 17 blocks and a byte" "p 20 0 0 0 0 0\n"
fresh; head -c 8704 /dev/zero >run.lst; says "a list of 17 blocks" "l 20 0 0 0 0 0\n"
fresh; head -c 8192 /dev/zero >run.lst; says "16 blocks of zeros are read" "l 22 0 0 0 0 0\n"
fresh; head -c 8704 /dev/zero >in.itm; says "items of 17 blocks" "i 20 0 0 0 0 0\n"
fresh; truncate -s 1T run.lst; says "a list of 2^40 bytes is not read to its end" "l 20 0 0 0 0 0\n"
fresh; truncate -s 1T before.pic; says "a picture of 2^40 bytes is not read to its end" "p 20 0 0 0 0 0\n"

# ---- damaged blocks
# shellcheck disable=SC2059
change() { printf "$3" | dd of="$1" bs=1 seek="$2" conv=notrunc status=none; } # FILE INDEX BYTES
fresh; change before.pic 600 '\001'; old; says "a byte altered in block 1 of the picture" "p 21 1 0 0 0 0\n"; kept "a damaged picture keeps an old after.pic"
fresh; change run.lst 20 '\377'; says "a byte altered in the list" "l 21 0 0 0 0 0\n"
fresh; blocks list in.itm; says "a list under the name of the items" "i 22 0 0 0 0 0\n"
fresh; head -c 512 before.pic >x; mv x before.pic; says "the first block of a picture alone" "p 23 0 0 0 0 0\n"
fresh; blocks list run.lst 000200; says "a list of three bytes" "l 25 0 0 0 0 0\n"
fresh; blocks items in.itm 00; says "items of one byte" "i 25 0 0 0 0 0\n"
fresh; change before.pic 600 '\001'; change run.lst 20 '\377'; : >in.itm; says "three bad files: the picture is named" "p 21 1 0 0 0 0\n"
fresh; change run.lst 20 '\377'; : >in.itm; says "two bad files: the list is named" "l 21 0 0 0 0 0\n"
fresh; blocks list run.lst FF00000000000000; : >in.itm; says "bad items hide a bad instruction" "i 20 0 0 0 0 0\n"

# ---- runs that are refused
fresh; blocks list run.lst 000200000000001F FF00000000000000; old; says "a kind over 6" "r 5 1 0 0 0 0\n"; kept "a refused run keeps an old after.pic"
fresh; blocks list run.lst 02030000FF000000; says "a store without a mode" "r 7 0 2 0 0 0\n"; none "a refused run makes no after.pic"
fresh; blocks list run.lst 0404000000000000; says "items too few" "r 12 0 0 0 0 0\n"
fresh; blocks list run.lst "$(times 257 0500000000000000)"; says "the out buffer too short for 257" "r 13 256 0 0 0 0\n"
fresh; blocks list run.lst "$(times 256 0500000000000000)"; says "256 items fit, and none responds" "r 0 0 0 256 0 256\n$(times 256 "$none_responds")\n"
fresh; blocks list run.lst 0404000000000000; blocks items in.itm "0123456789abcdef${zeros#????????????????}"; says "an item goes out as it came in" "r 0 0 0 1 1 1\n0123456789abcdef${zeros#????????????????}\n"

fresh; blocks list run.lst 000400000000001A 0500000000000000; blocks items in.itm "08$(printf '%048d' 0)01$(printf '%012d' 0)"; says "stations 3 and 200 respond" "r 0 0 0 2 1 1\n$(item 0103000200)\n"

# ---- which byte is wrong (document 02, Six): an instruction at place 57, behind 57 that are right
while read -r number byte instruction name <&3; do
    fresh; blocks list run.lst "$(times 57 000200000000000A)" "$instruction"; says "$number at byte $byte: $name" "r $number 57 $byte 0 0 0\n"
done 3<<'CASES'
5 0 0700000000000000 a kind over 6
6 1 0005000000000000 a source over 4
6 1 0200010000000000 a store from memory
6 1 0501000000000000 a resolve with a source
6 1 060201FF04018801 kind 6 with a source, and with every other byte wrong: 6 comes first
7 2 0000000009000000 no tag where memory is touched
7 2 060000FF00000000 kind 6 without a tag
8 2 0000040009000000 a tag over 3
8 2 060001FF00000000 kind 6 with tag 1, which names no register
8 2 060004FF00000000 kind 6 with a tag over 3
9 2 0403010000000000 a tag where memory is not touched
9 2 0403020000000000 the tag of a register where memory is not touched: 9, and not 14
9 2 0500030000000000 the tag of a register on a resolve
9 3 040300FF0D000000 a mode and an address there: the mode is the first
9 3 040002FF0D000000 a mode beside the tag of a register that is not set: 9 comes before 14
9 4 040300000D000000 an address alone
9 4 0500000009018800 a resolve with an address, a flip and a shift: 9 comes before 18
9 4 060002FF0D018801 kind 6 with an address, and with a flip, a shift and a byte 7
14 2 0203020009000000 a store under register A, which is not set
14 2 0303030009000000 a masked store under register B, which is not set
14 2 0000020009009050 logic under register A, with a group of 512 lines and a choice over 4: 14 comes before 16 and 11
14 2 0203030009001000 a store under register B, with a shift: 14 comes before 18
14 2 040002000D000000 a deliver under register A
14 2 0100030009008800 set M under register B, with m equal to p: 14 comes before 17
18 5 060002FF00018801 kind 6 with a flip, a shift and a byte 7: the flip is the first
18 6 060003FF00001000 kind 6 with a shift
18 6 060003FF00009001 kind 6 with a group of 512 lines and a byte 7: 18 comes before 16 and 11
18 6 0203010009001000 a store with a shift
18 6 0303010009001000 a masked store with a shift
18 6 0203010009FF9000 a store with a group of 512 lines: 18 comes before 16, and a store may flip
18 6 0303010009000100 a masked store with 1 in byte 6: 18 comes before 17
18 5 0500000000010000 a resolve with a flip
18 6 0500000000001000 a resolve with a shift
18 5 0500000000018800 a resolve with a flip and a shift: the flip is the first
18 6 0203010009001001 a store with a shift and a byte 7: 18 comes before 11
16 6 0002000000009000 a group of 512 lines
16 6 0102000000009F00 a group of 512 lines and m not below p: 16 comes before 17
16 6 000200000000FF50 the largest group and a choice over 4: 16 comes before 11
17 6 0002000000008800 m is p, 136 of document 01
17 6 0102000000000100 p is 0, 1 of document 01
17 6 0403000000000F00 p is 0 and m is 15
17 6 0002000000001150 m is p and a choice over 4: 17 comes before 11
17 6 0404000000002200 no item is there either: 17 comes before 12
11 7 0002000000000050 a choice over 4
11 7 0403000000000001 a byte 7 where there is no logic
11 7 060002FF00000001 a byte 7 in kind 6
12 0 0404000000000000 no item is there: no byte is wrong
CASES

# Every value of byte 6 in logic, store, resolve and kind 6, and in each kind one byte or two of other values: a folder each, named by its instruction,
# which stands behind one that sets mode register A, with one item; tests/make_blocks.py says the number and the byte.
mkdir "$work/each"
python3 -B - "$here/tests" "$work/each" >"$work/want" <<'PYTHON'
import itertools
import os
import sys
sys.path.insert(0, sys.argv[1])
import make_blocks as files
room = sys.argv[2]
right = [bytes.fromhex(text) for text in ('000300000000001A', '0203010009FF0000', '0500000000000000', '0600032A00000000', '000001000900001A',
                                          '0102000000000000', '0303010009000000', '040001FF0D000000', '0403000000000000', '0203020009000000')]


def changed(i, *bytes_):
    i = bytearray(i)
    for place, value in bytes_:
        i[place] = value
    return bytes(i)


cases = {changed(i, (6, value)) for i in right[:4] for value in range(256)}
cases |= {changed(i, (k, value)) for i in right for k in range(8) for value in (0, 1, 2, 3, 4, 5, 6, 7, 16, 80, 136, 144, 255)}
cases |= {changed(i, (a, x), (b, y)) for i in right for a, b in itertools.combinations(range(8), 2) for x in (1, 144) for y in (1, 144)}
cases |= {changed(i, (2, tag), (b, y)) for i in right for tag in (2, 3) for b in range(8) if b != 2 for y in (1, 144)}
files.write(os.path.join(room, '.picture'), files.picture([bytes(32)] * 256))
files.write(os.path.join(room, '.items'), files.blocks(files.ITEMS, bytes(32)))
for i in sorted(cases):
    folder = os.path.join(room, i.hex())
    os.mkdir(folder)
    os.symlink('../.picture', os.path.join(folder, 'before.pic'))
    os.symlink('../.items', os.path.join(folder, 'in.itm'))
    files.write(os.path.join(folder, 'run.lst'), files.blocks(files.LIST, bytes([6, 0, 2, 255, 0, 0, 0, 0]) + i))
    number, byte = files.instruction_fault(i, {2})
    print('%s: %d %d %d' % (i.hex(), number, number != 0, byte))
PYTHON
(cd "$work/each" && "$here/staran" ./*) 2>"$work/err" | awk '/:$/ { name = substr($0, 3) } /^r / { print name, $2, $3, $4 }' >"$work/got"
count=$(wc -l <"$work/want") numbers=$(cut -d ' ' -f 2 "$work/want" | sort -nu | paste -s -d ' ')
diff "$work/want" "$work/got" >"$work/out" && [ "$numbers" = '0 5 6 7 8 9 11 14 16 17 18' ]; judge "number, place and byte of $count instructions" $?

# ---- the mode registers (document 02, Seven and Eight): a picture of kind 1 has none, and a run on it starts with neither set
# after.pic has 17 blocks, and its words and the 96 bytes of M, X and Y are what the Python says, with `files` for tests/make_blocks.py and `item` for
# in.itm's; and so are its mode registers: `modes` are their four bytes in a picture of kind 4, and None says that it is of kind 1.
leaves() { # NAME PYTHON
    python3 -B - "$here/tests" "$work/f" >"$work/out" 2>"$work/err" <<PYTHON
import sys
sys.path.insert(0, sys.argv[1])
import make_blocks as files
item, words, registers, modes = bytes(range(1, 33)), [bytes(32)] * 256, bytearray(96), None
$2
data = open(sys.argv[2] + '/after.pic', 'rb').read()
sys.exit(len(data) != 8704 or data != files.picture(words, bytes(registers), modes))
PYTHON
    judge "$1" $?
}
filled=0102030405060708090a0b0c0d0e0f101112131415161718191a1b1c1d1e1f20
fresh; blocks list run.lst 060002FF00000000 020402000D000000; blocks items in.itm $filled; says "register A is set to 255, and a store takes its mode" "r 0 0 0 2 1 0\n"
leaves "word 13 alone is written, and after.pic is of kind 4, with the mode" 'words[13] = item; modes = [1, 255, 0, 0]'
cp after.pic before.pic; blocks list run.lst 020402000E000000; old; says "a second run, on that after.pic, finds the mode" "r 0 0 0 1 1 0\n"
leaves "and keeps it" 'words[13] = words[14] = item; modes = [1, 255, 0, 0]'
fresh; blocks list run.lst 020402000D000000; blocks items in.itm $filled; says "the same store without kind 6" "r 14 0 2 0 0 0\n"; none "and no after.pic"
fresh; blocks list run.lst 020402000D000000 060002FF00000000; blocks items in.itm $filled; says "kind 6 only after the store" "r 14 0 2 0 0 0\n"
fresh; blocks list run.lst 060003FF00000000 020402000D000000; blocks items in.itm $filled; says "kind 6 of the other register" "r 14 1 2 0 0 0\n"
fresh; blocks list run.lst 060002FF00000000 020403000D000000; blocks items in.itm $filled; says "and the other way round" "r 14 1 2 0 0 0\n"
fresh; blocks list run.lst 0600020000000000 000200000000001F 020302000D000000; says "register A is set to 0: set all the same, and a slice is stored" "r 0 0 0 3 0 0\n"
leaves "bit 13 of every word is written, and Y and the flag are in the picture" 'words = [bytes([0, 32] + [0] * 30)] * 256; registers[64:] = b"\xff" * 32; modes = [1, 0, 0, 0]'
fresh; blocks list run.lst 0600020000000000 060003FF00000000 000200000000001F 0203020028000000 020403000D000000 040003000D000000; blocks items in.itm $filled
says "A is a slice and B a word, in one list" "r 0 0 0 6 1 1\n$filled\n"
leaves "each store is under its own" 'words = [bytes([0] * 5 + [1] + [0] * 26)] * 256; words[13] = item; registers[64:] = b"\xff" * 32; modes = [1, 0, 1, 255]'
fresh; blocks list run.lst 0600020000000000 060002FF00000000 020402000D000000; blocks items in.itm $filled; says "register A is set twice" "r 0 0 0 3 1 0\n"; leaves "the last before the store counts" 'words[13] = item; modes = [1, 255, 0, 0]'
fresh; blocks list run.lst 060002FF00000000 0600030700000000; old; says "a list that only sets both: two steps, nothing taken or given" "r 0 0 0 2 0 0\n"; leaves "and leaves the words as they were" 'modes = [1, 255, 1, 7]'
fresh; blocks list run.lst 0600030000000000; says "a list that only sets B, to 0" "r 0 0 0 1 0 0\n"; leaves "which is kind 4 too" 'modes = [0, 0, 1, 0]'
fresh; blocks list run.lst 060002FF00000000 020402000D000000 02030000FF000000; blocks items in.itm $filled; old; says "a list that is refused further on" "r 7 2 2 0 0 0\n"; kept "has set and stored nothing"

# ---- pictures with mode registers (document 02, Eight)
four() { blocks --replace picture before.pic "$1"; } # FOUR BYTES: before.pic of kind 4 with these mode registers, and all else 0
# Words and M, X and Y that are not zeros, the same in each picture that is made of them.
filling='import random; draw = random.Random(8); words = [draw.randbytes(32) for _ in range(256)]; registers = draw.randbytes(96)'
# Makes before.pic by Python, with `files` and `filling` as above: `data` are its bytes, and `reseal(K, ..)` alters bytes of its block K and makes the sums again.
make() { # PYTHON
    python3 -B - "$here/tests" "$work/f" <<PYTHON || die "no before.pic: $1"
import sys
sys.path.insert(0, sys.argv[1])
import make_blocks as files
$filling
data = b''


def reseal(k, *changes):
    global data
    block = bytearray(data[512 * k:512 * k + 508])
    for at, value in changes:
        block[at] = value
    data = data[:512 * k] + block + files.sums(block) + data[512 * k + 512:]


$1
files.write(sys.argv[2] + '/before.pic', data)
PYTHON
}
# which kind is taken: by the first two bytes as they stand
whole='data = files.picture(words, registers, [1, 255, 0, 0])' plain='data = files.picture(words, registers)'
fresh; make "$whole"; rm run.lst; says "a picture of kind 4" "r 0 0 0 0 0 0\n"; same "with the empty list it stays as it was, byte for byte"
fresh; make "$plain"; rm run.lst; says "a picture of kind 1" "r 0 0 0 0 0 0\n"; same "and so does it"
fresh; make "$plain; reseal(0, (0, 4))"; says "4 and 0 before 16 blocks of kind 1: taken for kind 4, and block 1 is another" "p 22 1 0 0 0 0\n"
fresh; make "$whole; reseal(0, (0, 1))"; says "1 and 0 before 16 blocks of kind 4: taken for kind 1, and block 1 is another" "p 22 1 0 0 0 0\n"
fresh; make "$whole; reseal(0, (1, 1))"; old; says "4 and 1: taken for kind 1, and block 0 is another" "p 22 0 0 0 0 0\n"; kept "and keeps an old after.pic"
fresh; make "$whole; reseal(0, (0, 0), (1, 4))"; says "0 and 4" "p 22 0 0 0 0 0\n"
fresh; make "data = files.blocks(260, b''.join(words) + registers + bytes(4))"; says "4 and 1 in every block" "p 22 0 0 0 0 0\n"
fresh; make "$whole"; change before.pic 1 '\001'; says "4 and 1, and the sums are not right: 21 comes before 22" "p 21 0 0 0 0 0\n"
fresh; make "$plain"; change before.pic 0 '\004'; says "4 and 0 written over 1 and 0 is damage" "p 21 0 0 0 0 0\n"
fresh; : >before.pic; says "no byte at all" "p 20 0 0 0 0 0\n"
fresh; printf '\004' >before.pic; says "one byte, 4" "p 20 0 0 0 0 0\n"
fresh; printf '\004\000' >before.pic; says "two bytes, 4 and 0" "p 20 0 0 0 0 0\n"
fresh; make "$whole; data += bytes(512)"; says "kind 4 and a block more" "p 20 0 0 0 0 0\n"
fresh; make "$whole; data += b'x'"; says "kind 4 and a byte more" "p 20 0 0 0 0 0\n"
fresh; make "$whole; data = data[:8192]"; says "kind 4 without its last block" "p 23 0 0 0 0 0\n"
fresh; make "data = files.blocks(4, b''.join(words) + registers)"; says "kind 4 whose last block uses 352" "p 25 0 0 0 0 0\n"
fresh; make "data = files.blocks(1, b''.join(words) + registers + bytes(4))"; says "kind 1 whose last block uses 356" "p 25 0 0 0 0 0\n"
fresh; make "$whole; reseal(16, (6, 352 % 256))"; says "kind 4 whose last block says 352, with a flag behind: 24" "p 24 16 0 0 0 0\n"
fresh; make "data = files.picture(words, registers, [2, 0, 0, 0]); reseal(16, (6, 200), (7, 0))"; says "a bad flag in a block that does not count it: 24 comes before 15" "p 24 16 0 0 0 0\n"
fresh; make "data = files.picture(words, registers, [2, 0, 0, 0])"; change before.pic 100 '\377\000\377'; says "a bad flag and a damaged block: 21 comes before 15" "p 21 0 0 0 0 0\n"
fresh; make "data = files.blocks(4, b''.join(words) + registers + bytes([2, 0, 0, 0, 0]))"; says "a bad flag in a content that is too long: 25 comes before 15" "p 25 0 0 0 0 0\n"
# bad flags
while read -r modes name <&3; do
    fresh; four "$modes"; old; says "15: $name, $modes" "p 15 0 0 0 0 0\n"; cmp -s after.pic "$work/old" || judge "15 keeps an old after.pic" 1
done 3<<'CASES'
02000000 the flag of A is over 1
FFFF0000 the flag of A is 255
00010000 A has a mode and is not set
00000200 the flag of B is over 1
000000FF B has a mode and is not set
01FF8000 A is right and the flag of B is over 1
01FF0007 A is right, and B has a mode and is not set
02070103 B is right and the flag of A is over 1
00070103 B is right, and A has a mode and is not set
CASES
fresh; four 02000000; change run.lst 20 '\377'; : >in.itm; says "15 before what is wrong with the other files" "p 15 0 0 0 0 0\n"; none "and no after.pic"

# Pictures of both kinds, each damaged in one place in every way, a folder each, and every pair of flags and modes: tests/make_blocks.py says the number and
# the place; one that stands is written back as it was.
mkdir "$work/pictures"
python3 -B - "$here/tests" "$work/pictures" "$filling" >"$work/want" <<'PYTHON'
import itertools
import os
import sys
sys.path.insert(0, sys.argv[1])
import make_blocks as files
room = sys.argv[2]
exec(sys.argv[3])


def altered(data, k, changes, sealed=True):
    block = bytearray(data[512 * k:512 * k + 512])
    for at, value in changes:
        block[at] = block[at] + value & 255
    if sealed:
        block[508:] = files.sums(block[:508])
    return data[:512 * k] + bytes(block) + data[512 * k + 512:]


cases = {}
for kind, modes in ((1, None), (4, [1, 200, 0, 0]), (4, [0, 0, 0, 0])):
    good = files.picture(words, registers, modes)
    for k in (0, 1, 8, 15, 16):
        name = 'kind%d-%s-block%02d' % (kind, 'set' if modes and any(modes) else 'unset', k)
        for at in (0, 1, 2, 3, 4, 5, 6, 7, 8, 11, 12, 363, 364, 367, 368, 507):
            cases['%s-byte%d' % (name, at)] = altered(good, k, [(at, 1)], False)
            cases['%s-byte%d-sealed' % (name, at)] = altered(good, k, [(at, 1)])
        for at in (508, 511):
            cases['%s-byte%d' % (name, at)] = altered(good, k, [(at, 1)], False)
        cases[name + '-kind-other'] = altered(good, k, [(0, 5 - 2 * kind)])
        cases[name + '-kind-other-unsealed'] = altered(good, k, [(0, 5 - 2 * kind)], False)
        cases[name + '-used-other'] = altered(good, k, [(6, 4)])
        cases[name + '-used-less'] = altered(good, k, [(6, 252)])
        cases[name + '-lost'] = good[:512 * k] + good[512 * k + 512:]
        cases[name + '-swapped'] = good[:512 * k] + good[512 * k + 512:512 * k + 1024] + good[512 * k:512 * k + 512] + good[512 * k + 1024:]
for modes in itertools.product((0, 1, 2, 255), (0, 1, 7, 255), repeat=2):
    cases['modes-%s' % bytes(modes).hex()] = files.picture(words, registers, modes)
for low, high in itertools.product((0, 1, 2, 3, 4, 5, 255), (0, 1, 4, 255)):
    cases['all-of-kind-%d-%d' % (low, high)] = files.blocks(low + 256 * high, b''.join(words) + registers + (bytes(4) if low == 4 else b''))
for name, data in sorted(cases.items()):
    os.mkdir(os.path.join(room, name))
    files.write(os.path.join(room, name, 'before.pic'), data)
    number, place = (20, 0) if len(data) > 8704 else files.file_fault(files.taken(data), data)
    print('%s: %s %d %d' % (name, 'p' if number else 'r', number, place))
PYTHON
(cd "$work/pictures" && "$here/staran" ./*) 2>"$work/err" | awk '/:$/ { name = substr($0, 3) } /^[prli] / { print name, $1, $2, $3 }' >"$work/got"
count=$(wc -l <"$work/want") numbers=$(cut -d ' ' -f 3 "$work/want" | sort -nu | paste -s -d ' ')
diff "$work/want" "$work/got" >"$work/out" && [ "$numbers" = '0 15 21 22 23 24 25' ]; judge "number and place of $count pictures of both kinds, damaged and whole" $?
(cd "$work/pictures" && for name in *; do
    if grep -q "^$name: r 0 " "$work/want"; then cmp -s "$name/before.pic" "$name/after.pic"; else [ ! -e "$name/after.pic" ]; fi || echo "$name"
done) >"$work/out" 2>&1; [ ! -s "$work/out" ]; judge "those that stand are written back as they were, and of the others there is no after.pic" $?

# a run starts from the mode registers of the picture
stores=020402000D000000
fresh; four 01FF0000; blocks list run.lst $stores; blocks items in.itm $filled; says "a store under A, which the picture has set to 255" "r 0 0 0 1 1 0\n"; leaves "word 13 is written, and A is as it was" 'words[13] = item; modes = [1, 255, 0, 0]'
fresh; four 01000000; blocks list run.lst $stores; blocks items in.itm "$(printf 'FF%.0s' $(seq 32))"; says "the same where the picture has A set to 0" "r 0 0 0 1 1 0\n"; leaves "bit 13 of every word is written" 'words = [bytes([0, 32] + [0] * 30)] * 256; modes = [1, 0, 0, 0]'
fresh; four 00000000; blocks list run.lst $stores; blocks items in.itm $filled; old; says "and where it has A unset" "r 14 0 2 0 0 0\n"; kept "which keeps an old after.pic"
fresh; four 000001FF; blocks list run.lst $stores; blocks items in.itm $filled; says "and where it has B set, and not A" "r 14 0 2 0 0 0\n"; none "and no after.pic"
fresh; four 01FF0000; blocks list run.lst 020403000D000000; blocks items in.itm $filled; says "and a store under B where it has A set" "r 14 0 2 0 0 0\n"
fresh; four 000001FF; blocks list run.lst 020403000D000000; blocks items in.itm $filled; says "a store under B, which the picture has set" "r 0 0 0 1 1 0\n"; leaves "word 13 is written, and B is as it was" 'words[13] = item; modes = [0, 0, 1, 255]'
fresh; four 01FF0000; blocks list run.lst $stores 02030000FF000000; blocks items in.itm $filled; old; says "a list that is refused further on, on kind 4" "r 7 1 2 0 0 0\n"; kept "leaves everything as it was"
# and which kind is written
fresh; says "kind 1 and no register set at the end" "$done_lines"; leaves "stays kind 1" 'registers[64:] = b"\xff" * 32'
fresh; four 00000000; says "kind 4 and no register set at the end" "$done_lines"; leaves "stays kind 4" 'registers[64:] = b"\xff" * 32; modes = [0, 0, 0, 0]'
fresh; four 01070103; says "kind 4 with both set, and a list that does not use them" "$done_lines"; leaves "keeps them" 'registers[64:] = b"\xff" * 32; modes = [1, 7, 1, 3]'
fresh; four 01FF0000; blocks list run.lst 0600020700000000; says "kind 4, and kind 6 sets what is set" "r 0 0 0 1 0 0\n"; leaves "the new mode is in the picture" 'modes = [1, 7, 0, 0]'
fresh; four 01FF0000; blocks list run.lst 0600032A00000000; says "kind 4, and kind 6 sets the other" "r 0 0 0 1 0 0\n"; leaves "both are in the picture" 'modes = [1, 255, 1, 42]'
fresh; four 00000000; blocks list run.lst 060002FF00000000; says "kind 4 with both unset, and kind 6 sets one" "r 0 0 0 1 0 0\n"; leaves "it is in the picture" 'modes = [1, 255, 0, 0]'
fresh; make "$plain"; blocks list run.lst 0600032A00000000; says "kind 1 with words, M, X and Y, and kind 6" "r 0 0 0 1 0 0\n"; leaves "the same words, M, X and Y, in kind 4" "$filling; modes = [0, 0, 1, 42]"
fresh; make "$whole"; blocks list run.lst 0600032A00000000; says "kind 4 with words, M, X and Y, and kind 6" "r 0 0 0 1 0 0\n"; leaves "the same words, M, X and Y, and both modes" "$filling; modes = [1, 255, 1, 42]"

# ---- what cannot be opened or read
for name in before.pic:p run.lst:l in.itm:i; do
    file=${name%:*} letter=${name#*:}
    fresh; rm -f "$file"; mkdir "$file"; old; says "a directory named $file" "$letter 20 0 0 0 0 0\n" "$file: Is a directory"; kept "a directory named $file keeps an old after.pic"
done
fresh; rm run.lst; ln -s run.lst run.lst; says "a link that leads to itself" "l 20 0 0 0 0 0\n" "run.lst: Too many levels of symbolic links"
fresh; rm run.lst; ln -s nothing run.lst; says "a link that leads nowhere is no file" "r 0 0 0 0 0 0\n"
if [ "$(id -u)" -ne 0 ]; then
    fresh; chmod 000 run.lst; says "a list that may not be read" "l 20 0 0 0 0 0\n" "run.lst: Permission denied"
fi

# ---- writing after.pic
fresh; old; says "an old after.pic is replaced" "$done_lines"; size=$(wc -c <"$work/f/after.pic"); [ "$size" -eq 8704 ]; judge "all of it" $?
fresh; head -c 20000 /dev/zero >after.pic; rm run.lst; says "a longer after.pic is replaced" "r 0 0 0 0 0 0\n"; same "with nothing of the old one left"
fresh; echo stale >after.pic.new; mkdir after.pic.new.aaaaaaaaaaaaaaaa; run; printf '%b' "$done_lines" | cmp -s - "$work/out" && [ "$(cat after.pic.new)" = stale ]; judge "what an earlier run left is in nobody's way, and stays" $?
fresh; mkdir after.pic; says "after.pic is a directory" "" "after.pic: Is a directory"
fresh; old; (ulimit -f 4; trap '' XFSZ; run); [ ! -s "$work/out" ] && [ -s "$work/err" ]; judge "a write that fails half way: nothing is printed, and the reason is said" $?; kept "it keeps an old after.pic"; [ "$(left)" -eq 0 ]; judge "and no new file is left" $?
if [ "$(id -u)" -ne 0 ]; then
    fresh; old; chmod 555 .; run; chmod 755 .; [ ! -s "$work/out" ] && grep -q 'after.pic.new: Permission denied' "$work/err"; judge "a folder that may not be written" $?; kept "it keeps an old after.pic"
fi

# ---- two runs in one folder: each has a new file of its own, so after.pic is the old one or a whole new one, whatever the order
# shellcheck source=tests/kit.sh
. "$here/tests/kit.sh"
export room=$work
# shellcheck source=tests/compiler.sh
. "$here/tests/compiler.sh"
one='' # the process of the first, by hold
for name in one two; do "$compiler" -std=gnu11 -Wall -Wextra -Werror -O2 -shared -fPIC -nostdlib -DNAME="\"$name\"" -o "$work/$name.so" "$here/tests/program/pause.c" || die "tests/program/pause.c does not build"; done
hold() { # NAME: starts a run in the folder, and comes back when it has made its new file and written nothing
    rm -f "$work/$1".{reached,go,fail}
    (cd "$work/f" && exec ${emulator:+"$emulator"} "$loader" --library-path "$tools/lib" --preload "$work/$1.so" "$here/crates/program/out/program" >"$work/$1.out" 2>"$work/$1.err") &
    eval "$1=$!"
    for _ in $(seq 500); do [ ! -e "$work/$1.reached" ] || return 0; sleep 0.02; done
    return 1
}
release() { : >"$work/$1.go"; wait "${!1}" 2>/dev/null; } # NAME: lets it go on, and waits for its end
another() { cp "$here/demo/before.pic" "$work/f/before.pic"; rm -f "$work/f/run.lst"; } # a picture that the empty list leaves as it is
whole() { cmp -s "$work/f/after.pic" "$1"; } # after.pic is that picture

fresh; rm run.lst; old; cp before.pic "$work/first"; hold one; another; run; whole "$here/demo/before.pic" && [ "$(left)" -eq 1 ]; judge "a run ends while another has just made its file" $?
: >"$work/one.fail"; release one; whole "$here/demo/before.pic" && [ ! -s "$work/one.out" ] && grep -q 'No space left' "$work/one.err" && [ "$(left)" -eq 0 ]; judge "the other's write then fails: the whole picture stays, and the reason is said" $?
fresh; rm run.lst; old; hold one; another; hold two; [ "$(left)" -eq 2 ]; judge "two runs have a new file each" $?; kept "and after.pic is still the old one"
release two; whole "$here/demo/before.pic"; judge "the second ends first: after.pic is its picture" $?
release one; whole "$work/first" && [ "$(left)" -eq 0 ]; judge "then the first: after.pic is its picture, and nothing else is left" $?
fresh; rm run.lst; old; hold one; hold two; : >"$work/one.fail"; : >"$work/two.fail"; release one; release two; [ "$(left)" -eq 0 ]; judge "both fail, and leave nothing" $?; kept "and after.pic is the old one"
fresh; rm run.lst; old; hold one; { kill -KILL "$one"; wait "$one"; } 2>/dev/null; kept "a run that is killed keeps an old after.pic"
another; run; whole "$here/demo/before.pic"; judge "and the next run is not hindered by what it left" $?

# ---- printing: by the program itself, whose output the command takes before it hands it on
fresh; timeout 20 ${emulator:+"$emulator"} "$loader" --library-path "$tools/lib" "$here/crates/program/out/program" >/dev/full 2>"$work/err"; : >"$work/out"
grep -qx 'standard output: No space left on device' "$work/err" && [ -s "$work/f/after.pic" ]; judge "an output that takes nothing: the reason is said, and after.pic is whole" $?

# ---- a run in a folder needs little stack
if [ -z "$emulator" ]; then
    narrow() { (ulimit -s 256; timeout 20 "$loader" --library-path "$tools/lib" "$here/crates/program/out/program") >"$work/out" 2>"$work/err"; }
    fresh; narrow; printf '%b' "$done_lines" | cmp -s - "$work/out" && [ ! -s "$work/err" ]; judge "256 KB of stack: the document's example" $?
    fresh; blocks list run.lst "$(times 248 000400000000001A)" "$(times 488 000200000000001F)" "$(times 256 0500000000000000)"; blocks items in.itm "$(times 248 "$zeros")"; blocks --replace picture before.pic 01FF01FF
    narrow; [ "$(head -n 1 "$work/out")" = 'r 0 0 0 992 248 256' ] && [ "$(wc -l <"$work/out")" -eq 257 ] && [ -s after.pic ] && [ ! -s "$work/err" ]; judge "256 KB of stack: as many instructions and items as a folder has" $?
fi

# ---- a picture of one kind made one of the other, by the program itself: new or old, the file, and the file to be made
program() { (cd "$work/f" && timeout 20 ${emulator:+"$emulator"} "$loader" --library-path "$tools/lib" "$here/crates/program/out/program" "$@") >"$work/out" 2>"$work/err"; }
converts() { # NAME LINE WAY: before.pic to x.pic; LINE is printed and nothing said, and x.pic is there exactly if the line is that of done
    program "$3" before.pic x.pic
    [ "$(cat "$work/out")" = "$2" ] && [ ! -s "$work/err" ] && if [ "$2" = 'c 0 0 8704' ]; then [ -s x.pic ]; else [ ! -e x.pic ]; fi
    judge "$1" $?
}
made() { cmp -s x.pic want.pic; judge "$1" $?; }
silent() { [ ! -s "$work/out" ] && grep -qx -- "$2" "$work/err"; judge "$1" $?; } # NAME REASON: nothing is printed, and the reason is said
fresh; make 'data = files.picture(words, registers, [0] * 4)'; mv before.pic want.pic; make "$plain"; converts "old to new" 'c 0 0 8704' new; made "the words, M, X and Y in kind 4, and both registers unset"
cp before.pic want.pic; mv x.pic before.pic; converts "and back" 'c 0 0 8704' old; made "gives the same bytes"
fresh; make 'data = files.picture(words, registers, [0] * 4)'; cp before.pic want.pic; converts "new to old" 'c 0 0 8704' old; mv x.pic before.pic; converts "and back" 'c 0 0 8704' new; made "gives the same bytes"
fresh; make "$whole"; converts "new to old with a register set" 'c 28 0 0' old; converts "and to new, of what is new" 'c 22 0 0' new
fresh; make "$plain"; converts "to old, of what is old" 'c 22 0 0' old
fresh; four 02000000; converts "new to old with a bad flag" 'c 15 0 0' old
fresh; head -c 9216 /dev/zero >before.pic; converts "18 blocks of zeros" 'c 22 0 0' new
fresh; truncate -s 1T before.pic; converts "2^40 bytes are not read to their end" 'c 20 0 0' old
fresh; cp before.pic x.pic; program new before.pic x.pic; silent "a file that is there is not written over" 'x.pic: File exists'; cmp -s x.pic before.pic; judge "and is as it was" $?
fresh; program new before.pic before.pic; silent "nor is the file itself" 'before.pic: File exists'; cmp -s before.pic "$here/crates/program/data/before.pic"; judge "which is as it was" $?
fresh; ln -s nothing x.pic; program new before.pic x.pic; silent "nor is a link that leads nowhere followed" 'x.pic: File exists'; [ ! -e nothing ]; judge "and nothing is made there" $?
fresh; program new nothing x.pic; silent "no file" 'nothing: No such file or directory'; [ ! -e x.pic ]; judge "and nothing is made" $?
fresh; program new . x.pic; silent "a folder for a file" '.: Is a directory'; [ ! -e x.pic ]; judge "and nothing is made of it" $?
fresh; program old before.pic nothing/x.pic; [ "$(cat "$work/out")" = 'c 22 0 0' ]; judge "a refusal comes before a file that cannot be made" $?
fresh; program new before.pic nothing/x.pic; silent "a file that cannot be made" 'nothing/x.pic: No such file or directory'
fresh; (ulimit -f 4; trap '' XFSZ; program new before.pic x.pic); [ ! -s "$work/out" ] && grep -q '^x.pic: ' "$work/err" && [ ! -e x.pic ]; judge "a write that fails half way: the reason is said, and nothing is left" $?
usage='new or old, a file and the file to be made; show and a list; make, a text, and the files of list and items to be made; or no word at all'
while read -ra words <&3; do
    fresh; program "${words[@]}"; silent "other words: ${words[*]}" "$usage"
    if [ -e x.pic ] || [ -e y.pic ] || [ -e after.pic ]; then judge "other words make nothing" 1; fi
done 3<<'CASES'
new
new before.pic
new before.pic x.pic y.pic
newer before.pic x.pic
ne before.pic x.pic
New before.pic x.pic
before.pic
show
show run.lst x.pic
show run.lst x.pic y.pic
shows run.lst
sho run.lst
Show run.lst
make
make before.pic
make before.pic x.pic
make before.pic x.pic y.pic z.pic
makes before.pic x.pic y.pic
mak before.pic x.pic y.pic
CASES
fresh; program ''; silent "one empty word is no run" "$usage"; none "and no after.pic"

# The pictures with every pair of flags and modes, and those with one fault in block 16, both ways: tests/make_blocks.py says the line and what is made.
python3 -B - "$here/tests" "$work/pictures" >"$work/want" <<'PYTHON'
import os
import sys
sys.path.insert(0, sys.argv[1])
import make_blocks as files
room = sys.argv[2]
for name in sorted(os.listdir(room)):
    if name.startswith('modes-') or '-block16-' in name:
        data = open(os.path.join(room, name, 'before.pic'), 'rb').read()
        for way, kind, other, modes in (('new', 1, 4, bytes(4)), ('old', 4, 1, b'')):
            number, place = files.file_fault(kind, data)
            if number == 0 and kind == 4 and files.set_by(files.modes_in(data)):
                number = 28
            if number == 0:
                files.write(os.path.join(room, name, way + '.want'), files.blocks(other, files.payload(data)[:8288] + modes))
            print(name, way, 'c', number, place, 0 if number else 8704)
PYTHON
while read -r name way _ <&3; do
    echo "$name $way $(${emulator:+"$emulator"} "$loader" --library-path "$tools/lib" "$here/crates/program/out/program" "$way" "$work/pictures/$name/before.pic" "$work/pictures/$name/$way.pic" 2>&1)"
    if [ -e "$work/pictures/$name/$way.want" ]; then cmp -s "$work/pictures/$name/$way.want" "$work/pictures/$name/$way.pic"; else [ ! -e "$work/pictures/$name/$way.pic" ]; fi || echo "$name $way: another file"
done 3<"$work/want" >"$work/got" 2>"$work/err"
count=$(wc -l <"$work/want") numbers=$(cut -d ' ' -f 4 "$work/want" | sort -nu | paste -s -d ' ')
diff "$work/want" "$work/got" >"$work/out" && [ "$numbers" = '0 15 21 22 23 24 25 28' ]; judge "$count conversions: the line and the file made" $?

# ---- a list shown as text, by the program itself (docs/TEXT.md): show, and the list's file
shows() { # NAME TEXT: of run.lst; done with so many characters is printed, and the text, which is given with escapes; nothing is said
    program show run.lst
    { printf 's 0 0 %d\n' "$(printf '%b' "$2" | wc -c)"; printf '%b' "$2"; } >"$work/want"
    cmp -s "$work/out" "$work/want" && [ ! -s "$work/err" ]
    judge "$1" $?
}
refuses() { # NAME NUMBER PLACE: run.lst is refused, and its line is all that is printed
    program show run.lst
    [ "$(cat "$work/out")" = "s $2 $3 0" ] && [ ! -s "$work/err" ]
    judge "$1" $?
}
# The bytes of an instruction and its text, for a list of them all.
cat >"$work/rows" <<'ROWS'
000400000000001A logic y load outside
020402000D000000 store mode a address 13 from outside ; reaches ? words
060002FF00000000 set a 255
0600030D00000000 set b 13
020402000D000000 store mode a address 13 from outside ; reaches 1 word
0304030009800000 mstore mode b address 9 from outside flip 128 ; reaches 32 words
0600020000000000 set a 0
0303020000000000 mstore mode a address 0 from y ; reaches 256 words
0201010007000000 store slice 7 from m ; reaches 256 words
0302010780FF0000 mstore mode 7 address 128 from x flip 255 ; reaches 32 words
020301FFFF010000 store word 255 from y flip 1 ; reaches 1 word
020401FE00000000 store mode 254 address 0 from outside ; reaches 2 words
0000010007013046 logic x-if-y+y xor slice 7 flip 1 shift 1 mod 8
000001FF0900803F logic x-if-y one word 9 shift 1 mod 256
0000010D09008722 logic both 2 mode 13 address 9 shift 128 mod 256
000002000000002B logic both 11 mode a address 0
000003000D010000 logic x zero mode b address 13 flip 1
0001000000000001 logic x nor m
0002000000000013 logic y not x
0003000000000004 logic x clear y
0004000000000015 logic y loadnot outside
0001000000000027 logic both nand m
0001000000000028 logic both and m
0001000000000039 logic x-if-y xnor m
000100000000004C logic x-if-y+y keep m
000100000000004D logic x-if-y+y ornot m
000100000000004E logic x-if-y+y or m
0104000000FF1000 setm outside flip 255 shift 1 mod 2
0100010009000000 setm slice 9
0103000000005400 setm y shift 16 mod 32
040001FF09000000 deliver word 9
0401000000000000 deliver m
0500000000000000 resolve
020400000D000000 bytes 02 04 00 00 0D 00 00 00 ; refused 7 byte 2
0700000000000000 bytes 07 00 00 00 00 00 00 00 ; refused 5 byte 0
020501FF00000000 bytes 02 05 01 FF 00 00 00 00 ; refused 6 byte 1
060001AB00000000 bytes 06 00 01 AB 00 00 00 00 ; refused 8 byte 2
040300FF0D000000 bytes 04 03 00 FF 0D 00 00 00 ; refused 9 byte 3
0203020109000000 bytes 02 03 02 01 09 00 00 00 ; refused 9 byte 3
0203010009001000 bytes 02 03 01 00 09 00 10 00 ; refused 18 byte 6
0002000000009000 bytes 00 02 00 00 00 00 90 00 ; refused 16 byte 6
0002000000008800 bytes 00 02 00 00 00 00 88 00 ; refused 17 byte 6
0002000000000050 bytes 00 02 00 00 00 00 00 50 ; refused 11 byte 7
FFFFFFFFFFFFFFFF bytes FF FF FF FF FF FF FF FF ; refused 5 byte 0
ROWS
fresh; shows "show: the document's list" 'logic y one x\nresolve\n'
fresh; blocks list run.lst; shows "show: a list of no instructions" ''
fresh; blocks list run.lst "$(cut -d ' ' -f 1 "$work/rows")"; shows "show: an instruction of each form, and those that are refused by themselves" "$(cut -d ' ' -f 2- "$work/rows")\n"
fresh; blocks list run.lst "$(times 992 0500000000000000)"; shows "show: as many as a run takes" "$(times 992 resolve)\n"
fresh; blocks list run.lst "$(times 4096 000001FE0A80864B)"; [ "$(wc -c <run.lst)" -eq 34304 ]; judge "a list of 4,096 is 67 blocks" $?
shows "show: and as many as a list has" "$(times 4096 'logic x-if-y+y 11 mode 254 address 10 flip 128 shift 64 mod 256')\n"

# Whatever the bytes: of 4,096 instructions, drawn or one byte or two beside a right one, those that are refused by themselves are the ones that
# tests/make_blocks.py refuses with both registers set, with its number and byte; and the stores reach what the zero digits of their mode say. A kind 6 that
# names a register sets it, whatever else is wrong with it.
fresh; python3 -B - "$here/tests" "$work/f" >"$work/want" <<'PYTHON'
import random
import sys
sys.path.insert(0, sys.argv[1])
import make_blocks as files
draw = random.Random(17)
right = [bytes.fromhex(line.split()[0]) for line in open(sys.argv[2] + '/../rows') if '; refused' not in line]
list_, modes = [], {}
for k in range(4096):
    i = bytearray(draw.randbytes(8) if k % 8 == 0 else draw.choice(right))
    for _ in range(draw.choice((0, 0, 1, 2))):
        i[draw.randrange(8)] = draw.choice((0, 1, 2, 3, 4, 13, 16, 80, 136, 255))
    list_.append(bytes(i))
    number, byte = files.instruction_fault(i, {2, 3})
    if i[0] == 6 and i[2] in (2, 3):
        modes[i[2]] = i[3]
    if number:
        print('bytes %s ; refused %d byte %d' % (i.hex(' ').upper(), number, byte))
    elif i[0] in (2, 3):
        mode = i[3] if i[2] == 1 else modes.get(i[2])
        words = '?' if mode is None else 2 ** bin(255 - mode).count('1')
        print('reaches %s %s' % (words, 'word' if words == 1 else 'words'))
    elif i[0] == 6:
        print('set %s %d' % ('ab'[i[2] - 2], i[3]))
    else:
        print(['logic', 'setm', '', '', 'deliver', 'resolve'][i[0]])
files.write(sys.argv[2] + '/run.lst', files.blocks(files.LIST, b''.join(list_)))
PYTHON
program show run.lst; sed 1d "$work/out" | sed 's/^m*store.*; reaches/reaches/; s/^\(logic\|setm\|deliver\) .*/\1/' >"$work/got"
count=$(grep -c '^bytes' "$work/want"); diff "$work/want" "$work/got" >"$work/out" && [ ! -s "$work/err" ] && [ "$count" -gt 1000 ] && [ "$(grep -c '^reaches' "$work/want")" -gt 200 ]; judge "show: of 4,096 instructions $count are refused by themselves, and the stores reach what they should" $?

# what is refused, and what cannot be read
for size in 0 1 511 513 34305 34816; do fresh; head -c $size /dev/zero >run.lst; refuses "show: $size bytes" 20 0; done
fresh; truncate -s 1T run.lst; refuses "show: 2^40 bytes are not read to their end" 20 0
fresh; cp before.pic run.lst; refuses "show: a picture" 22 0
fresh; blocks items run.lst "$zeros"; refuses "show: items" 22 0
fresh; blocks list run.lst 000200; refuses "show: a list of three bytes" 25 0
fresh; blocks list run.lst "$(times 4097 0500000000000000)"; refuses "show: 4,097 instructions" 25 0
mkdir "$work/lists"
python3 -B - "$here/tests" "$work/lists" >"$work/want" <<'PYTHON'
import os
import random
import sys
sys.path.insert(0, sys.argv[1])
import make_blocks as files
room = sys.argv[2]
good = files.blocks(files.LIST, random.Random(4).randbytes(1200))


def altered(k, changes, sealed):
    block = bytearray(good[512 * k:512 * k + 512])
    for at, value in changes:
        block[at] = block[at] + value & 255
    if sealed:
        block[508:] = files.sums(block[:508])
    return good[:512 * k] + bytes(block) + good[512 * k + 512:]


cases = {'good': good}
for k in range(3):
    for at in (0, 1, 2, 3, 4, 5, 6, 7, 8, 11, 12, 219, 220, 507):
        for sealed in (False, True):
            cases['block%d-byte%d%s' % (k, at, '-sealed' * sealed)] = altered(k, [(at, 1)], sealed)
    for at in (508, 511):
        cases['block%d-byte%d' % (k, at)] = altered(k, [(at, 1)], False)
    cases['block%d-used-less' % k] = altered(k, [(6, 248)], True)
    cases['block%d-lost' % k] = good[:512 * k] + good[512 * k + 512:]
    cases['block%d-twice' % k] = good[:512 * k + 512] + good[512 * k:]
for name, data in sorted(cases.items()):
    files.write(os.path.join(room, name), data)
    number, place = files.file_fault(files.LIST, data)
    print('%s: s %d %d' % (name, number, place))
PYTHON
cp "$work"/lists/* "$work/f"
while IFS=: read -r name _ <&3; do program show "$name"; echo "$name: $(head -n 1 "$work/out" | cut -d ' ' -f 1-3)"; done 3<"$work/want" >"$work/got"
count=$(wc -l <"$work/want") numbers=$(cut -d ' ' -f 3 "$work/want" | sort -nu | paste -s -d ' ')
diff "$work/want" "$work/got" >"$work/out" && [ "$numbers" = '0 21 22 23 24 25' ]; judge "show: number and block of $count lists, damaged and whole" $?
fresh; program show nothing; silent "show: no file" 'nothing: No such file or directory'
fresh; program show .; silent "show: a folder for a file" '.: Is a directory'
fresh; program show ''; silent "show: an empty name" ': No such file or directory'
if [ "$(id -u)" -ne 0 ]; then
    fresh; chmod 000 run.lst; program show run.lst; silent "show: a list that may not be read" 'run.lst: Permission denied'
fi
fresh; (cd "$work/f" && timeout 20 ${emulator:+"$emulator"} "$loader" --library-path "$tools/lib" "$here/crates/program/out/program" show run.lst >/dev/full) 2>"$work/err"; : >"$work/out"; silent "show: an output that takes nothing" 'standard output: No space left on device'

# ---- a list made of a text, by the program itself: make, the text's file, and those of list and items that are to be made
made_of() { rm -f x.lst x.itm; program make x.txt x.lst x.itm; } # x.lst, and x.itm where there are items, of x.txt
makes() { # NAME TEXT BYTES..: of the text, which is given with escapes, a list of these bytes, and no items; nothing is said
    printf '%b' "$2" >x.txt; name=$1; shift 2
    blocks list want.lst "$@"; made_of
    [ "$(cat "$work/out")" = "m 0 0 0 $(python3 -B -c 'import sys; print(len("".join("".join(sys.argv[1:]).split())) // 2)' "$@") 0" ] && [ ! -s "$work/err" ] && cmp -s x.lst want.lst && [ ! -e x.itm ]
    judge "$name" $?
}
unmade() { [ "$(cat "$work/out")" = "$2" ] && [ ! -s "$work/err" ] && [ ! -e x.lst ] && [ ! -e x.itm ]; judge "$1" $?; } # NAME LINE: the line is printed, nothing said, and neither list nor items made
fresh; makes "make: the document's list" 'logic y one x\nresolve\n' 000200000000001F0500000000000000
makes "make: an empty text" ''
makes "make: empty lines and comments alone" '\n\n; a comment\n  \t ; another\r\n;\n'
makes "make: an instruction of each form" "$(cut -d ' ' -f 2- "$work/rows")\n" "$(cut -d ' ' -f 1 "$work/rows")"
makes "make: no line feed behind the last line" 'resolve\nset a 13' 05000000000000000600020D00000000
makes "make: nor behind a comment" 'resolve ; the last' 0500000000000000
makes "make: lines that end with CR LF" 'resolve\r\nstore word 9 from m ; reaches 1 word\r\n\r\nbytes 01 02 03 04 05 06 07 08\r\n' 0500000000000000 020101FF09000000 0102030405060708
makes "make: tabs and blanks" ' \t store\tword   9\tfrom m\t\n' 020101FF09000000
makes "make: a comment right behind a word, of any bytes" 'resolve;and \377\001 more\nset b 9;' 0500000000000000 0600030900000000
makes "make: a comment that is wrong is passed over" 'store word 9 from m ; reaches 256 words\n' 020101FF09000000
makes "make: zeros in front, small digits of a byte, functions by number" 'set a 007\nbytes fe DC bA 98 76 54 32 10\nlogic x 015 m\nlogic x 1 m\n' 0600020700000000 FEDCBA9876543210 000100000000000F 0001000000000001
makes "make: slice and word by their modes" 'deliver mode 0 address 3\ndeliver mode 255 address 3\nsetm m flip 0\n' 0400010003000000 040001FF03000000 0101000000000000
# NUMBER LINE COLUMN TEXT: what is refused, and where
while read -r number line column text <&3; do
    printf '%b' "$text" >x.txt; made_of; unmade "make: $number at $line:$column of '$text'" "m $number $line $column 0 0"
done 3<<'CASES'
60 1 1 Resolve\n
60 2 1 resolve\nresolves\n
60 3 3 \n; one\n\t halt ; two\n
60 1 1 \377\n
60 1 1 resolve,\n
61 1 7 logic X one m\n
61 1 7 logic one m\n
62 1 9 logic x nxor m\n
62 1 9 logic x 16 m\n
62 1 9 logic x 0001 m\n
63 1 6 setm a\n
63 1 6 setm memory\n
63 1 7 store m\n
63 1 7 store address 9 from m\n
63 1 19 store word 9 from slice 3\n
63 1 5 set c 9\n
63 1 5 set 9\n
64 1 12 store word 256 from m\n
64 1 12 store word -1 from m\n
64 1 12 store word 0009 from m\n
64 1 12 store mode c address 9 from m\n
64 1 22 store mode a address b from m\n
64 1 7 set a a\n
64 1 13 setm m flip x\n
65 1 14 store mode a 9 from m\n
65 1 14 store word 9 m\n
65 1 16 setm m shift 1 256\n
66 1 14 setm m shift 3 mod 8\n
66 1 14 setm m shift 01 mod 8\n
66 1 14 setm m shift 256 mod 256\n
66 1 20 setm m shift 8 mod 8\n
66 1 20 setm m shift 8 mod 512\n
66 1 20 setm m shift 1 mod 1\n
67 1 9 resolve m\n
67 1 10 set a 13 14\n
67 1 21 store word 9 from m shift 1 mod 8\n
67 1 28 store word 9 from m flip 1 shift 1 mod 8\n
67 1 22 setm m shift 1 mod 8 flip 1\n
67 1 31 bytes 00 01 02 03 04 05 06 07 08\n
68 1 7 bytes 0 01 02 03 04 05 06 07\n
68 1 10 bytes 00 0x01 02 03 04 05 06 07\n
68 1 28 bytes 00 01 02 03 04 05 06 0G\n
69 1 6 store
69 1 6 store\n
69 1 7 store ; slice 7 from m\n
69 1 6 store;\n
69 1 13 store word 9\nresolve\n
69 2 8 resolve\nset a \r\n
69 1 27 bytes 00 01 02 03 04 05 06\n
69 1 10 logic x 2\nm\n
60 2 1 resolve\nhalt\nstore\n
CASES
# whole texts: their length, and how many instructions they make
fresh; { times 4095 resolve; printf ';%1015815s' ''; } >x.txt; made_of; [ "$(wc -c <x.txt)" -eq 1048576 ] && [ "$(cat "$work/out")" = 'm 0 0 0 32760 0' ]; judge "make: a text of 1,048,576 characters" $?
printf ' ' >>x.txt; made_of; unmade "make: and of one more" 'm 50 0 0 0 0'
{ echo halt; head -c 1048576 /dev/zero; } >x.txt; made_of; unmade "make: 50 before what is wrong in its lines" 'm 50 0 0 0 0'
{ truncate -s 1T x.txt; made_of; }; unmade "make: 2^40 characters are not read to their end" 'm 50 0 0 0 0'
head -c 1048576 /dev/zero | tr '\0' '\n' >x.txt; made_of; cmp -s x.lst <(blocks list want.lst && cat want.lst) && [ "$(cat "$work/out")" = 'm 0 0 0 0 0' ]; judge "make: 1,048,576 empty lines" $?
{ head -c 1048570 /dev/zero | tr '\0' '\n'; echo halt; } >x.txt; made_of; unmade "make: a line that is far down" 'm 60 1048571 1 0 0'
printf '%1048570shalt' '' >x.txt; made_of; unmade "make: and one that is far to the right" 'm 60 1 1048571 0 0'
times 4096 resolve >x.txt; made_of; [ "$(cat "$work/out")" = 'm 0 0 0 32768 0' ] && [ "$(wc -c <x.lst)" -eq 34304 ]; judge "make: 4,096 instructions" $?
times 4097 resolve >x.txt; made_of; unmade "make: and one more" 'm 3 0 0 0 0'
{ times 4097 resolve; echo halt; } >x.txt; made_of; unmade "make: what is wrong in a line before that they are too many" 'm 60 4098 1 0 0'
# a text that was shown makes the same list, whatever its bytes
back() { # NAME FILE: shown, and made again, it is the same file
    program show "$2"; sed 1d "$work/out" >x.txt; made_of
    cmp -s "$2" x.lst && [ "$(head -c 6 "$work/out")" = 'm 0 0 ' ] && [ ! -s "$work/err" ]; judge "shown and made again: $1" $?
}
fresh; back "the document's list" run.lst; blocks list run.lst; back "a list of no instructions" run.lst
blocks list run.lst "$(cut -d ' ' -f 1 "$work/rows")"; back "an instruction of each form" run.lst
cp "$here/demo/run.txt" x.txt; made_of; mv x.lst run.lst; back "the demonstration's" run.lst
for seed in 1 2 3 4 5; do
    python3 -B - "$here/tests" "$seed" <<'PYTHON'
import random
import sys
sys.path.insert(0, sys.argv[1])
import make_blocks as files
draw = random.Random(int(sys.argv[2]))
size, top = draw.choice((1, 62, 63, 992, 4096)), draw.choice((1, 3, 7, 16, 255))
files.write('run.lst', files.blocks(files.LIST, bytes(draw.randint(0, top) for _ in range(8 * size))))
PYTHON
    back "$(($(program show run.lst; wc -l <"$work/out") - 1)) instructions of any bytes" run.lst
done
sed -n '/^    set a 13$/,/^$/s/^    //p' "$here/docs/TEXT.md" >x.txt; made_of; cp x.lst run.lst; program show run.lst
[ "$(wc -l <x.txt)" -eq 7 ] && sed 1d "$work/out" | cmp -s - x.txt; judge "docs/TEXT.md: its text is made, and shown as it stands there" $?
# what cannot be read or made
fresh; echo resolve >x.txt; echo mine >x.lst; program make x.txt x.lst x.itm; silent "make: a file that is there is not written over" 'x.lst: File exists'; [ "$(cat x.lst)" = mine ]; judge "and is as it was" $?
fresh; echo resolve >x.txt; program make x.txt x.txt x.itm; silent "make: nor is the text itself" 'x.txt: File exists'; [ "$(cat x.txt)" = resolve ]; judge "which is as it was" $?
fresh; echo resolve >x.txt; ln -s nothing x.lst; program make x.txt x.lst x.itm; silent "make: nor is a link that leads nowhere followed" 'x.lst: File exists'; [ ! -e nothing ]; judge "and nothing is made there" $?
fresh; program make nothing x.lst x.itm; silent "make: no text" 'nothing: No such file or directory'; [ ! -e x.lst ]; judge "and nothing is made" $?
fresh; program make . x.lst x.itm; silent "make: a folder for a text" '.: Is a directory'; [ ! -e x.lst ]; judge "and nothing is made of it" $?
fresh; echo halt >x.txt; program make x.txt nothing/x.lst x.itm; [ "$(cat "$work/out")" = 'm 60 1 1 0 0' ]; judge "make: a refusal comes before a file that cannot be made" $?
fresh; echo resolve >x.txt; program make x.txt nothing/x.lst x.itm; silent "make: a file that cannot be made" 'nothing/x.lst: No such file or directory'
fresh; times 4096 resolve >x.txt; (ulimit -f 4; trap '' XFSZ; program make x.txt x.lst x.itm); [ ! -s "$work/out" ] && grep -q '^x.lst: ' "$work/err" && [ ! -e x.lst ]; judge "make: a write that fails half way: the reason is said, and nothing is left" $?
fresh; { sleep 0.1; echo resolve; sleep 0.1; printf 'set a'; sleep 0.1; echo ' 13'; } | program make /dev/stdin x.lst x.itm; [ "$(cat "$work/out")" = 'm 0 0 0 16 0' ] && blocks list want.lst 05000000000000000600020D00000000 && cmp -s x.lst want.lst; judge "make: a text that comes in pieces" $?
fresh; echo resolve >x.txt; (cd "$work/f" && timeout 20 ${emulator:+"$emulator"} "$loader" --library-path "$tools/lib" "$here/crates/program/out/program" make x.txt x.lst x.itm >/dev/full) 2>"$work/err"; : >"$work/out"
silent "make: an output that takes nothing" 'standard output: No space left on device'; [ "$(wc -c <x.lst)" -eq 512 ]; judge "and the list is made" $?

# ---- texts with statements (docs/TEXT.md): fields by name, sums and searches, and a limit of what stores reach
# What a text makes, worked out by tests/make_blocks.py of docs/LISTS.md: its other lines are `bytes`, or instructions of the rows above.
cat >"$work/statements.py" <<'PYTHON'
import re
import sys
sys.path.insert(0, sys.argv[1])
import make_blocks as files
rows = {text.split(' ;')[0].strip(): bytes.fromhex(digits) for digits, text in (line.split(' ', 1) for line in open(sys.argv[2]))}
fields, list_, items = {}, b'', b''
for line in open('x.txt', encoding='latin-1', newline='\n'):
    name, *words = re.findall('[^ \t\r\n]+', line.split(';')[0]) or ['']
    if name == 'field':
        fields[words[0]] = int(words[1]), int(words[2])
    elif name in ('sum', 'difference'):
        build = files.sum_list if name == 'sum' else files.difference_list
        list_ += build(*(fields[words[k]][0] for k in (0, 1, 3)), fields[words[0]][1])
    elif name in ('equal', 'less'):
        list_ += files.search_list(name == 'less', *fields[words[0]])
        items += files.search_items(int(words[1]), fields[words[0]][1])
    elif name == 'greatest':
        list_ += files.greatest_list(*fields[words[0]])
    elif name == 'bytes':
        list_ += bytes.fromhex(''.join(words))
    elif name not in ('', 'reach'):
        list_ += rows[' '.join([name] + words)]
files.write('want.lst', files.blocks(files.LIST, list_))
files.write('want.itm', files.blocks(files.ITEMS, items))
print('m 0 0 0', len(list_), len(items))
PYTHON
as_built() { # x.txt makes the list that it should, and the items, of which there is a file only if there are any; nothing is said
    python3 -B "$work/statements.py" "$here/tests" "$work/rows" >"$work/want" || return
    made_of; cmp -s "$work/want" "$work/out" && [ ! -s "$work/err" ] && cmp -s x.lst want.lst && case $(cat "$work/want") in *' 0') [ ! -e x.itm ] ;; *) cmp -s x.itm want.itm ;; esac
}
states() { printf '%b' "$2" >x.txt; as_built; judge "make: $1" $?; } # NAME TEXT
# each statement by itself: WIDTH, and the greatest number of so many bits
fresh
while read -r width most <&3; do
    for statement in 'sum a b into s' 'difference a b into s' 'equal b 0' "equal s $most" 'less a 1' "less s $most" 'greatest b'; do
        states "$statement, of $width bits" "field a 0 $width\nfield b $((width + 7)) $width\nfield s $((256 - width)) $width\n$statement\n"
    done
done 3<<'CASES'
1 1
8 255
32 4294967295
33 8589934591
64 18446744073709551615
CASES
for width in $(seq 64); do
    value=$((0x5a5a5a5a5a5a5a5a & (1 << (width - 1)) - 1))
    printf 'field a %d %d\nfield b %d %d\nfield s %d %d\n' $((width % 5)) "$width" $((70 + width % 3)) "$width" $((256 - width)) "$width" >x.txt
    printf '%s\n' "difference s a into b" "less a $value" "sum a b into s" "greatest s" "equal s $value" >>x.txt; as_built || break
done; [ "$width" -eq 64 ] && as_built; judge "make: all of them in one text, of every width" $?
# fields: where they lie towards each other, and what they are called
while IFS='|' read -r name text <&3; do states "$name" "$text"; done 3<<'CASES'
fields alone|field a 0 8\nfield b 8 8\n
a limit alone|reach at most 1 word\nreach at most 256 words\n
S is A|field a 0 8\nfield b 8 8\nsum a b into a\ndifference a b into a\n
S is B|field a 0 8\nfield b 8 8\nsum a b into b\ndifference a b into b\n
one field for all three|field a 9 64\nsum a a into a\ndifference a a into a\n
S is A by another name|field a 9 8\nfield b 40 8\nfield s 9 8\nsum a b into s\nsum b a into s\n
A and B overlap, and S does not|field a 0 8\nfield b 3 8\nfield s 11 8\nsum a b into s\ndifference b a into s\n
S ends where A begins, and begins where B ends|field a 16 8\nfield b 0 8\nfield s 8 8\nsum a b into s\n
to the last bit|field a 255 1\nfield b 192 64\nequal a 1\ngreatest b\n
zeros in front|field a 007 008\nequal a 00000000000000000255\nreach at most 001 word\n
a name of eight characters, and another|field eightch1 0 8\nfield eightch2 8 8\nsum eightch1 eightch2 into eightch2\n
names in capitals and small letters|field a 0 8\nfield A 8 8\nfield aa 16 8\ngreatest A\ngreatest aa\ngreatest a\n
names of the plainest kind|field ! 0 8\nfield ~ 8 8\nfield 42 16 8\nfield - 24 8\nsum ! ~ into 42\nless 42 42\nless - 0\n
names that mean something elsewhere|field field 0 8\nfield sum 8 8\nfield into 16 8\nfield at 24 8\nfield word 32 8\nsum sum into into into\nless sum 5\ngreatest field\ngreatest at\nequal word 1\n
tabs, blanks and CR LF|\tfield  a\t0 8 \r\n  less\ta  5\r\n\r\ngreatest a\t\r\n
comments right behind a word|field a 0 8;one\nless a 5;two\n;three\nsum a a into a;four
the text ends with a word|field a 0 8\nless a 200
two searches, and a third|field a 0 8\nless a 5\nequal a 6\nless a 7\n
instructions between them|field a 0 8\nresolve\nless a 5\ndeliver m\nset a 255\nsum a a into a\nbytes 00 01 02 03 04 05 06 07\n
an instruction that takes from outside below the last search|field a 0 8\nless a 5\nequal a 6\nlogic y load outside\ngreatest a\nsum a a into a\n
four is its kind, and not its source|field a 0 8\nbytes 04 01 00 00 00 00 00 00\nless a 5\n
CASES
{ for k in $(seq 256); do echo "field f$k $((k - 1)) 1"; done; echo 'sum f1 f2 into f256'; echo 'greatest f255'; } >x.txt; as_built; judge "make: 256 fields" $?
# drawn texts: every search stands above what takes from outside
for seed in 1 2 3 4 5 6 7 8; do
    python3 -B - "$work/rows" "$seed" >x.txt <<'PYTHON'
import random
import sys
draw = random.Random(int(sys.argv[2]))
rows = [line.split(' ', 1)[1].split(' ;')[0].strip() for line in open(sys.argv[1])]
quiet = [row for row in rows if 'outside' not in row and not row.startswith('bytes')]
places, used = {}, 0
for k in range(draw.randint(20, 60)):
    width = draw.choice([size for _, size in places.values()] * (k % 3 > 0) or (1, 2, 5, 16, 31, 32, 64))
    where = {name: at for name, (at, size) in places.items() if size == width}
    kind = draw.choice(('field', 'field', 'sum', 'sum', 'difference', 'equal', 'less', 'greatest', 'reach', 'row', ''))
    name = ''.join(chr(draw.choice([c for c in range(33, 127) if c != 59])) for _ in range(draw.randint(1, 8)))
    if kind == 'field' and name not in places:
        places[name] = draw.randint(0, 256 - width), width
        print('field', name, *places[name])
    elif kind in ('sum', 'difference', 'equal', 'less', 'greatest') and where and used + 11 * width < 3900:
        a, b, s = (draw.choice(sorted(where)) for _ in range(3))
        used += 11 * width
        if kind == 'greatest':
            print(kind, a)
        elif kind in ('equal', 'less'):
            print(kind, a, draw.randrange(2 ** width), '; of', width)
        elif all(where[x] == where[s] or abs(where[x] - where[s]) >= width for x in (a, b)):
            print(kind, a, b, 'into', s)
    elif kind == 'reach':
        print('reach at most 256', draw.choice(('word', 'words')))
    elif kind in ('row', ''):
        row = draw.choice(quiet) if kind else draw.choice(('', '; a comment', ' \t '))
        print('set a 255\nset b 13\n' * (' mode ' in row) + row)
for row in rows[:6]:
    print('set a 255\n' + row)
PYTHON
    as_built; judge "make: a drawn text of $(wc -l <x.txt) lines, $(grep -cE '^(sum|difference|equal|less|greatest) ' x.txt) sums and searches" $?
done
# docs/TEXT.md: its statements, and how many instructions and items it says that a line makes
sed -n '/^    field height 0 32$/,/^$/s/^    //p' "$here/docs/TEXT.md" >page.txt; cp page.txt x.txt; as_built && [ "$(wc -l <x.txt)" -eq 6 ]; judge "docs/TEXT.md: its statements are made as they stand there" $?
{ grep '^field' page.txt; grep '^sum' page.txt; } >x.txt; made_of; grep -q '^sum .* ; 161 instructions$' page.txt && [ "$(cat "$work/out")" = "m 0 0 0 $((8 * 161)) 0" ]; judge "and its sum is 161 instructions" $?
{ grep '^field' page.txt; grep '^less' page.txt; } >x.txt; made_of; grep -q '^less .* ; 98 instructions, and 32 items$' page.txt && [ "$(cat "$work/out")" = "m 0 0 0 $((8 * 98)) $((32 * 32))" ]; judge "and its search 98, and 32 items" $?
python3 -B -c 'import sys; sys.path.insert(0, sys.argv[1]); import make_blocks as files; sys.exit(files.content(files.ITEMS, open("x.itm", "rb").read()) != files.search_items(20000, 32))' "$here/tests" 2>"$work/err"; judge "which are a file of items" $?

# what is refused, and where: a field, and a limit
refused_at() { printf '%b' "${5-}$4" >x.txt; made_of; unmade "make: $1 at $2:$3 of '$4'" "m $1 $2 $3 0 0"; } # NUMBER LINE COLUMN TEXT [HEAD]: of the text, behind HEAD
while read -r number line column text <&3; do refused_at "$number" "$line" "$column" "$text"; done 3<<'CASES'
60 1 1 Field a 0 8\n
60 1 1 fields a 0 8\n
60 2 1 field a 0 8\nsums a a into a\n
60 2 1 field a 0 8\ndifferences a a into a\n
60 2 1 field a 0 8\ndifferenc a a into a\n
60 2 1 field a 0 8\na\n
60 1 1 most\n
70 1 7 field ninechars 0 8\n
70 1 7 field a\177 0 8\n
70 1 7 field \200 0 8\n
70 1 7 field \377 0 8\n
70 1 7 field \001 0 8\n
70 1 7 field a\000 0 8\n
70 1 7 field a\013 0 8\n
70 2 7 field eightcha 0 8\nfield eightchar 8 8\n
70 1 7 field ninechars
71 2 7 field a 0 8\nfield a 8 8\n
71 2 7 field a 0 8\nfield a x\n
71 3 7 field a 0 8\nfield b 0 8\nfield a 0 8\n
64 1 9 field a 256 1\n
64 1 9 field a x 1\n
64 1 9 field a -1 1\n
64 1 9 field a 0000 1\n
69 1 10 field a 1; 1\n
64 1 9 field a a\n
30 1 11 field a 0 0\n
30 1 11 field a 0 65\n
30 1 11 field a 0 256\n
30 1 11 field a 0 x\n
30 1 11 field a 0 0008\n
30 1 13 field a 255 65\n
30 1 13 field a 255 0 9\n
31 1 13 field a 255 2\n
31 1 13 field a 193 64\n
31 1 13 field a 249 8 9\n
67 1 13 field a 0 8 9\n
67 1 14 field a 0 64 into\n
69 1 6 field
69 1 6 field\n
69 1 6 field;a 0 8\n
69 1 8 field a\n
69 1 8 field a;b 0 8\n
69 1 10 field a \r\n
69 1 10 field a 0
69 1 11 field a 0 ; 8\n
65 1 7 reach 1 word\n
65 1 7 reach At most 1 word\n
65 1 7 reach most 1 word\n
65 1 10 reach at 1 word\n
65 1 10 reach at least 1 word\n
64 1 15 reach at most 0 words\n
64 1 15 reach at most 257 words\n
64 1 15 reach at most x\n
64 1 15 reach at most 0001 word\n
64 1 15 reach at most word\n
65 1 17 reach at most 1 Word\n
65 1 17 reach at most 1 wordss\n
65 1 17 reach at most 1 wor\n
65 1 19 reach at most 256 m\n
67 1 22 reach at most 1 word word\n
67 1 23 reach at most 2 words 3\n
69 1 6 reach
69 1 9 reach at\n
69 1 14 reach at most\n
69 1 16 reach at most 1\n
69 1 17 reach at most 1 ; word\n
73 1 5 sum a a into a\nfield a 0 8\n
CASES
# sums and searches, behind fields of 8 bits: o overlaps a and b, and w has 16; `difference` stands for each `sum` as well, and `less` for each `equal`
head='field a 0 8\nfield b 8 8\nfield s 16 8\nfield o 4 8\nfield w 4 16\n'
while read -r number column text <&3; do
    refused_at "$number" 6 "$column" "$text" "$head"
    case $text in sum*) refused_at "$number" 6 $((column + 7)) "difference${text#sum}" "$head" ;; equal*) refused_at "$number" 6 $((column - 1)) "less${text#equal}" "$head" ;; esac
done 3<<'CASES'
73 5 sum c b into s\n
73 5 sum A b into s\n
73 5 sum ninechars b into s\n
73 5 sum a\001 b into s\n
73 5 sum \377\n
73 7 sum a c into s\n
73 7 sum a into s\n
74 7 sum a w into s\n
74 7 sum a w\n
74 7 sum w a into w\n
65 9 sum a b s\n
65 9 sum a b Into s\n
65 9 sum a b from s\n
73 14 sum a b into c\n
73 14 sum a b into into\n
74 14 sum a b into w\n
32 14 sum a s into o\n
32 14 sum s a into o\n
32 14 sum s b into o\n
32 14 sum o s into a\n
32 14 sum s o into b\n
32 14 sum a a into o x\n
67 16 sum a b into s s\n
67 16 sum a b into s flip 1\n
69 4 sum
69 4 sum\n
69 6 sum a\n
69 8 sum a b\n
69 8 sum a b;into s\n
69 13 sum a b into
69 14 sum a b into ; s\n
73 7 equal c 5\n
73 7 equal 5 a\n
73 7 equal c\n
76 9 equal a x\n
76 9 equal a -1\n
76 9 equal a 1e3\n
76 9 equal a 0x5\n
76 9 equal a 5,\n
76 9 equal a \0615\377\n
76 9 equal a 000000000000000000005\n
76 9 equal a 18446744073709551616\n
76 9 equal a 99999999999999999999\n
76 9 equal a 100000000000000000000\n
34 9 equal a 256\n
34 9 equal w 65536\n
34 9 equal a 18446744073709551615\n
34 9 equal a 256 7\n
67 11 equal a 5 6\n
67 13 equal a 255 flip 1\n
69 6 equal
69 8 equal a\n
69 8 equal a;5\n
69 9 equal a ; 5\n
73 10 greatest c\n
73 10 greatest ninechars\n
67 12 greatest a b\n
67 12 greatest a 5\n
69 9 greatest
69 9 greatest;a\n
69 10 greatest ; a\n
CASES
# the most that a text has: fields, instructions, items
fresh; head=$(printf 'field f%d 0 8\\n' $(seq 256))
while read -r number column text <&3; do refused_at "$number" 257 "$column" "$text" "$head"; done 3<<'CASES'
72 7 field f257 0 8\n
72 7 field f257
72 7 field F1 x
71 7 field f256 0 8\n
70 7 field ninechars 0 8\n
69 6 field\n
73 10 greatest f257\n
CASES
{ echo 'field a 0 64'; times 16 'equal a 5'; } >x.txt; as_built && grep -qx 'm 0 0 0 24832 32768' "$work/out"; judge "make: 1,024 items" $?
printf 'field b 0 1\nless b 1\n' >>x.txt; made_of; unmade "make: and one more" 'm 4 0 0 0 0'
echo halt >>x.txt; made_of; unmade "make: what is wrong in a line before that they are too many, of items too" 'm 60 20 1 0 0'
{ echo 'field a 0 64'; times 22 'equal a 5'; } >x.txt; made_of; unmade "make: too many of both: the instructions come first" 'm 3 0 0 0 0'
{ echo 'field a 0 64'; times 5 'greatest a'; times 571 resolve; } >x.txt; as_built && grep -qx 'm 0 0 0 32768 0' "$work/out"; judge "make: 4,096 instructions, of statements too" $?
{ echo 'field a 0 64'; times 571 resolve; times 4 'greatest a'; echo resolve; echo 'greatest a'; } >x.txt; made_of; unmade "make: and one more" 'm 3 0 0 0 0'
{ echo 'field a 0 64'; times 200 'greatest a'; } >x.txt; made_of; unmade "make: and far more" 'm 3 0 0 0 0'
{ echo 'field a 0 64'; times 200 'greatest a'; echo 'greatest b'; } >x.txt; made_of; unmade "make: what is wrong in a line before that" 'm 73 202 10 0 0'
{ echo 'field a 0 8'; printf '%1048552sless a 5' ''; } >x.txt; as_built && [ "$(wc -c <x.txt)" -eq 1048572 ]; judge "make: a statement that is far to the right" $?

# a limit: what stands under one, and what does not
fresh
makes "limit: a word under one word" 'reach at most 1 word\nstore word 9 from m\nmstore word 9 from m\n' 020101FF09000000 030101FF09000000
makes "limit: as many words as it says" 'reach at most 2 words\nstore mode 254 address 9 from m\nreach at most 128 words\nstore mode 1 address 9 from m\nreach at most 256 words\nstore slice 9 from m\n' 020101FE09000000 0201010109000000 0201010009000000
makes "limit: the lines above it are not judged" 'store slice 9 from m\nstore mode a address 9 from m\nreach at most 1 word\n' 0201010009000000 0201020009000000
makes "limit: a later one lets more stand" 'reach at most 1 word\nstore word 9 from m\nreach at most 256 words\nstore slice 9 from m\n' 020101FF09000000 0201010009000000
makes "limit: registers set below it" 'reach at most 1 word\nset a 255\nset b 255\nstore mode a address 9 from m\nmstore mode b address 9 from m\n' 060002FF00000000 060003FF00000000 0201020009000000 0301030009000000
makes "limit: registers set above it, and again" 'set a 0\nset a 255\nreach at most 1 word\nstore mode a address 9 from m\n' 0600020000000000 060002FF00000000 0201020009000000
makes "limit: a register set in bytes, whatever else is wrong with them" 'reach at most 1 word\nbytes 06 04 02 FF 09 09 09 09\nstore mode a address 9 from m\n' 060402FF09090909 0201020009000000
makes "limit: a store in bytes, by what the register says and not by its byte 3" 'set b 255\nreach at most 1 word\nbytes 02 01 03 00 09 00 00 00\n' 060003FF00000000 0201030009000000
makes "limit: by its byte 3 where the tag is another" 'reach at most 1 word\nbytes 02 01 00 FF 09 00 00 00\nbytes 03 09 FF FF 09 09 09 09\n' 020100FF09000000 0309FFFF09090909
makes "limit: what is no store" 'reach at most 1 word\ndeliver slice 9\nsetm slice 9\nlogic x load mode a address 9\nbytes 07 01 01 00 09 00 00 00\nset a 0\nresolve\n' 0400010009000000 0100010009000000 000002000900000A 0701010009000000 0600020000000000 0500000000000000
states "limit: searches store nothing" 'field a 0 8\nreach at most 1 word\nequal a 5\nless a 5\ngreatest a\n'
states "limit: a sum and a difference under 256 words" 'field a 0 8\nreach at most 256 words\nsum a a into a\ndifference a a into a\n'
while read -r number line column text <&3; do refused_at "$number" "$line" "$column" "$text"; done 3<<'CASES'
75 2 1 reach at most 1 word\nstore slice 9 from m\n
75 2 1 reach at most 1 word\nmstore slice 9 from m\n
75 2 3 reach at most 1 word\n\t store mode 254 address 9 from m ; reaches 1 word\n
75 2 1 reach at most 255 words\nstore slice 9 from m flip 3
75 2 1 reach at most 127 words\nmstore mode 1 address 9 from outside\n
75 3 1 reach at most 2 words\nstore mode 254 address 9 from m\nstore mode 252 address 9 from m\n
75 4 1 reach at most 256 words\nstore slice 9 from m\nreach at most 128 words\nstore slice 9 from m\n
75 2 1 reach at most 256 words\nstore mode a address 9 from m\n
75 2 1 reach at most 256 words\nmstore mode b address 9 from m\n
75 3 1 set b 255\nreach at most 1 word\nstore mode a address 9 from m\n
75 3 1 set a 255\nreach at most 1 word\nstore mode b address 9 from m\n
75 3 1 set a 254\nreach at most 1 word\nstore mode a address 9 from m\n
75 4 1 reach at most 1 word\nset a 255\nset a 0\nstore mode a address 9 from m\n
75 2 1 reach at most 1 word\nstore mode a address 9 from m\nset a 255\n
75 3 1 reach at most 1 word\nbytes 06 00 01 FF 00 00 00 00\nstore mode a address 9 from m\n
75 3 1 reach at most 1 word\nbytes 06 00 03 FE 00 00 00 00\nstore mode b address 9 from m\n
75 2 1 reach at most 1 word\nbytes 02 01 01 00 09 00 00 00\n
75 2 1 reach at most 1 word\nbytes 03 01 01 FE 09 00 00 00\n
75 2 1 reach at most 1 word\nbytes 02 09 01 00 09 FF FF FF\n
75 2 1 reach at most 1 word\nbytes 02 01 00 00 09 00 00 00\n
75 2 1 reach at most 1 word\nbytes 02 01 04 FE 09 00 00 00\n
75 2 1 reach at most 256 words\nbytes 02 01 02 FF 09 00 00 00\n
75 3 1 set a 0\nreach at most 255 words\nbytes 02 01 02 FF 09 00 00 00\n
75 3 1 field a 0 8\nreach at most 255 words\nsum a a into a\n
75 3 2 field a 0 1\nreach at most 1 word\n difference a a into a\n
75 2 1 reach at most 1 word\nstore slice 9 from m\nhalt\n
67 2 22 reach at most 1 word\nstore slice 9 from m shift 1 mod 8\n
68 2 28 reach at most 1 word\nbytes 02 01 01 00 00 00 00 0G\n
69 2 19 reach at most 1 word\nstore slice 9 from\n
67 3 16 field a 0 8\nreach at most 1 word\nsum a a into a a\n
64 2 15 reach at most 1 word\nreach at most 0 words\nstore slice 9 from m\n
CASES

# 77: a search below an instruction that takes from outside, behind a field
while read -r number line column text <&3; do refused_at "$number" "$line" "$column" "$text" 'field a 0 8\n'; done 3<<'CASES'
77 3 1 logic y load outside\nless a 5\n
77 3 1 setm outside\nequal a 5\n
77 3 3 deliver outside\n  less a 5 ; of its own\n
77 3 1 store word 13 from outside\nless a 5
77 4 1 mstore slice 13 from outside\nresolve\nequal a 5\n
77 4 1 less a 5\nsetm outside\nless a 5\n
77 4 1 greatest a\nsetm outside\nequal a 5\nequal a 5\n
77 3 1 bytes FF 04 FF FF FF FF FF FF\nless a 5\n
77 3 1 bytes 05 04 00 00 00 00 00 00\nless a 5\n
77 3 1 setm outside\nless a 5\nhalt\n
34 3 8 setm outside\nless a 256\n
76 3 8 setm outside\nless a x\n
73 3 7 setm outside\nequal b 5\n
67 3 10 setm outside\nless a 5 6\n
69 3 7 setm outside\nless a\n
60 3 1 setm outside\nhalt\nless a 5\n
CASES

# the items' file: only where there are any; and where it cannot be made, there is no list either
fresh; printf 'field a 0 8\nless a 5\n' >x.txt; echo mine >x.itm
program make x.txt x.lst x.itm; silent "make: items that are there are not written over" 'x.itm: File exists'; [ ! -e x.lst ] && [ "$(cat x.itm)" = mine ]; judge "which are as they were, and no list is made" $?
program make x.txt x.lst nothing/x.itm; silent "make: items that cannot be made" 'nothing/x.itm: No such file or directory'; [ ! -e x.lst ]; judge "and no list is made" $?
program make x.txt x.lst x.txt; silent "make: the text itself for the items" 'x.txt: File exists'; [ ! -e x.lst ] && [ "$(wc -l <x.txt)" -eq 2 ]; judge "which is as it was, and no list is made" $?
program make x.txt x.lst x.lst; silent "make: one name for list and items" 'x.lst: File exists'; [ ! -e x.lst ]; judge "and nothing is made" $?
program make x.txt x.lst .; [ ! -s "$work/out" ] && grep -q '^\.: ' "$work/err" && [ ! -e x.lst ]; judge "make: a folder for the items" $?
ln -s nowhere link.itm; program make x.txt x.lst link.itm; silent "make: a link that leads nowhere for them" 'link.itm: File exists'; [ ! -e x.lst ] && [ ! -e nowhere ]; judge "and nothing is made, nor where it leads" $?
echo mine >x.lst; program make x.txt x.lst y.itm; silent "make: a list that is there, and items" 'x.lst: File exists'; [ "$(cat x.lst)" = mine ] && [ ! -e y.itm ]; judge "it is as it was, and no items are made" $?
rm x.lst; echo 'greatest a' >>x.txt; sed -i /^less/d x.txt; program make x.txt x.lst x.itm; [ "$(cat "$work/out")" = 'm 0 0 0 712 0' ] && [ "$(cat x.itm)" = mine ] && [ -s x.lst ]; judge "make: no items: what has their name is as it was" $?
rm x.lst; program make x.txt x.lst nothing/x.itm; [ "$(cat "$work/out")" = 'm 0 0 0 712 0' ] && [ ! -s "$work/err" ] && [ -s x.lst ]; judge "make: and need not be a name that can be made" $?
fresh; printf 'field a 0 8\nless b 5\n' >x.txt; echo mine >x.itm; program make x.txt x.lst x.itm; [ "$(cat "$work/out")" = 'm 73 2 6 0 0' ] && [ ! -s "$work/err" ] && [ ! -e x.lst ] && [ "$(cat x.itm)" = mine ]; judge "make: a refusal comes before items that cannot be made" $?
fresh; printf 'field a 0 64\nless a 5\n' >x.txt; (ulimit -f 2; trap '' XFSZ; program make x.txt x.lst x.itm); [ ! -s "$work/out" ] && grep -q '^x.itm: ' "$work/err" && [ ! -e x.lst ] && [ ! -e x.itm ]; judge "make: a write of the items that fails half way: neither is left" $?
(ulimit -f 1; trap '' XFSZ; program make x.txt x.lst x.itm); [ ! -s "$work/out" ] && grep -q '^x.lst: ' "$work/err" && [ ! -e x.lst ] && [ ! -e x.itm ]; judge "make: and of the list" $?
fresh; printf 'field a 0 8\nless a 5\n' >x.txt; (cd "$work/f" && timeout 20 ${emulator:+"$emulator"} "$loader" --library-path "$tools/lib" "$here/crates/program/out/program" make x.txt x.lst x.itm >/dev/full) 2>"$work/err"; : >"$work/out"
silent "make: an output that takes nothing, and items" 'standard output: No space left on device'; [ "$(wc -c <x.lst)" -eq 512 ] && [ "$(wc -c <x.itm)" -eq 512 ]; judge "and both are made" $?
# What is made is run, on fields a, b and s of 32 bits that start at 0, 40 and 80, every word marked: PYTHON says of the `a` and `b` that a word had which `s` it has
# now, and whether it is `marked`; `every` are the a of all words.
works() { # NAME TEXT PYTHON
    fresh; rm run.lst
    printf '%b' "field a 0 32\nfield b 40 32\nfield s 80 32\n$2" >x.txt; made_of; mv x.lst run.lst; [ ! -e x.itm ] || mv x.itm in.itm
    make 'words = [draw.choice((7, 7, 20000, 2 ** 32 - 1, draw.randrange(2 ** 32))).to_bytes(4, "little") + word[4:] for word in words]; data = files.picture(words, registers[:64] + b"\xff" * 32)'
    run
    python3 -B - "$here/tests" >"$work/got" 2>&1 <<PYTHON
import sys
sys.path.insert(0, sys.argv[1])
import make_blocks as files
before, after = ([int.from_bytes(word, 'little') for word in files.words_of(name)] for name in ('before.pic', 'after.pic'))
most, every, marks = 2 ** 32, [word % 2 ** 32 for word in before], files.marks_of('after.pic')
for word, (old, new) in enumerate(zip(before, after)):
    a, b, s = (old >> at & most - 1 for at in (0, 40, 80))
    $3
    if new != old & ~(most - 1 << 80) | s << 80 or (word in marks) != marked:
        print(word, a, b, s, marked)
PYTHON
    [ $status -eq 0 ] && [ ! -s "$work/got" ]; judge "$1" $?
}
works "run: a sum" 'sum a b into s\n' 's, marked = (a + b) % most, a + b >= most'
works "run: a difference" 'difference a b into s\n' 's, marked = (a - b) % most, a >= b'
works "run: a search for equal" 'equal a 7\n' 'marked = a == 7'
works "run: a search for less" 'less a 20000\n' 'marked = a < 20000'
works "run: the greatest" 'greatest a\n' 'marked = a == most - 1'
works "run: a sum, then a search in it" 'sum a b into s\nless s 2000000000\n' 's = (a + b) % most; marked = s < 2000000000'
works "run: and the greatest of those" 'less a 4294967295\ngreatest a\n' 'marked = a == max(n for n in every if n < most - 1)'
works "run: two searches, of which the second is the last word" 'equal a 7\nequal a 20000\ndifference b a into s\nless a 7\n' 's = (b - a) % most; marked = a < 7'

# ---- the demonstration: 20 stations, word 13 stored by itself, the highest marked, and the marks resolved
"$here/staran" >"$work/out" 2>"$work/err"; status=$?
[ $status -eq 0 ] && grep -qx 'r 0 0 0 519 1 3' "$work/out" && [ "$(grep -cE '^ +[0-9]+ ' "$work/out")" -eq 20 ]; judge "the demonstration shows its 20 stations" $?
awk '/^ +[0-9]+ / { if ($1 == 13 ? $5 != 250000 || $6 != 0 || $7 != 250000 : $5 != $2 || $6 != $3 || $7 != $2 + $3) wrong = 1 } END { exit wrong }' "$work/out"
judge "every word but 13 has its sum, and word 13 what in.itm has" $?
awk '/^ +[0-9]+ / { if ($7 > most) most = $7; sum[$1] = $7; star[$1] = / \*$/ } END { for (w in sum) if (star[w] != (sum[w] == most)) exit 1; exit !most }' "$work/out" &&
    grep -qxE '0020(00){30}' "$work/out"
judge "the highest station is marked in the table and in the item delivered, and no other" $?
grep -qxE '010d000100(00){27}' "$work/out"; judge "the resolver says that there is one, station 13" $?

echo "$passed passed, $failed failed"
[ "$failed" -eq 0 ]
