//! The cases of texts with fields, statements and a limit (docs/TEXT.md): each number at each word of each statement,
//! behind and before other lines; fields at the ends of the word, touching and crossing by one bit; values with zeros in
//! front and up to 2^64; stores under a limit, in words and in bytes, by modes and by registers; searches below what takes
//! from outside; names of all sorts; lists and items just long enough and too long by one; both buffers just long enough
//! and one byte too short.
//!
//! A record has no room for 256 names, so no case is refused with 72: the emulator's tests ask it.

use crate::case::*;
use crate::plan::Plan;

/// How many stored cases stand before these.
#[cfg(test)]
pub const BEFORE: usize = 7076;
/// How many of the stored cases are random ones.
const RANDOM: usize = 6;

/// The longest list, in instructions, and how many characters of a text a record has room for.
const MOST: usize = 4096;
const LETTERS: usize = 930;

/// A line that is refused: the line, the number, the column.
type Refused = (&'static [u8], u32, u32);

/// One line each, refused below the fields of `ABOVE`. Nothing stands behind the line's last byte.
const REFUSED: [Refused; 135] = [
    // no statement
    (b"Field x 0 8", 60, 1),
    (b"fields x 0 8", 60, 1),
    (b"  sums a b into s", 60, 3),
    (b"differenc a b into s", 60, 1),
    (b"differences a b into s", 60, 1),
    (b"difference\x00 a b into s", 60, 1),
    (b"less\x80 a 3", 60, 1),
    (b"Reach at most 1 word", 60, 1),
    (b"\tgreatestt a", 60, 2),
    (b"s = a + b", 60, 1),
    // instructions
    (b"logic z xor m", 61, 7),
    (b"logic x 16 m", 62, 9),
    (b"store a from m", 63, 7),
    (b"setm outsides", 63, 6),
    (b"set a 256", 64, 7),
    (b"store slice 3 into m", 65, 15),
    (b"setm m shift 3 mod 8", 66, 14),
    (b"resolve a", 67, 9),
    (b"bytes 00 01 02 03 04 05 06 0G", 68, 28),
    // NAME
    (b"field ninechars 0 8", 70, 7),
    (b"field ninechars", 70, 7),
    (b"field eightchrs 300 99", 70, 7),
    (b"field x\x00 0 8", 70, 7),
    (b"field \x1f 0 8", 70, 7),
    (b"field a\x7f 0 8", 70, 7),
    (b"field  \x80 0 8", 70, 8),
    (b"field\t\xff 0 8", 70, 7),
    (b"field a\x0b 0 8", 70, 7),
    (b"field h\xa0 x y z", 70, 7),
    (b"field a 0 8", 71, 7),
    (b"field a", 71, 7),
    (b"field s 256 0 x", 71, 7),
    (b"  field\teightchr 255 2", 71, 9),
    // START
    (b"field x 256 8", 64, 9),
    (b"field x 999 0", 64, 9),
    (b"field x 0000 8", 64, 9),
    (b"field x y 8", 64, 9),
    (b"field x +1 8", 64, 9),
    (b"field x 4294967296 8", 64, 9),
    (b"field x 0\x00 8", 64, 9),
    (b"field field field 8", 64, 13),
    (b"field x 256", 64, 9),
    // WIDTH
    (b"field x 0 0", 30, 11),
    (b"field x 0 000", 30, 11),
    (b"field x 0 65", 30, 11),
    (b"field x 0 0008", 30, 11),
    (b"field x 0 264", 30, 11),
    (b"field x 255 65", 30, 13),
    (b"field x 0 y", 30, 11),
    (b"field x 0 ninechars", 30, 11),
    (b"field x 0 65 9", 30, 11),
    (b"field x 255 2", 31, 13),
    (b"field x 193 64", 31, 13),
    (b"field x 200 057", 31, 13),
    (b"field x 249 8 8", 31, 13),
    (b"\rfield x 254\t3", 31, 14),
    // A
    (b"sum x b into s", 73, 5),
    (b"sum A b into s", 73, 5),
    (b"sum x", 73, 5),
    (b"sum ninechars b into s", 73, 5),
    (b"sum eightchrs a into s", 73, 5),
    (b"sum eightch a into s", 73, 5),
    (b"difference\tlongs b into s", 73, 12),
    (b"equal x 3", 73, 7),
    (b"equal 3 a", 73, 7),
    (b"less a\x00 3", 73, 6),
    (b"less \xe1 3", 73, 6),
    (b"greatest x", 73, 10),
    (b"greatest x y", 73, 10),
    // B
    (b"sum a x into s", 73, 7),
    (b"sum a into s", 73, 7),
    (b"difference a B into s", 73, 14),
    (b"sum a ninechars into s", 73, 7),
    (b"sum a w into s", 74, 7),
    (b"sum a w", 74, 7),
    (b"sum a w s", 74, 7),
    (b"sum a w into x", 74, 7),
    (b"sum w a into w", 74, 7),
    (b"difference eightchr a into eightchr", 74, 21),
    // into
    (b"sum a b s", 65, 9),
    (b"sum a b INTO s", 65, 9),
    (b"sum a b int s", 65, 9),
    (b"sum a b intoo s", 65, 9),
    (b"sum a b into\x00 s", 65, 9),
    (b"sum a b intointointo s", 65, 9),
    (b"difference a a a", 65, 16),
    (b"sum a b = x", 65, 9),
    (b"sum a b = w", 65, 9),
    // S
    (b"sum a b into x", 73, 14),
    (b"difference a b into S s", 73, 21),
    (b"sum a b into s\x7f", 73, 14),
    (b"sum a b into w", 74, 14),
    (b"sum w w into a a", 74, 14),
    (b"difference long long into w", 74, 27),
    // VALUE
    (b"equal a x", 76, 9),
    (b"equal a +1", 76, 9),
    (b"equal a 3\x00", 76, 9),
    (b"equal a \xb3", 76, 9),
    (b"equal a 3x 3", 76, 9),
    (b"less a 18446744073709551616", 76, 8),
    (b"less long 18446744073709551616", 76, 11),
    (b"equal long 36893488147419103232", 76, 12),
    (b"equal long 99999999999999999999", 76, 12),
    (b"less a 000000000000000000001", 76, 8),
    (b"less long 018446744073709551615", 76, 11),
    (b"equal a 256", 34, 9),
    (b"less a 256 x", 34, 8),
    (b"equal eightchr 2", 34, 16),
    (b"less w 00000000000000065536", 34, 8),
    (b"equal a 4294967299", 34, 9),
    (b"equal w 18446744073709551615", 34, 9),
    // reach
    (b"reach most", 65, 7),
    (b"reach At most 1 word", 65, 7),
    (b"reach atatatatat most 1 word", 65, 7),
    (b"reach at least 1 word", 65, 10),
    (b"reach at most\x00 1 word", 65, 10),
    (b"reach at most 0 words", 64, 15),
    (b"reach at most 257 words", 64, 15),
    (b"reach at most 999 words", 64, 15),
    (b"reach at most 0001 word", 64, 15),
    (b"reach at most word", 64, 15),
    (b"reach at most 1\x80 word", 64, 15),
    (b"reach  at\tmost\t512 words", 64, 16),
    (b"reach at most 1 Word", 65, 17),
    (b"reach at most 1 wor", 65, 17),
    (b"reach at most 1 wordss", 65, 17),
    (b"reach at most 1 word\x00", 65, 17),
    // more than the statement takes
    (b"field x 0 8 9", 67, 13),
    (b"sum a b into s s", 67, 16),
    (b"difference a b into s flip 3", 67, 23),
    (b"equal a 3 3", 67, 11),
    (b"less a 255\r\x00", 67, 12),
    (b"greatest a b", 67, 12),
    (b"reach at most 1 word word", 67, 22),
    (b"reach at most 256 words ninechars", 67, 25),
];

/// Lines that end too early.
const EARLY: [&[u8]; 20] = [
    b"field",
    b"field x",
    b"field x 0",
    b"field x 249 \t",
    b"sum",
    b"sum a",
    b"sum a b",
    b"sum a b into",
    b"\tdifference",
    b"difference a ",
    b"difference a a",
    b"difference a b into\r",
    b"equal",
    b"equal a",
    b"less ",
    b"  greatest",
    b"reach",
    b"reach at",
    b"reach at most",
    b"reach at most 1",
];

/// The fields that those lines are about, in several forms; with the lines that end in it, and the columns behind the last
/// of these.
const ABOVE: [(&[u8], u32, u32); 5] = [
    (b"field a 0 8\nfield b 8 8\nfield s 20 8\nfield w 40 16\nfield long 192 64\nfield eightchr 255 1\n", 6, 0),
    (b"; fields\r\nfield a 000 08;x\nfield b 008 8\r\n\n\tfield\ts\t20\t8\nfield w 40 16\nfield long 192 064 ; 64\n  field eightchr 255 1\n  ", 8, 2),
    (b"field eightchr 255 1\nfield long 192 64\ngreatest long\nfield w 40 16\nfield s 20 8\nfield b 8 8\nfield a 0 8\nsum a b into s\n", 8, 0),
    (b"resolve\nfield long 192 64\nfield s 20 8\nfield a 0 8\nequal a 7;8\nfield b 8 8\nfield w 40 16\nfield eightchr 255 1\n\r\n\t", 9, 1),
    (b"field a 0 8\nfield aaa 9 9\nreach at most 256 words\nfield b 8 8\nfield s 20 8\nless s 00\nfield long 192 64\nfield eightchr 255 1\nset a 13\nfield w 40 16\n\n\n", 12, 0),
];
/// What stands behind it; none of these begins with a blank, a tab or a carriage return.
const BEHIND: [&[u8]; 7] = [b"", b"\n", b";x", b"\nresolve\n", b"; no ; x\nxyz 3\n", b"\nsum a\n", b";\n;\n\ngreatest a"];

/// Whole texts, and where they are refused: number, line, column; all 0 where they stand. Stores under a limit.
const LIMITS: [(&[u8], u32, u32, u32); 54] = [
    (b"reach at most 1 word\nstore word 9 from m", 0, 0, 0),
    (b"reach at most 1 word\nstore slice 9 from m", 75, 2, 1),
    (b"reach at most 1 word;\n\r\t mstore slice 9 from m flip 3;x", 75, 2, 4),
    (b"store slice 9 from m\nreach at most 1 word\nmstore word 3 from x flip 3\n", 0, 0, 0),
    (b"reach at most 2 words\nstore mode 254 address 9 from m\nstore mode 252 address 9 from m", 75, 3, 1),
    (b"reach at most 128 words\nmstore mode 1 address 3 from y\nmstore mode 128 address 3 from y\nmstore slice 3 from y", 75, 4, 1),
    (b"reach at most 255 words\nstore slice 3 from m", 75, 2, 1),
    (b"reach at most 256 words\nstore slice 3 from m\nmstore slice 3 from x", 0, 0, 0),
    (b"reach at most 7 words\nstore mode 252 address 3 from m\n store mode 248 address 3 from m", 75, 3, 2),
    (b"reach at most 8 words\nstore mode 31 address 3 from m\nstore mode 248 address 3 from m\nstore mode 146 address 3 from m", 75, 4, 1),
    (b"reach at most 016 word\nstore mode 15 address 3 from m\nstore mode 7 address 3 from m", 75, 3, 1),
    (b"reach at most 1 words\nstore mode 255 address 0 from m", 0, 0, 0),
    // a later limit
    (b"reach at most 1 word\nreach at most 256 words\nstore slice 3 from m", 0, 0, 0),
    (b"reach at most 256 words\nreach at most 1 word\nstore slice 3 from m", 75, 3, 1),
    (b"reach at most 4 words\nstore mode 252 address 3 from m\nreach at most 2 words\nstore mode 254 address 3 from m\nstore mode 252 address 3 from m", 75, 5, 1),
    (b"reach at most 2 words\nreach at most 4 words\nstore mode 252 address 3 from m\nreach at most 1 word\nstore word 3 from m\nstore mode 254 address 3 from m", 75, 6, 1),
    // what does not store
    (b"reach at most 1 word\ndeliver slice 3\nsetm slice 4\nlogic x load slice 9\nresolve\nset a 0\nsetm mode a address 3", 0, 0, 0),
    (b"reach at most 1 word\ndeliver mode b address 3\nbytes 04 00 01 00 09 00 00 00\nbytes 82 01 01 00 09 00 00 00\nbytes 12 01 01 00 09 00 00 00", 0, 0, 0),
    // mode registers
    (b"store mode a address 3 from m\nstore mode b address 3 from m", 0, 0, 0),
    (b"reach at most 256 words\nstore mode a address 3 from m", 75, 2, 1),
    (b"reach at most 256 words\n mstore mode b address 3 from m", 75, 2, 2),
    (b"set a 255\nreach at most 1 word\nstore mode a address 3 from m", 0, 0, 0),
    (b"set b 255\nreach at most 1 word\nstore mode a address 3 from m", 75, 3, 1),
    (b"set a 255\nreach at most 256 words\nstore mode b address 3 from m", 75, 3, 1),
    (b"set a 254\nreach at most 1 word\nstore mode a address 3 from m", 75, 3, 1),
    (b"reach at most 1 word\nset b 0\nset b 255\nmstore mode b address 3 from y\nset b 127\nmstore mode b address 3 from m", 75, 6, 1),
    (b"reach at most 256 words\nstore mode b address 3 from m\nset b 255", 75, 2, 1),
    (b"set a 255\nset b 0\nreach at most 1 word\nstore mode a address 3 from m\nstore mode b address 9 from m", 75, 5, 1),
    (b"bytes 06 04 02 FF 01 01 01 01\nreach at most 1 word\nstore mode a address 3 from m", 0, 0, 0),
    (b"bytes 06 00 03 fe 00 00 00 00\nreach at most 2 words\nstore mode b address 3 from m\nreach at most 1 word\nstore mode b address 3 from m", 75, 5, 1),
    (b"bytes 06 00 01 FF 00 00 00 00\nbytes 06 00 04 FF 00 00 00 00\nreach at most 256 words\nstore mode b address 3 from m", 75, 4, 1),
    (b"bytes 06 00 00 FF 00 00 00 00\nbytes 86 00 02 FF 00 00 00 00\nreach at most 1 word\nstore mode a address 3 from m", 75, 4, 1),
    (b"set a 255\nbytes 02 01 02 00 00 00 00 00\nbytes 05 00 02 00 00 00 00 00\nreach at most 1 word\nstore mode a address 3 from m", 0, 0, 0),
    // in bytes, whatever else is wrong with them
    (b"reach at most 1 word\nbytes 02 00 00 00 00 00 00 00", 75, 2, 1),
    (b"reach at most 1 word\nbytes 02 09 00 FF 00 FF FF FF\nbytes 03 ff ff ff ff ff ff ff\nbytes 02 01 01 fe 00 00 00 00", 75, 4, 1),
    (b"reach at most 1 word\nbytes 03 01 09 FE 00 00 00 00", 75, 2, 1),
    (b"reach at most 2 words\nbytes 03 01 09 FE 00 00 00 00\nbytes 02 00 80 7f ff 90 90 ff\n\tbytes 02 00 00 3f 00 00 00 00", 75, 4, 2),
    (b"reach at most 1 word\nbytes 02 FF 01 00 00 00 00 00", 75, 2, 1),
    (b"reach at most 256 words\nbytes 02 01 02 FF 00 00 00 00", 75, 2, 1),
    (b"set a 255\nset b 0\nreach at most 1 word\nbytes 02 01 02 00 09 00 00 00\nbytes 03 07 02 01 09 09 09 09\nbytes 03 01 03 ff 09 00 00 00", 75, 6, 1),
    (b"reach at most 256 words\nbytes 02 01 00 00 00 00 00 00\nbytes 03 01 04 00 00 00 00 00\nbytes 03 01 ff 00 00 00 00 00", 0, 0, 0),
    // sums store slices, and searches nothing
    (b"field a 0 8\nreach at most 255 words\nsum a a into a", 75, 3, 1),
    (b"field a 0 8\nreach at most 1 word\n \tdifference a a into a;", 75, 3, 3),
    (b"field a 0 8\nreach at most 256 words\nsum a a into a\ndifference a a into a", 0, 0, 0),
    (b"field a 0 8\nsum a a into a\nreach at most 1 word\ngreatest a\nequal a 3\nless a 3", 0, 0, 0),
    (b"field a 0 8\nset a 255\nreach at most 1 word\ngreatest a\nstore mode a address 3 from m\nless a 3\nstore mode b address 3 from m", 75, 7, 1),
    // behind all else that is wrong with the line
    (b"reach at most 1 word\nstore slice 3 from m x", 67, 2, 22),
    (b"reach at most 1 word\nstore slice 3 from q", 63, 2, 20),
    (b"reach at most 1 word\nstore slice 3 from m flip", 69, 2, 26),
    (b"reach at most 1 word\nbytes 02 01 01 00 00 00 00 00 00", 67, 2, 31),
    (b"field a 0 8\nreach at most 1 word\nsum a a into x", 73, 3, 14),
    (b"field a 0 8\nreach at most 1 word\ndifference a a into a a", 67, 3, 23),
    (b"field a 0 8\nfield c 3 8\nreach at most 1 word\nsum a a into c", 32, 4, 14),
    (b"field a 0 8\nreach at most 1 word\nsum a a into a\nstore slice", 75, 3, 1),
];

/// The same of what takes from outside above a search.
const OUTSIDE: [(&[u8], u32, u32, u32); 24] = [
    (b"field a 0 8\nsetm outside\nequal a 3", 77, 3, 1),
    (b"field a 0 8\nlogic x load outside\n\n  less a 3 ; x", 77, 4, 3),
    (b"mstore word 3 from outside flip 1\nfield a 0 8\n\tequal a 3\nsum", 77, 3, 2),
    (b"deliver outside\nresolve\nsetm m\nfield a 0 8\nless a 0", 77, 5, 1),
    (b"field a 0 8\nequal a 3\nstore slice 7 from outside\nless a 3", 77, 4, 1),
    (b"field a 0 8\nequal a 3\nless a 4\nsetm outside", 0, 0, 0),
    (b"field a 0 8\nequal a 3\nless a 4\nequal a 5\ngreatest a\nless a 6", 0, 0, 0),
    (b"setm outside\nfield a 0 8\ngreatest a\nsum a a into a\ndifference a a into a\nreach at most 3 words\nresolve", 0, 0, 0),
    (b"bytes 05 04 00 00 00 00 00 00\nfield a 0 8\nless a 3", 77, 3, 1),
    (b"bytes ff 04 ff ff ff ff ff ff\nfield a 0 8\nequal a 3", 77, 3, 1),
    (b"bytes 06 04 02 00 00 00 00 00\nfield a 0 8\nequal a 3", 77, 3, 1),
    (b"bytes 02 05 04 04 04 04 04 04\nbytes 04 00 04 04 04 04 04 04\nbytes 00 14 00 00 00 00 00 00\nbytes 00 84 00 00 00 00 00 00\nset a 4\nfield a 0 8\nequal a 3", 0, 0, 0),
    (b"setm m ; outside\nsetm x\nsetm y\nfield outside 0 8\nequal outside 3\ngreatest outside", 0, 0, 0),
    (b"setm slice 4\nstore slice 4 from y flip 4\ndeliver word 4\nlogic x clear m\nfield a 4 4\nless a 4", 0, 0, 0),
    (b"setm outside\nfield a 0 8\ngreatest a\nequal a 3", 77, 4, 1),
    // behind all else that is wrong with the line
    (b"setm outside\nfield a 0 8\nequal a 256", 34, 3, 9),
    (b"setm outside\nfield a 0 8\nequal a x", 76, 3, 9),
    (b"setm outside\nfield a 0 8\nless a 3 3", 67, 3, 10),
    (b"setm outside\nfield a 0 8\nless b 3", 73, 3, 6),
    (b"setm outside\nfield a 0 8\nless a", 69, 3, 7),
    (b"setm outside\nfield a 0 8\nless a 3\nequal", 77, 3, 1),
    // beside a limit
    (b"reach at most 1 word\nstore word 3 from outside\nfield a 0 8\nequal a 3", 77, 4, 1),
    (b"reach at most 1 word\nstore slice 3 from outside\nfield a 0 8\nequal a 3", 75, 2, 1),
    (b"field a 0 8\nsetm outside\nreach at most 1 word\nsum a a into a\nequal a 3", 75, 4, 1),
];

/// Texts that stand.
const GOOD: [&[u8]; 31] = [
    // the page's own
    b"field height 0 32\nfield shift 32 32\nfield new 64 32\nsum height shift into new ; 161 instructions\nless new 20000 ; 98 instructions, and 32 items\ngreatest new\n",
    b"",
    b"\n;\r\n\t\n",
    b"field a 0 8",
    b"set a 13\nstore mode a address 255 from outside\nresolve\nbytes 02 04 00 0D 00 00 00 00",
    b"reach at most 1 word\nreach at most 256 words\nreach at most 007 word\nreach at most 02 words\n",
    // names of all sorts
    b"field sum 0 4\nfield into 4 4\nfield field 8 4\nsum sum into into field\nsum into into into into\ndifference field field into sum\n",
    b"field a 0 8\nfield A 8 8\nfield aa 16 8\nfield aaaaaaaa 24 8\nfield aaaaaaa 32 8\ngreatest aaaaaaaa\ngreatest A\ngreatest aa\ngreatest a\ngreatest aaaaaaa",
    b"field ab 0 8\nfield ac 8 8\nfield ba 16 8\ngreatest ac\ngreatest ba\nsum ab ba into ac\n",
    b"field ! 1 2\nfield ~ 3 2\nfield !\"#$%&'( 5 2\nfield :<=>?@[\\ 7 2\nfield ]^_`{|}~ 9 2\nfield ,-./ 11 2\nequal ! 1\nequal ~ 2\nequal !\"#$%&'( 3\nequal :<=>?@[\\ 0\nless ]^_`{|}~ 1\nless ,-./ 2",
    b"field 0 0 1\nfield 00 1 1\nfield 7 7 7\nfield 255 255 1\nequal 0 0\nequal 00 1\nless 7 7\nequal 255 1",
    b"field word 0 3\nfield words 3 3\nfield at 6 3\nfield most 9 3\nfield reach 12 3\nfield 3 15 3\nless reach 3\nless 3 3\nequal at 3\ngreatest most\nsum word words into 3",
    b"field equal 9 1\nfield less 8 1\nfield greatest 7 1\nequal equal 1\nless less 1\ngreatest greatest\nequal less 0\nless equal 0",
    // blanks of all sorts, and comments right behind words
    b"\tfield\ra\t0\r8\r;x\r\n\r\rfield b  8   8;\n\tsum\ta\tb\tinto\tb;into a\n \requal a\t\t3;4\ngreatest b;a\r\nless\ta 5\r\nreach\tat\rmost  9\twords;",
    b"field x 3 4;field x 3 4\n;field x 3 4\ngreatest x;y",
    // fields one over the other, at the ends of the word
    b"field a 0 64\nfield b 0 64\nfield c 32 64\nfield d 192 64\nsum a b into a\nsum a c into d\ndifference a b into b\n",
    b"field a 0 1\nfield z 255 1\nfield all 192 64\nsum a z into z\ndifference z a into a\ngreatest z\ngreatest a\nequal all 1\nless z 1",
    b"field a 200 56\nfield b 144 56\nfield c 88 56\ndifference a b into c\ngreatest a\nless c 72057594037927935\n",
    b"field a 10 20\nfield b 15 20\nfield s 35 20\nsum a b into s\nsum b a into s\ndifference a b into s\ndifference b a into s\nsum a a into a\n;",
    // values
    b"field a 0 64\nequal a 0\nequal a 18446744073709551615\nless a 18446744073709551615\nless a 9223372036854775808\nequal a 12345678901234567890",
    b"field a 0 64\nequal a 00000000000000000000\nless a 00000000000000000001\nequal a 00000000004294967296\nequal a 1311768467463790320",
    b"field a 0 63\nequal a 9223372036854775807\nless a 09223372036854775807\nfield b 64 33\nequal b 8589934591\nless b 4294967296\nless b 0000000004294967297",
    b"field a 5 1\nequal a 0\nequal a 1\nless a 0\nless a 1\nequal a 01\nless a 00000000000000000001",
    b"field a 0 8\nequal a 255\nequal a 254\nequal a 1\nequal a 128\nequal a 85\nequal a 170\nless a 0\nless a 255\nless a 200\nless a 007",
    b"field a 0 16\nequal a 43981\nless a 256\nequal a 00255\nfield b 100 31\nless b 2147483647\nfield c 131 32\nless c 4294967295\nequal c 2864434397",
    // widths
    b"field a 64 2\nfield b 66 2\nfield c 68 2\nsum a b into c\ndifference a b into c\nequal a 2\nless a 3\ngreatest c",
    b"field a 1 37\nfield b 61 37\nfield c 121 37\nsum a b into c\ndifference c b into a\nless c 99999999999\ngreatest b",
    b"field a 128 64\nfield b 64 64\nfield c 0 64\nsum a b into c\ndifference c a into b\ngreatest a\n",
    // instructions and statements in turn
    b"field h 0 12\nsetm m\nless h 1000\nstore slice 200 from y\ngreatest h\nresolve\nequal h 0999\nbytes FF FE fd fc fb fa f9 f8\nlogic y load outside\ndeliver y\n",
    b"set a 255\nfield h 16 16\nfield d 32 16\nsum h d into h\nstore mode a address 9 from m\ndifference h d into d\nreach at most 1 word\nmstore mode a address 9 from x flip 255\nequal h 9\nset a 0",
    b"resolve\nfield a 3 3\nresolve\nequal a 5\nresolve\nless a 5\nresolve\ngreatest a\nresolve\nsum a a into a\nresolve\ndifference a a into a\nresolve",
];

/// The list and the items of a text that stands; of one that does not, its number.
fn assembled(text: &[u8]) -> Result<(usize, usize), u32> {
    let made = emulator::assemble(text, &mut [0; 32768], &mut [0; 32768]);
    if made.number == 0 { Ok((made.list as usize, made.items as usize)) } else { Err(made.number) }
}

/// The words of a line.
type Line = Vec<String>;

fn words(line: &str) -> Line {
    line.split(' ').map(|word| word.to_string()).collect()
}

/// A field of a random text.
#[derive(Clone)]
struct Field {
    name: String,
    start: usize,
    width: usize,
}

impl Field {
    fn crosses(&self, other: &Field) -> bool {
        self.start != other.start && self.start.abs_diff(other.start) < self.width
    }
}

impl Plan {
    /// A text that is written out, and so many bytes for its list and its items.
    fn assembling(&mut self, text: &[u8], list: usize, items: usize) -> Case {
        assert!(text.len() <= LETTERS, "{}", text.len());
        let mut case = self.case(ASSEMBLE);
        (case.lengths[LIST], case.lengths[ITEMS], case.lengths[TEXT]) = (list as u16, items as u16, text.len() as u16);
        case.zeros = 1 << TEXT;
        case.patch(TEXT, 0, text);
        case
    }

    /// A text of this many characters that repeats this one, with others written in behind that.
    fn assembling_long(&mut self, text: &[u8], length: usize, others: &[(usize, &[u8])], list: usize, items: usize) -> Case {
        let mut case = self.assembling(text, list, items);
        case.lengths[TEXT] = length as u16;
        case.repeat_file(text.len());
        for (at, bytes) in others {
            case.patch(TEXT, *at, bytes);
        }
        case
    }

    /// A text with just the room for its list and its items or some more; for one that is refused some room or none.
    fn add_assembled(&mut self, text: &[u8]) {
        let none = self.r.of(&[(64, 64), (0, 0), (33000, 33000), (8, 0), (0, 32)]);
        let (list, items) = assembled(text).unwrap_or(none);
        let (more, others) = (self.r.of(&[0, 0, 0, 1, 8, 40]), self.r.of(&[0, 0, 0, 1, 32, 50]));
        let case = self.assembling(text, (list + more).min(MAXIMUM[LIST]), (items + others).min(MAXIMUM[ITEMS]));
        self.add(case);
    }

    // ---- random cases

    /// One to eight characters of a name.
    fn some_name(&mut self) -> String {
        if self.r.one_in(2) {
            let names = [
                "a", "b", "s", "A", "aa", "height", "new", "eightchr", "sum", "into", "field", "less", "reach", "at", "most", "word", "words",
                "outside", "7", "0", "255", "x-if-y+y", "!", "~", "/", "a.b", "[1]", "a:b", "greatest", "equal",
            ];
            return self.r.of(&names).to_string();
        }
        let count = if self.r.one_in(3) { 8 } else { 1 + self.r.below(8) };
        (0..count).map(|_| loop {
            let letter = (33 + self.r.below(94)) as u8 as char;
            if letter != ';' {
                break letter;
            }
        }).collect()
    }

    fn some_value(&mut self, width: usize) -> u64 {
        let most = if width == 64 { u64::MAX } else { (1 << width) - 1 };
        match self.r.below(8) {
            0 => 0,
            1 => most,
            2 => most.saturating_sub(1),
            3 => 1,
            // most of these are refused with 34
            4 if self.r.one_in(4) => most.saturating_add(1),
            _ => self.r.next() & most,
        }
    }

    /// A number with zeros in front at times, up to so many digits.
    fn some_zeros(&mut self, number: u64, most: usize) -> String {
        let digits = number.to_string();
        let wide = if self.r.one_in(4) { most } else { digits.len() + self.r.below(3) * self.r.below(2) };
        format!("{:0>1$}", digits, wide.min(most))
    }

    /// The line of a field, which has most often the width of the others; seldom a name that is given.
    fn some_field(&mut self, fields: &mut Vec<Field>, usual: usize) -> Line {
        let width = if self.r.one_in(5) { 1 + self.r.below(64) } else { usual };
        let start = match (self.r.below(5), fields.last()) {
            (0, _) => 256 - width,
            (1, Some(last)) => (last.start + last.width).min(256 - width),
            (2, Some(last)) => (last.start + 1 + self.r.below(width)).min(256 - width),
            _ => self.r.below(257 - width),
        };
        let mut name = self.some_name();
        while fields.iter().any(|field| field.name == name) {
            name = self.some_name();
        }
        if !fields.is_empty() && self.r.one_in(60) {
            name = fields[self.r.below(fields.len())].name.clone();
        }
        let line = vec!["field".to_string(), name.clone(), self.some_zeros(start as u64, 3), self.some_zeros(width as u64, 3)];
        fields.push(Field { name, start, width });
        line
    }

    /// The line of a sum or a difference, of fields that suit each other most often.
    fn some_sum(&mut self, fields: &[Field]) -> Line {
        let mut three: Vec<Field> = vec![];
        for turn in 0..20 {
            three = (0..3).map(|_| fields[self.r.below(fields.len())].clone()).collect();
            let [a, b, s] = &three[..] else { continue };
            let suit = a.width == b.width && a.width == s.width && !s.crosses(a) && !s.crosses(b);
            if suit || turn == 0 && self.r.one_in(5) {
                break;
            }
            // that of any one field with itself suits always
            three = vec![a.clone(); 3];
        }
        let name = self.r.of(&["sum", "difference"]).to_string();
        let [a, b, s] = &three[..] else { return vec![name] };
        vec![name, a.name.clone(), b.name.clone(), "into".to_string(), s.name.clone()]
    }

    /// The lines of a text: fields, statements, limits and instructions. One that is to stand has no instruction from
    /// outside above a search and no store that a limit forbids, as far as it is easily seen.
    fn some_statements(&mut self) -> Vec<Line> {
        let (mut fields, mut lines) = (vec![], vec![]);
        let usual = self.r.of(&[1, 2, 3, 4, 8, 8, 12, 16, 20, 31, 32, 33, 63, 64]);
        for _ in 0..1 + self.r.below(4) {
            lines.push(self.some_field(&mut fields, usual));
        }
        let free = self.r.one_in(4);
        let limited = self.r.one_in(4);
        for _ in 0..self.r.below(12) {
            let a = fields[self.r.below(fields.len())].clone();
            let line = match self.r.below(16) {
                0 => self.some_field(&mut fields, usual),
                1..=3 if free || !limited => self.some_sum(&fields),
                4..=6 => {
                    let value = self.some_value(a.width);
                    vec![self.r.of(&["equal", "less"]).to_string(), a.name, self.some_zeros(value, 20)]
                }
                7 => vec!["greatest".to_string(), a.name],
                8 if limited => {
                    let count = self.r.of(&[1, 1, 2, 3, 4, 8, 16, 64, 128, 255, 256, 256]);
                    let (count, last) = (self.some_zeros(count, 3), self.r.of(&["word", "words"]));
                    words(&format!("reach at most {} {}", count, last))
                }
                9 if limited => {
                    let (kind, mode) = (self.r.of(&["store", "mstore"]), self.r.of(&["word 9", "mode 254 address 3", "mode a address 7", "mode b address 0", "mode 15 address 8", "slice 3"]));
                    words(&format!("{} {} from {}", kind, mode, self.r.of(&["m", "x", "y"])))
                }
                10 if limited => words(&format!("set {} {}", self.r.of(&["a", "b"]), self.r.of(&[255, 255, 254, 0, 15, 85]))),
                _ => {
                    let mut b = self.some_line();
                    if !free && b[1] == 4 {
                        b[1] = 2;
                    }
                    self.some_words(b)
                }
            };
            lines.push(line);
        }
        if self.r.one_in(8) {
            lines.push(words("logic y load outside"));
        }
        lines
    }

    /// The text of these lines with blanks of all sorts, comments and empty lines, or with none of them.
    fn some_text(&mut self, lines: &[Line]) -> Vec<u8> {
        let plain = self.r.one_in(3);
        let mut text = vec![];
        for line in lines {
            if plain {
                text.extend(line.join(" ").into_bytes());
                text.push(b'\n');
                continue;
            }
            while self.r.one_in(6) {
                text.extend(self.some_blanks(true));
                if self.r.one_in(2) {
                    text.extend(self.r.of(&[&b"; sum"[..], b";", b"; x ; y \xff", b";\tfield a 3 4"]));
                }
                text.push(b'\n');
            }
            text.extend(self.some_blanks(true));
            for (k, word) in line.iter().enumerate() {
                if k > 0 {
                    text.extend(self.some_blanks(false));
                }
                text.extend(word.bytes());
            }
            text.extend(self.some_blanks(true));
            if self.r.one_in(5) {
                text.extend(self.r.of(&[&b";"[..], b"; into s", b";;field", b"; \x00\x80"]));
            }
            text.push(b'\n');
        }
        if self.r.one_in(3) {
            text.pop();
        }
        text
    }

    /// What is wrong for the one statement that a line has, if it is whole.
    fn damage_statement(&mut self, line: &mut Line) -> bool {
        match (line[0].as_str(), line.len()) {
            ("field", 4) => match self.r.below(8) {
                0 => line[1] = self.r.of(&["a", "b", "s", "A", "sum", "into"]).to_string(),
                1 => line[1] = format!("{:x<9}", line[1]),
                2 => {
                    let at = self.r.below(line[1].len() + 1);
                    line[1].insert(at, self.r.of(&['\u{0}', '\u{1f}', '\u{7f}', '\u{80}', '\u{ff}', '\u{e9}']));
                }
                3 | 4 => line[2] = self.r.of(&["255", "254", "250", "240", "224", "193", "192"]).to_string(),
                5 => line[3] = self.r.of(&["64", "65", "0", "064", "320", "63"]).to_string(),
                6 => line[2] = self.r.of(&["256", "0000", "1000", "-0"]).to_string(),
                _ => line.swap(2, 3),
            },
            ("sum" | "difference", 5) => {
                let (one, other) = (self.r.of(&[1, 2, 4]), self.r.of(&[1, 2, 3, 4]));
                line[one] = line[other].clone();
            }
            ("equal" | "less", 3) => match self.r.below(4) {
                0 => line[2] += self.r.of(&["0", "00", "000000", "9999999999"]),
                1 => line[2] = format!("{:0>21}", line[2]),
                2 => line[2] = self.r.of(&["18446744073709551616", "18446744073709551615", "99999999999999999999", "100000000000000000000"]).to_string(),
                _ => line[2] = self.r.of(&["256", "65536", "4294967296", "2", "8", "9223372036854775808"]).to_string(),
            },
            ("reach", 5) => line[3] = self.r.of(&["0", "257", "0001", "256", "1", "a"]).to_string(),
            _ => return false,
        }
        true
    }

    /// One small damage to a line: a word put in, left out, doubled, exchanged with another or altered.
    fn damage_line(&mut self, line: &mut Line) {
        const WORDS: [&str; 52] = [
            "field", "sum", "difference", "equal", "less", "greatest", "reach", "at", "most", "word", "words", "into", "a", "b", "s", "A", "x",
            "ninechars", "eightchr", "0", "1", "8", "08", "64", "65", "064", "0064", "255", "256", "257", "000", "0000", "999", "1024", "65536",
            "4294967296", "18446744073709551615", "18446744073709551616", "00000000000000000001", "000000000000000000001", "36893488147419103232",
            "-1", "+1", "0x1", "setm", "outside", "store", "from", ";", "Field", "differenc", "differences",
        ];
        if self.r.one_in(2) && self.damage_statement(line) {
            return;
        }
        let at = self.r.below(line.len());
        let other = self.r.of(&WORDS).to_string();
        match self.r.below(8) {
            0 | 1 => line[at] = other,
            2 => line.insert(at, other),
            3 => line.push(other),
            4 => drop(line.remove(at)),
            5 => line.truncate(at + 1),
            6 => {
                let from = self.r.below(line.len());
                line.swap(at, from);
            }
            _ => {
                let letter = self.r.of(&['0', 'x', 'A', '.', '1', '\u{0}', '\u{7f}']);
                line[at].push(letter);
            }
        }
    }

    /// A text of statements, fields and instructions; half of them damaged.
    pub fn random_assembly(&mut self) -> Case {
        let mut lines = self.some_statements();
        let damaged = self.r.one_in(2);
        let by_words = self.r.below(4) > 0;
        if damaged && by_words {
            for _ in 0..1 + self.r.below(2) {
                let at = self.r.below(lines.len());
                match self.r.below(10) {
                    0 => drop(lines.remove(at)),
                    1 => {
                        let to = self.r.below(lines.len());
                        lines.swap(at, to);
                    }
                    _ => self.damage_line(&mut lines[at]),
                }
                lines.retain(|line| !line.is_empty());
                if lines.is_empty() {
                    lines.push(words("greatest a"));
                }
            }
        }
        let mut text = self.some_text(&lines);
        if damaged && !by_words {
            for _ in 0..1 + self.r.below(2) {
                self.damage_text(&mut text);
            }
        }
        if self.r.one_in(24) {
            text = (0..self.r.below(60)).map(|_| self.r.byte()).collect();
        }
        text.truncate(LETTERS);
        if self.r.one_in(16) {
            return self.random_long_assembly();
        }
        let (list, items) = assembled(&text).unwrap_or((64, 64));
        let (list, items) = if self.r.one_in(2) { (list, self.some_room(items, MAXIMUM[ITEMS])) } else { (self.some_room(list, MAXIMUM[LIST]), items) };
        self.assembling(&text, list, items)
    }

    /// One statement over and over below its field, so that the list or the items are too long at times.
    fn random_long_assembly(&mut self) -> Case {
        let width = self.r.of(&[1, 2, 2, 3, 8, 64]);
        let line = self.r.of(&["greatest a", "equal a 1 ", "less a 01", "sum a a into a", "difference a a into a", "equal a 1;"]);
        let (before, line) = (format!("field a {} {}", self.r.below(257 - width), width), line.to_string() + "\n");
        // the field's line takes the place of two others
        let before = format!("{:<1$}\n", before, 2 * line.len() - 1);
        let (before, rest) = if before.len() == 2 * line.len() { (before, 2) } else { (format!("{:<1$}\n", before.trim_end(), 3 * line.len() - 1), 3) };
        let each = match line.split(' ').next() {
            Some("greatest") => 1 + 11 * width,
            Some("sum") => 1 + 5 * width,
            Some("difference") => 2 + 5 * width,
            _ => 2 + 3 * width,
        };
        let most = (MAXIMUM[TEXT] / line.len() - rest).min(MOST / each + 2);
        let count = if self.r.one_in(2) { most - self.r.below(4).min(most - 1) } else { 1 + self.r.below(most) };
        let rooms = [33000, 32768, 8 * each * count, (8 * each * count).saturating_sub(1)];
        let (list, items) = (self.r.of(&rooms).min(33000), self.r.of(&[33000, 32768, 32 * width * count]).min(33000));
        self.assembling_long(line.as_bytes(), (rest + count) * line.len(), &[(0, before.as_bytes())], list, items)
    }

    // ---- the planned cases

    pub fn all_assemblies(&mut self) {
        for text in GOOD {
            self.add_assembled(text);
        }
        self.refused_statements();
        for (text, ..) in LIMITS.into_iter().chain(OUTSIDE) {
            self.add_assembled(text);
        }
        self.crossing_sums();
        self.many_fields();
        self.several_refused_statements();
        self.assembled_into_buffers();
        self.assembled_of_long_texts();
        for _ in 0..RANDOM {
            let case = self.random_assembly();
            self.add(case);
        }
        // make has no statements
        for text in [&b"field a 0 8\nresolve"[..], b"resolve\n sum a b into s", b"\ndifference", b"set a 3\n\tequal a 3", b"less\n", b"resolve;\ngreatest a", b"reach at most 1 word"] {
            let case = self.making(text, 16);
            self.add(case);
        }
    }

    /// As many fields as a record has room for: two lines over and over, and one character of each name written in.
    fn many_fields(&mut self) {
        const LINE: usize = 13;
        let letters: Vec<u8> = (33..=126).filter(|&letter| letter != b';').collect();
        let names: Vec<[u8; 2]> = letters.iter().flat_map(|&letter| [[b'a', letter], [b'b', letter]]).take(182).collect();
        let (first, last) = (names[0], names[181]);
        for (more, name) in [("greatest ", first), ("greatest ", last), ("field ", last), ("field ", first), ("greatest ", *b"c!"), ("field ", *b"c!")] {
            let text = [more.as_bytes(), &name].concat();
            let text = format!("{:<1$}", String::from_utf8_lossy(&text), LINE);
            let mut case = self.assembling(b"field a! 9 1\nfield b! 8 1\n", 96, 0);
            case.lengths[TEXT] = (LINE * (names.len() + 1)) as u16;
            case.repeat_file(2 * LINE);
            for (k, name) in names.iter().enumerate().skip(2) {
                case.patch(TEXT, LINE * k + 7, &name[1..]);
            }
            case.patch(TEXT, LINE * names.len(), text.as_bytes());
            self.add(case);
        }
    }

    /// Each line that is refused, behind and before others.
    fn refused_statements(&mut self) {
        let early = EARLY.iter().map(|&line| (line, 69, line.len() as u32 + 1));
        for (turn, (line, _, _)) in REFUSED.into_iter().chain(early).enumerate() {
            let text = [ABOVE[turn % ABOVE.len()].0, line, BEHIND[turn % BEHIND.len()]].concat();
            let (list, items) = [(64, 64), (0, 0), (2000, 0), (7000, 3000)][turn % 4];
            let case = self.assembling(&text, list, items);
            self.add(case);
        }
    }

    /// S equal to A or B, beside them, and over them by one bit or by all but one.
    fn crossing_sums(&mut self) {
        for (turn, s) in [92, 93, 100, 101, 107, 108, 192, 193, 199, 200, 207, 208].into_iter().enumerate() {
            let name = ["sum", "difference"][turn / 2 % 2];
            self.add_assembled(format!("field a 100 8\nfield b 200 8\nfield s {} 8\n{} a b into s", s, name).as_bytes());
        }
        for (a, b, s, width) in [(5, 6, 7, 1), (0, 1, 0, 2), (0, 128, 63, 64), (192, 0, 129, 64), (0, 64, 128, 64), (192, 129, 65, 64), (100, 104, 100, 8), (100, 104, 104, 8), (100, 200, 108, 16), (9, 9, 10, 64)] {
            let name = if a % 2 == 0 { "sum" } else { "difference" };
            self.add_assembled(format!("field a {} {w}\nfield b {} {w}\nfield s {} {w}\n{} a b into s\n", a, b, s, name, w = width).as_bytes());
        }
    }

    /// The first word of several that may not stand, and the first of several lines.
    fn several_refused_statements(&mut self) {
        let texts: [&[u8]; 17] = [
            b"sum a b into s\nfield a 0 8\n",
            b"field a 0 8\nsum a b into a\nfield b 8 8\n",
            b"field a 0 8\nfield a 0 8\nequal a 256",
            b"field ninechars 256 65 x",
            b"field a 256 65 x\nfield a",
            b"field a 0 8\nfield c 4 16\nsum a a into c",
            b"field a 0 8\nfield c 4 8\nsum a a into c c",
            b"field a 0 8\nsum a x y z z",
            b"field a 0 8\nfield b 0 9\nsum a b a b b",
            b"field a 0 8\nless a 999 x\nequal a",
            b"field a 0 8\nless b 99999999999999999999999 x",
            b"reach at least 300 bits x",
            b"reach at most 300 bits x",
            b"field a 0 8;\nfield;b 0 8",
            b"field a 0 8\nequal a;3",
            b"field a 0 8\nequal a ;3\n",
            b"reach at most 1;word\nstore slice 3 from m\n",
        ];
        for text in texts {
            self.add_assembled(text);
        }
    }

    /// 33 by the list and by the items, and what it stands behind.
    fn assembled_into_buffers(&mut self) {
        // 8 * (2 + 3 * 5) = 136 bytes of a list, 160 of items
        let search: &[u8] = b"field a 7 5\nless a 19";
        for (list, items) in [(136, 160), (135, 160), (136, 159), (136, 0), (0, 0), (137, 161), (160, 136), (300, 128), (128, 300)] {
            let case = self.assembling(search, list, items);
            self.add(case);
        }
        // 48 bytes and no items; 56 and none; 96 and none; 48 and 32; 8 and none; nothing at all; 336 and 384
        for (text, list, items) in [
            (&b"field a 7 1\nsum a a into a"[..], 48, 0),
            (b"field a 7 1\nsum a a into a", 47, 0),
            (b"field a 7 1\ndifference a a into a", 56, 7),
            (b"field a 7 1\ndifference a a into a", 55, 100),
            (b"field a 7 1\ngreatest a", 96, 0),
            (b"field a 7 1\nequal a 1\nresolve", 48, 32),
            (b"field a 7 1\nequal a 1\nresolve", 47, 32),
            (b"field a 7 1\nequal a 1\nresolve", 48, 31),
            (b"setm outside", 8, 0),
            (b"setm outside", 7, 64),
            (b"field a 7 1\nreach at most 3 words", 0, 0),
            (b"field a 7 1\nequal a 1\nequal a 2", 0, 0),
            (b"field a 7 1\nequal a 1\nequal", 40, 31),
            (b"field a 7 4\nequal a 5\nless a 10\nequal a 15", 336, 384),
            (b"field a 7 4\nequal a 5\nless a 10\nequal a 15", 336, 383),
        ] {
            let case = self.assembling(text, list, items);
            self.add(case);
        }
    }

    /// Lists and items that are too long, or as long as can be; lines and columns that are large.
    fn assembled_of_long_texts(&mut self) {
        // five times 705 instructions of a greatest, and 571 more by sums, are 4,096
        let wide: &[u8] = b"field a 0 64\nfield b 64 50\ngreatest a\ngreatest a\ngreatest a\ngreatest a\ngreatest a\n";
        let rest: &[u8] = b"sum a a into a\nsum b b into b\nless b 0;152 and 724\n";
        assert_eq!(5 * 705 + 321 + 251, 4097);
        let exact: &[u8] = b"sum a a into a\nfield c 200 49\nsum c c into c\nresolve\nresolve\nresolve\nresolve\n";
        assert_eq!(5 * 705 + 321 + 246 + 4, 4096);
        for (more, list, items) in [
            (&b""[..], 28200, 0),
            (b"greatest a", 33000, 33000),
            (b"greatest a\ngreatest", 33000, 33000),
            (b"greatest a\nsetm outside\nequal a 3", 33000, 33000),
            (exact, 32768, 0),
            (exact, 32767, 0),
            (&[exact, b"resolve"].concat(), 32768, 0),
            (&[exact, b"resolve"].concat(), 33000, 33000),
            (rest, 33000, 33000),
        ] {
            let case = self.assembling(&[wide, more].concat(), list, items);
            self.add(case);
        }
        // 16 searches of 64 bits have 1,024 items, and 3,104 instructions
        let many = |count: usize| [&b"field a 0 64\n"[..], &b"equal a 7\n".repeat(count)].concat();
        for (text, list, items) in [
            (many(16), 24832, 32768),
            (many(16), 24832, 32767),
            (many(16), 24831, 32768),
            (many(17), 33000, 33000),
            (many(17), 0, 0),
            ([&many(16)[..], b"field b 9 1\nless b 1"].concat(), 33000, 33000),
            ([&many(16)[..], b"field b 9 1\nless b 2"].concat(), 33000, 33000),
            ([&many(17)[..], b"greatest a\ngreatest a"].concat(), 33000, 33000),
            ([&many(17)[..], b"greatest a\nless b 2"].concat(), 33000, 33000),
            ([&many(16)[..], b"greatest a\nfield b 9 57\nsum b b into b\nresolve"].concat(), 32768, 32768),
            ([&many(16)[..], b"greatest a\nfield b 9 57\nsum b b into b\nresolve\nresolve"].concat(), 33000, 33000),
        ] {
            let case = self.assembling(&text, list, items);
            self.add(case);
        }
        // 512 searches of two bits have 4,096 instructions and 1,024 items
        let field: &[u8] = b"field a 9 2\n;23456\n";
        let field = [field, b"\n"].concat();
        for (count, other, list, items) in [
            (512, (0, &b""[..]), 32768, 32768),
            (512, (0, b""), 32767, 32768),
            (512, (0, b""), 32768, 32767),
            (513, (0, b""), 33000, 33000),
            (513, (20 + 10 * 512, b";"), 32768, 32768),
            (513, (20 + 10 * 512, b"less a 4"), 0, 0),
            (512, (20 + 10 * 511, b"equal a\n;"), 33000, 33000),
            (3000, (20 + 10 * 2999, b"eqaul"), 33000, 33000),
            (3400, (20 + 10 * 3399 + 8, b"\n"), 33000, 33000),
        ] {
            let case = self.assembling_long(b"equal a 3\n", 20 + 10 * count, &[(0, &field), other], list, items);
            self.add(case);
        }
        // words far behind, and a second field of the same name
        for (text, length, others) in [
            (&b" "[..], 35000, vec![(0, &b"field"[..]), (300, b"a"), (1000, b"0"), (34999, b"8")]),
            (b"\t", 5000, vec![(0, b"field"), (300, b"a"), (600, b"0"), (4999, b"0")]),
            (b"\n", 35000, vec![(0, b"field a 0 8"), (34980, b"field a 0 8")]),
            (b"\n", 35000, vec![(0, b"field a 0 8"), (34980, b"sum a a into a")]),
            (b"\n", 35000, vec![(0, b"reach at most 1 word"), (300, b"store word 3 from m"), (34900, b" store slice 3 from m")]),
            (b"0", 60, vec![(0, b"field a 0 8\nequal a ")]),
            (b"resolve\n", 32760, vec![(0, b"field a 0 8\n;x\n"), (16000, b"greatest a;2345\n")]),
            (b"resolve\n", 32768, vec![(0, b"field a 0 1\n;x\n"), (16000, b"greatest a;2345\n")]),
            (b"field a 0 8\n", 1200, vec![]),
        ] {
            let case = self.assembling_long(text, length, &others, 33000, 64);
            self.add(case);
        }
        // any bytes
        for length in [20u16, 35000] {
            let mut case = self.assembling(&[], 64, 64);
            (case.zeros, case.lengths[TEXT]) = (0, length);
            self.add(case);
        }
    }
}

#[cfg(test)]
mod tests {
    use super::*;
    use std::collections::{BTreeMap, BTreeSet};

    const LINES_BEFORE: u32 = 0x0eb4bf56;
    /// The lines of the first 1,000 random cases of seed 5, as they were.
    const RANDOM_BEFORE: u32 = 0xd056447a;

    fn stored() -> Vec<Case> {
        let mut plan = Plan::new(crate::STORED_SEED);
        plan.stored(crate::STORED_RANDOM);
        plan.cases
    }

    fn stored_assemblies() -> Vec<Case> {
        stored()[BEFORE..].iter().filter(|case| case.kind == ASSEMBLE).cloned().collect()
    }

    #[test]
    fn the_cases_before_stay() {
        let text: String = stored()[..BEFORE].iter().map(|case| case.line() + "\n").collect();
        assert_eq!(digest(text.as_bytes()), LINES_BEFORE);
    }

    fn answer(text: &[u8]) -> [u32; 3] {
        let made = emulator::assemble(text, &mut [0; 33000], &mut [0; 33000]);
        assert!(made.number == 0 || (made.list, made.items) == (0, 0));
        [made.number, made.line, made.column]
    }

    /// The lines that are written out above are refused as they say, alone and where they stand in a case.
    #[test]
    fn the_lines_are_refused_as_they_say() {
        let early = EARLY.iter().map(|&line| (line, 69, line.len() as u32 + 1));
        let all: Vec<Refused> = REFUSED.into_iter().chain(early).collect();
        assert_eq!(all.iter().map(|refused| refused.0).collect::<BTreeSet<_>>().len(), all.len());
        for (line, number, column) in all {
            for (above, lines, columns) in ABOVE {
                for behind in BEHIND {
                    let text = [above, line, behind].concat();
                    assert_eq!(answer(&text), [number, lines + 1, columns + column], "{:?}", String::from_utf8_lossy(&text));
                }
            }
        }
        for (text, number, line, column) in LIMITS.into_iter().chain(OUTSIDE) {
            assert_eq!(answer(text), [number, line, column], "{:?}", String::from_utf8_lossy(text));
        }
        for text in GOOD {
            assert_eq!(answer(text), [0; 3], "{:?}", String::from_utf8_lossy(text));
        }
    }

    // ---- the answer once more, by rules of which each can be made wrong

    /// The rules with one of them wrong, by the name of the mistake; all are right if it is empty. All that is wrong with a
    /// statement is gathered here, each with its word and its rank there, and the first of these is the answer. Lines that
    /// are no statements are read by the rules of `texts`.
    #[derive(Clone, Copy)]
    struct Rules(&'static str);

    const RIGHT: Rules = Rules("");

    /// A line cut into words, with their columns and the column of its end.
    #[derive(Clone)]
    struct Cut {
        words: Vec<(u32, Vec<u8>)>,
        end: u32,
        whole: Vec<u8>,
    }

    #[derive(Clone)]
    struct Named {
        name: Vec<u8>,
        start: u32,
        width: u32,
    }

    /// What is wrong with a line: at which word, by which rank there, with which number.
    type Fault = (usize, u32, u32);

    const STATEMENTS: [&[u8]; 7] = [b"field", b"sum", b"difference", b"equal", b"less", b"greatest", b"reach"];

    impl Rules {
        fn is(&self, name: &str) -> bool {
            self.0 == name
        }

        /// The number of a fault at a place. A mistake by the name of the place has another number.
        fn number(&self, place: &str, right: u32) -> u32 {
            self.0.strip_prefix(place).and_then(|number| number.strip_prefix(' ')).and_then(|number| number.parse().ok()).unwrap_or(right)
        }

        fn cut(&self, text: &[u8]) -> Vec<Cut> {
            let blanks: &[u8] = match self.0 {
                "a tab is no blank" => b" \r",
                "a carriage return is no blank" => b" \t",
                "127 is a blank" => b" \t\r\x7f",
                "0 is a blank" => b" \t\r\x00",
                "160 is a blank" => b" \t\r\xa0",
                "control characters are blanks" => b" \t\r\x00\x0b\x0c\x1f",
                _ => b" \t\r",
            };
            let mut lines = vec![];
            let (mut words, mut word, mut from, mut column, mut end, mut whole): (Vec<(u32, Vec<u8>)>, Vec<u8>, u32, u32, u32, Vec<u8>) = (vec![], vec![], 0, 1, 0, vec![]);
            for &c in text.iter().chain(b"\n") {
                let comment = end != 0;
                let opens = c == b';' && !(self.is("; inside a word is part of it") && !word.is_empty());
                if !comment {
                    if !word.is_empty() && (c == b'\n' || opens || blanks.contains(&c)) {
                        words.push((from, std::mem::take(&mut word)));
                    }
                    if c == b'\n' || opens {
                        end = column;
                    } else if !blanks.contains(&c) {
                        if word.is_empty() {
                            from = column;
                        }
                        word.push(c);
                    }
                }
                column += 1;
                if c == b'\n' {
                    if self.is("69 behind the comment") {
                        end = column - 1;
                    }
                    lines.push(Cut { words: std::mem::take(&mut words), end, whole: std::mem::take(&mut whole) });
                    (column, end) = (1, 0);
                } else {
                    whole.push(c);
                }
            }
            lines
        }

        /// Which statement a line is.
        fn statement(&self, word: &[u8]) -> Option<usize> {
            let same = |name: &[u8]| match self.0 {
                "statements may be capital" => word.eq_ignore_ascii_case(name),
                "difference is cut to eight" => word[..word.len().min(8)] == name[..name.len().min(8)],
                "statements may be longer" => word.starts_with(name),
                "difference is too long" => word == name && word.len() <= 8,
                "statements may be shorter" => word.len() > 4 && name.starts_with(word) || word == name,
                "a 0 ends a statement's name" => word.split(|&c| c == 0).next() == Some(name),
                _ => word == name,
            };
            STATEMENTS.iter().position(|name| same(name))
        }

        fn digits(&self, word: &[u8], most: usize) -> Option<u128> {
            let mut word = word;
            if self.is("a sign before a number") && word.first() == Some(&b'+') {
                word = &word[1..];
            }
            if self.is("any number of zeros in front") {
                while word.len() > most && word[0] == b'0' {
                    word = &word[1..];
                }
            }
            if self.is("numbers of any length") && word.len() <= 38 {
                return std::str::from_utf8(word).ok()?.parse().ok().filter(|_| word[0] != b'+');
            }
            let none = word.is_empty() || word.len() > most || !word.iter().all(|digit| digit.is_ascii_digit());
            if none || self.is("no zeros in front") && word.len() > 1 && word[0] == b'0' {
                return None;
            }
            if self.is("zeros in front are octal") && word.len() > 1 && word[0] == b'0' {
                return u128::from_str_radix(std::str::from_utf8(word).ok()?, 8).ok();
            }
            Some(word.iter().fold(0, |value, digit| 10 * value + (digit - b'0') as u128))
        }

        fn find(&self, fields: &[Named], word: &[u8]) -> Option<Named> {
            let mut word = word.to_vec();
            match self.0 {
                "names are cut to eight" => word.truncate(8),
                "names lose the top bit" => word.iter_mut().for_each(|c| *c %= 128),
                "a 0 ends a name" => word.truncate(word.iter().position(|&c| c == 0).unwrap_or(word.len())),
                "127 is passed over in names" => word.retain(|&c| c != 127),
                _ => {}
            }
            let same = |field: &&Named| match self.0 {
                "a beginning names a field" => field.name.starts_with(&word),
                "a field is named by more" => word.starts_with(&field.name),
                "capital letters of names are small" => field.name.eq_ignore_ascii_case(&word),
                "names of one length are the same" => field.name.len() == word.len() && field.name[0] == word[0],
                _ => field.name == word,
            };
            fields.iter().find(same).cloned()
        }

        fn bad_name(&self, name: &[u8]) -> bool {
            let most = match self.0 {
                "names of seven characters at most" => 7,
                "names of nine characters" => 9,
                "names of any length" | "names are cut to eight" => 1000,
                _ => 8,
            };
            let letter = |&c: &u8| match self.0 {
                "names with 127" | "127 is passed over in names" => (33..=127).contains(&c),
                "names with bytes over 127" => c > 32 && c != 127,
                "names lose the top bit" => (33..=126).contains(&(c % 128)),
                "names with control characters" => c <= 126,
                "names without 126" => (33..=125).contains(&c),
                "names without 33" => (34..=126).contains(&c),
                "names of letters and digits" => c.is_ascii_alphanumeric(),
                "a 0 ends a name" => c == 0 || (33..=126).contains(&c),
                _ => (33..=126).contains(&c),
            };
            let taken = match self.0 {
                "names of statements are refused" => STATEMENTS.contains(&name),
                "words of statements are refused as names" => [&b"into"[..], b"at", b"most", b"word", b"words"].contains(&name),
                "names of digits are refused" => name.iter().all(|c| c.is_ascii_digit()),
                _ => false,
            };
            name.len() > most || !name.iter().all(letter) || taken
        }

        // ---- what is wrong with a statement

        /// The number of a name's field as B or S, which is to be as wide as A; the rank of 74 is 1.
        fn as_wide(&self, at: usize, place: &str, field: &Option<Named>, a: &Option<Named>, faults: &mut Vec<Fault>) {
            match (field, a) {
                (None, _) => faults.push((at, 0, self.number(place, 73))),
                (Some(field), Some(a)) => {
                    let judged = !(self.is("74 of B alone") && place == "S" || self.is("74 of S alone") && place == "B" || self.is("74 never"));
                    let wrong = match self.0 {
                        "74 only where it is wider" => field.width > a.width,
                        "74 only where it is narrower" => field.width < a.width,
                        _ => field.width != a.width,
                    };
                    if judged && wrong {
                        // behind every name, if it is judged late
                        let late = self.is("74 behind all names") && place == "B";
                        faults.push((if late { 4 } else { at }, 1, self.number(if place == "B" { "wide B" } else { "wide S" }, 74)));
                    }
                }
                _ => {}
            }
        }

        fn crosses(&self, s: &Named, other: &Named) -> bool {
            let (apart, width) = (s.start.abs_diff(other.start), s.width.max(other.width));
            match self.0 {
                "32 where they touch" => apart <= width && apart != 0,
                "32 only over two bits and more" => apart + 1 < width && apart != 0,
                "32 only where S is above" => apart < width && s.start > other.start,
                "32 only where S is below" => apart < width && s.start < other.start,
                "32 also at the same start" => apart < width,
                "32 only one bit apart" => apart == 1 && apart < width,
                "32 only off multiples of 8" => apart < width && apart % 8 != 0,
                "32 within 8 bits" => apart < width.min(8) && apart != 0,
                _ => apart < width && apart != 0,
            }
        }

        fn wrong(&self, statement: usize, line: &Cut, fields: &[Named], all: &[Named]) -> Vec<Fault> {
            let mut faults: Vec<Fault> = vec![];
            let word = |at: usize| line.words.get(at).map(|word| &word.1[..]);
            let named = |at: usize| word(at).and_then(|word| self.find(if self.is("fields below count") { all } else { fields }, word));
            let there = |at: usize| word(at).is_some();
            let must = |at: usize, place: &str, others: &[&[u8]], faults: &mut Vec<Fault>| {
                if word(at).is_some_and(|word| !others.contains(&word) && !(self.is("capital words stand") && others.contains(&&word.to_ascii_lowercase()[..])) && !(self.is("words may be longer") && word.starts_with(others[0])) && !(self.is("words may be shorter") && others[0].starts_with(word))) {
                    faults.push((at, 0, self.number(place, 65)));
                }
            };
            let a = named(1);
            if statement != 0 && statement != 6 && there(1) && a.is_none() {
                faults.push((1, 0, self.number("A", 73)));
            }
            let needed = [4, 5, 5, 3, 3, 2, 5][statement];
            match statement {
                0 => {
                    if let Some(name) = word(1) {
                        if self.bad_name(name) {
                            faults.push((1, 0, self.number("name", 70)));
                        }
                        if self.find(fields, name).is_some() && !self.is("names may be given twice") {
                            faults.push((1, 1, self.number("given", 71)));
                        }
                    }
                    let most = match self.0 {
                        "START to 256" => 256,
                        "START to 254" => 254,
                        _ => 255,
                    };
                    let start = word(2).and_then(|word| self.digits(word, if self.is("START of two digits") { 2 } else if self.is("START of four digits") { 4 } else { 3 })).filter(|&start| start <= most || self.is("START over 255 is 31"));
                    if there(2) && start.is_none() {
                        faults.push((if self.is("START behind WIDTH") { 3 } else { 2 }, 7, self.number("start", 64)));
                    }
                    let width = word(3).and_then(|word| self.digits(word, if self.is("WIDTH of two digits") { 2 } else if self.is("WIDTH of four digits") { 4 } else { 3 }));
                    let (least, most) = match self.0 {
                        "WIDTH 0 stands" => (0, 64),
                        "WIDTH to 65" => (1, 65),
                        "WIDTH to 63" => (1, 63),
                        "WIDTH to 32" => (1, 32),
                        "WIDTH to 255" => (1, 255),
                        _ => (1, 64),
                    };
                    if there(3) && !width.is_some_and(|width| least <= width && width <= most) {
                        faults.push((3, 1, self.number("width", 30)));
                    }
                    if let (Some(start), Some(width)) = (start, width) {
                        let end = match self.0 {
                            "31 over 255" => 255,
                            "31 over 257" => 257,
                            "31 never" => 9999,
                            _ => 256,
                        };
                        if start + width > end {
                            faults.push((if self.is("31 at START") { 2 } else { 3 }, if self.is("31 before 30") { 0 } else { 2 }, self.number("beyond", 31)));
                        }
                    }
                }
                1 | 2 => {
                    let (b, s) = (named(2), named(4));
                    if there(2) {
                        self.as_wide(2, "B", &b, &a, &mut faults);
                    }
                    must(3, "into", &[b"into"], &mut faults);
                    if there(4) {
                        self.as_wide(4, "S", &s, &a, &mut faults);
                    }
                    if let (Some(a), Some(b), Some(s)) = (&a, &b, &s) {
                        let (by_a, by_b) = (self.crosses(s, a), self.crosses(s, b));
                        let crossed = match self.0 {
                            "32 by A alone" => by_a,
                            "32 by B alone" => by_b,
                            "32 where both" => by_a && by_b,
                            "the start of either is enough" => (by_a || by_b) && s.start != a.start && s.start != b.start,
                            "32 where A crosses B" => by_a || by_b || self.crosses(a, b),
                            "32 never" => false,
                            _ => by_a || by_b,
                        };
                        if crossed {
                            faults.push((if self.is("32 at B") { 2 } else { 4 }, if self.is("32 before 74") { 0 } else { 2 }, self.number("crossing", 32)));
                        }
                    }
                }
                3 | 4 => {
                    let most = match self.0 {
                        "VALUE of 19 digits" => 19,
                        "VALUE of 21 digits" => 21,
                        "VALUE of eight characters" => 8,
                        "VALUE of 18 digits" => 18,
                        _ => 20,
                    };
                    let value = word(2).and_then(|word| self.digits(word, most)).and_then(|value| self.value(value));
                    if there(2) && value.is_none() {
                        faults.push((2, 0, self.number("value", 76)));
                    }
                    if let (Some(value), Some(a)) = (value, &a) {
                        // a width that only a mistake lets through may be over 127
                        let power = 1u128 << a.width.min(127);
                        let large = match self.0 {
                            "34 over 2 to the width" => value > power,
                            "34 at the greatest value" => value >= power - 1,
                            "34 never" => false,
                            "34 of equal alone" => statement == 3 && value >= power,
                            "34 of less alone" => statement == 4 && value >= power,
                            "2 to the width stands for less" => value > power - (statement == 3) as u128,
                            "34 at 0 for less" => value >= power || statement == 4 && value == 0,
                            "34 by the width modulo 64" => value >= 1 << (a.width % 64),
                            _ => value >= power,
                        };
                        if large {
                            faults.push((2, 1, self.number("large", 34)));
                        }
                    }
                }
                5 => {}
                _ => {
                    must(1, "at", &[b"at"], &mut faults);
                    must(2, "most", &[b"most"], &mut faults);
                    let (least, most) = match self.0 {
                        "COUNT 0 stands" => (0, 256),
                        "COUNT to 255" => (1, 255),
                        "COUNT to 257" => (1, 257),
                        "COUNT to 999" => (1, 999),
                        _ => (1, 256),
                    };
                    let count = word(3).and_then(|word| self.digits(word, 3)).filter(|&count| least <= count && count <= most && !(self.is("COUNT is a power of 2") && !count.is_power_of_two()));
                    if there(3) && count.is_none() {
                        faults.push((3, 0, self.number("count", 64)));
                    }
                    let last: &[&[u8]] = match self.0 {
                        "word alone" => &[b"word"],
                        "words alone" => &[b"words"],
                        "word for 1 and words for others" if count == Some(1) => &[b"word"],
                        "word for 1 and words for others" => &[b"words"],
                        _ => &[b"word", b"words"],
                    };
                    must(4, "word", last, &mut faults);
                }
            }
            if there(needed) && !self.is("more is passed over") {
                faults.push((needed, 0, self.number("more", 67)));
            }
            if line.words.len() < needed && !(self.is("word may be left out") && statement == 6 && line.words.len() == 4) {
                faults.push((line.words.len(), 0, self.number("early", 69)));
            }
            faults
        }

        /// What a number's value is taken for; none if it is too large.
        fn value(&self, value: u128) -> Option<u128> {
            match self.0 {
                "VALUE to 32 bits" => Some(value % (1 << 32)),
                "VALUE wraps at 2^64" => Some(value % (1 << 64)),
                "VALUE below 2^32" => Some(value).filter(|&value| value < 1 << 32),
                "VALUE below 2^63" => Some(value).filter(|&value| value < 1 << 63),
                "2^64 is 34" => Some(value),
                "VALUE ends at 2^64 - 1" => Some(value.min(u64::MAX as u128)),
                "2^64 - 1 is 76" => Some(value).filter(|&value| value < u64::MAX as u128),
                _ => Some(value).filter(|&value| value < 1 << 64),
            }
        }

        /// The first of the faults, as these are ordered.
        fn first(&self, mut faults: Vec<Fault>) -> Option<Fault> {
            let key = |&(at, rank, number): &Fault| match self.0 {
                "67 before the words" if number == 67 => (0, rank),
                "69 before the words" if number == 69 => (0, rank),
                "65 before the names" if number == 65 => (0, rank),
                "73 before all else" if number == 73 => (0, rank),
                "74 before all else" if number == 74 => (0, rank),
                "76 and 34 before the name" if number == 76 || number == 34 => (0, rank),
                "32 behind 67" if number == 32 => (5, 1),
                "31 behind 67" if number == 31 => (4, 1),
                "34 behind 67" if number == 34 => (3, 1),
                "30 before START" if number == 30 => (1, 9),
                "71 behind START" if number == 71 => (2, 9),
                _ => (at, rank),
            };
            faults.sort_by_key(key);
            if self.is("the last refused word") { faults.last().copied() } else { faults.first().copied() }
        }

        // ---- the lists

        fn list_of(&self, statement: usize, fields: [&Named; 3], value: u128) -> Vec<u8> {
            let [a, b, s] = fields.map(|field| field.start as u8);
            let width = fields[0].width as u8;
            let x = |logic: u8| vec![0, 2, 0, 0, 0, 0, 0, logic];
            let slice = |address: u8, logic: u8| vec![0, 0, 1, 0, address, 0, 0, logic];
            let mut list: Vec<Vec<u8>> = vec![];
            let statement = match (self.0, statement) {
                ("sum and difference exchanged", 1 | 2) => 3 - statement,
                ("equal and less exchanged", 3 | 4) => 7 - statement,
                _ => statement,
            };
            match statement {
                1 | 2 => {
                    let (a, b) = if self.is("A and B exchanged") { (b, a) } else { (a, b) };
                    list.push(x(if self.is("sums start with X alone") { 0x00 } else { 0x20 }));
                    if statement == 2 {
                        list.push(x(0x1F));
                    }
                    for k in 0..width {
                        let k = if self.is("sums from the highest bit") { width - 1 - k } else { k };
                        list.push(slice(a.wrapping_add(k), 0x46));
                        list.push(slice(b.wrapping_add(k), if statement == 2 { 0x49 } else { 0x46 }));
                        let tag = if self.is("sums store by words") { 255 } else { 0 };
                        list.push(vec![if self.is("sums store masked") { 3 } else { 2 }, 3, 1, tag, s.wrapping_add(k), 0, 0, 0]);
                        list.push(x(0x33));
                        list.push(x(0x26));
                    }
                }
                3 | 4 => {
                    list.push(x(if statement == 4 { 0x00 } else { 0x0F }));
                    for k in 0..width {
                        list.push(vec![0, 4, 0, 0, 0, 0, 0, 0x1A]);
                        list.push(slice(a.wrapping_add(k), 0x16));
                        list.push(if statement == 4 { slice(a.wrapping_add(k), if self.is("less is greater") { 0x3A } else { 0x35 }) } else { x(0x30) });
                    }
                    if !self.is("searches leave their marks in X alone") {
                        list.push(x(0x1A));
                    }
                    if self.is("less than 0 has no list") && statement == 4 && value == 0 {
                        list.clear();
                    }
                }
                _ => {
                    list.push(x(0x00));
                    for k in 0..width {
                        let k = if self.is("greatest from the lowest bit") { k } else { width - 1 - k };
                        list.push(slice(a.wrapping_add(k), 0x3A));
                        for f in 0..8 {
                            let f = if self.is("flips from the highest") { 7 - f } else { f };
                            list.push(vec![0, 2, 0, 0, 0, 1 << f, 0, 0x0E]);
                        }
                        list.push(slice(a.wrapping_add(k), if self.is("greatest is least") { 0x08 } else { 0x04 }));
                        list.push(x(0x24));
                    }
                }
            }
            list.concat()
        }

        fn items_of(&self, less: bool, width: u32, value: u128) -> Vec<u8> {
            let bits: Vec<bool> = (0..width).map(|k| {
                let k = if self.is("items from the highest bit") { width - 1 - k } else { k };
                (k < 128 && value >> k & 1 == 1) != (self.is("items of less inverted") && less || self.is("items of equal inverted") && !less)
            }).collect();
            let on = |bit: bool| match self.0 {
                "items on the first line alone" => std::iter::once(bit as u8).chain([0; 31]).collect(),
                "items of ones and zeros" => vec![bit as u8; 32],
                _ => vec![if bit { 255 } else { 0 }; 32],
            };
            let many = match self.0 {
                "64 items always" => 64,
                "no items behind the highest bit" => (0..width).rev().find(|&k| bits[k as usize]).map_or(0, |k| k + 1),
                _ => width,
            };
            (0..many).flat_map(|k| on(bits.get(k as usize).copied().unwrap_or(false))).collect()
        }

        // ---- the limit, and what takes from outside

        /// What an instruction reaches: none if it is no store, none inside if nobody knows.
        fn reached(&self, b: &[u8], held: [Option<u8>; 2]) -> Option<Option<u32>> {
            let store = match self.0 {
                "masked stores are not limited" => b[0] == 2,
                "stores without a mask are not limited" => b[0] == 3,
                "reads are limited" => b[0] < 5 && (b[1] == 0 || b[0] == 2 || b[0] == 3),
                "sources over 4 are not limited" => (b[0] == 2 || b[0] == 3) && b[1] < 5,
                "kinds over 127 are limited" => b[0] % 128 == 2 || b[0] % 128 == 3,
                _ => b[0] == 2 || b[0] == 3,
            };
            if !store {
                return None;
            }
            let held = match self.0 {
                "tags 2 and 3 exchanged" => [held[1], held[0]],
                "an unset register is mode 0" => held.map(|mode| mode.or(Some(0))),
                "an unset register is mode 255" => held.map(|mode| mode.or(Some(255))),
                _ => held,
            };
            let mode = match b[2] {
                2 | 3 if self.is("byte 3 counts for every tag") => Some(b[3]),
                2 | 3 if self.is("stores by registers are not limited") => return None,
                2 => held[0],
                3 => held[1],
                0 if self.is("tag 0 is not limited") => return None,
                4.. if self.is("tags over 3 are not limited") => return None,
                0 | 4.. if self.is("tags but 1 to 3 are refused") => None,
                _ => Some(b[3]),
            };
            Some(mode.map(|mode| match self.0 {
                "set bits and not zero bits" => 1 << mode.count_ones(),
                "the number of zero bits" => mode.count_zeros(),
                "256 less the mode" => 256 - mode as u32,
                "256 for every mode but 255" => if mode == 255 { 1 } else { 256 },
                _ => 1 << mode.count_zeros(),
            }))
        }

        fn over(&self, limit: Option<u32>, reached: Option<u32>) -> bool {
            let Some(limit) = limit else { return false };
            match reached {
                None => !self.is("an unset register stands"),
                Some(_) if self.is("75 never") => false,
                Some(reached) if self.is("75 at the limit itself") => reached >= limit && limit < 256,
                Some(reached) if self.is("75 over twice the limit") => reached > 2 * limit,
                Some(reached) => reached > limit,
            }
        }

        /// Number, line, column and the two counts; and what then stands in the buffers.
        fn of(&self, text: &[u8], list_buffer: &mut [u8], items_buffer: &mut [u8]) -> [u32; 5] {
            let lines = self.cut(text);
            let instruction = |whole: &[u8]| {
                let mut b = [0u8; 8];
                let [number, _, column, count] = crate::texts::tests::RIGHT.make(whole, &mut b);
                (number, column, (count == 8).then_some(b))
            };
            let statement_of = |line: &Cut| line.words.first().and_then(|word| self.statement(&word.1));
            // what some mistakes look at before the lines
            let mut below: Vec<Named> = vec![];
            let mut takes_somewhere = false;
            if ["fields below count", "77 also by what stands below", "the last limit for all lines"].contains(&self.0) {
                for line in &lines {
                    if statement_of(line) == Some(0) && self.wrong(0, line, &[], &[]).is_empty() {
                        let number = |at: usize| self.digits(&line.words[at].1, 3).unwrap_or(1) as u32;
                        below.push(Named { name: line.words[1].1.clone(), start: number(2), width: number(3) });
                    }
                    takes_somewhere |= statement_of(line).is_none() && instruction(&line.whole).2.is_some_and(|b| b[1] == 4);
                }
            }
            let last_limit = lines.iter().rev().filter(|line| statement_of(line) == Some(6)).find_map(|line| line.words.get(3).and_then(|word| self.digits(&word.1, 3)));
            let (mut fields, mut limit, mut held, mut takes): (Vec<Named>, Option<u32>, [Option<u8>; 2], bool) = (vec![], None, [None; 2], takes_somewhere && self.is("77 also by what stands below"));
            let (mut late, mut taken_at) = ([None; 2], 0);
            let (mut list, mut items): (Vec<u8>, Vec<u8>) = (vec![], vec![]);
            let mut refused: Option<[u32; 3]> = None;
            let most = match self.0 {
                "3 over 4,095" => 8 * 4095,
                "3 over 4,097" => 8 * 4097,
                "3 never" => usize::MAX,
                _ => 32768,
            };
            let most_items = match self.0 {
                "4 over 1,023" => 32 * 1023,
                "4 over 1,025" => 32 * 1025,
                "4 over 1,087" => 32 * 1087,
                "4 never" => usize::MAX,
                _ => 32768,
            };
            for (above, line) in lines.iter().enumerate() {
                let number = above as u32 + 1;
                let first = line.words.first().map_or(1, |word| word.0);
                let column_of = |fault: Fault| match fault.2 {
                    _ if fault.0 < line.words.len() && fault.2 != 69 => match self.0 {
                        "the column of the first word" => first,
                        "the column of a word's last character" => line.words[fault.0].0 + line.words[fault.0].1.len() as u32 - 1,
                        "columns count words" => fault.0 as u32 + 1,
                        _ => line.words[fault.0].0,
                    },
                    _ => match self.0 {
                        "69 at the last word" => line.words.last().map_or(1, |word| word.0),
                        "69 right behind the last word" => line.words.last().map_or(1, |word| word.0 + word.1.len() as u32),
                        "69 at the first word" => first,
                        _ => line.end,
                    },
                };
                let at_first = |limited: bool| match self.0 {
                    "75 and 77 at column 1" => 1,
                    "75 and 77 at column 0" => 0,
                    "75 at the second word" if limited => line.words.get(1).map_or(1, |word| word.0),
                    "75 at the last word" if limited => line.words.last().map_or(1, |word| word.0),
                    "77 at the value" if !limited => line.words.get(2).map_or(1, |word| word.0),
                    "77 at the name" if !limited => line.words.get(1).map_or(1, |word| word.0),
                    "75 and 77 at the line's end" => line.end,
                    _ => first,
                };
                if self.is("the limit comes one line late") {
                    (limit, late) = (late[1].or(limit), [None, late[0]]);
                }
                if self.is("the last limit for all lines") {
                    limit = last_limit.map(|limit| limit as u32);
                }
                let Some(statement) = statement_of(line) else {
                    let (fault, column, b) = instruction(&line.whole);
                    let early = self.is("75 before the words") && limit.is_some_and(|limit| limit < 256) && [&b"store"[..], b"mstore"].iter().any(|name| line.words.first().is_some_and(|word| word.1 == *name)) && line.words.get(1).is_some_and(|word| word.1 == b"slice");
                    if early {
                        refused = Some([75, number, first]);
                        break;
                    }
                    if fault != 0 {
                        refused = Some([fault, number, column]);
                        break;
                    }
                    let Some(b) = b else { continue };
                    let in_bytes = line.words[0].1 == b"bytes";
                    let sound = || crate::texts::tests::RIGHT.fault(&b, [true; 2]).is_none();
                    let passed = self.is("bytes are not limited") && in_bytes || self.is("words are not limited") && !in_bytes || self.is("what a run refuses is not limited") && !sound();
                    let also = if self.is("a kind 6 in bytes does not set") { !in_bytes } else { true };
                    if let Some(reached) = self.reached(&b, held).filter(|_| !passed) {
                        if self.over(limit, reached) {
                            let code = if reached.is_none() { self.number("unset", 75) } else { self.number("limit", 75) };
                            refused = Some([code, number, at_first(true)]);
                            break;
                        }
                    }
                    let which = match b[2] {
                        2 => Some(0),
                        3 => Some(1),
                        0 | 1 if self.is("any tag sets A") => Some(0),
                        4.. if self.is("tags over 3 set B") => Some(1),
                        _ => None,
                    };
                    if let Some(which) = which.filter(|_| (b[0] == 6 || self.is("any kind sets")) && also) {
                        let which = if self.is("kind 6 sets the other") { 1 - which } else { which };
                        match self.0 {
                            "a refused kind 6 does not set" if !sound() => {}
                            "kind 6 sets once" if held[which].is_some() => {}
                            "registers are followed from the limit on" if limit.is_none() => {}
                            "kind 6 sets to 0" => held[which] = Some(0),
                            "kind 6 sets both" => held = [Some(b[3]); 2],
                            _ => held[which] = Some(b[3]),
                        }
                    }
                    let takes_here = match self.0 {
                        "77 by words alone" => b[1] == 4 && !in_bytes,
                        "77 by kinds 0 to 4 alone" => b[1] == 4 && b[0] < 5,
                        "77 by what stands alone" => b[1] == 4 && sound(),
                        "77 by byte 1 of 4 and more" => b[1] >= 4,
                        "77 by the low bits of byte 1" => b[1] % 16 == 4,
                        "77 by kind 4" => b[1] == 4 || b[0] == 4,
                        "77 by byte 2" => b[1] == 4 || b[2] == 4,
                        "77 by no store" => b[1] == 4 && b[0] != 2 && b[0] != 3,
                        "77 by any instruction" => true,
                        "77 by the line right above" => false,
                        _ => b[1] == 4,
                    };
                    if takes_here && !takes {
                        taken_at = number;
                    }
                    takes |= takes_here;
                    if self.is("77 by the line right above") {
                        takes = b[1] == 4;
                    }
                    if list.len() < 90000 {
                        list.extend(b);
                    }
                    continue;
                };
                let mut faults = self.wrong(statement, line, &fields, &below);
                let sums = match self.0 {
                    "sums are not limited" => statement == 2,
                    "differences are not limited" => statement == 1,
                    "searches are limited" => (1..5).contains(&statement),
                    "greatest is limited" => [1, 2, 5].contains(&statement),
                    _ => statement == 1 || statement == 2,
                };
                let wide = if self.is("sums reach their width") { fields.iter().find(|field| line.words.get(1).is_some_and(|word| word.1 == field.name)).map(|field| field.width) } else { Some(256) };
                let limited = sums && self.over(limit, wide);
                let searches = match self.0 {
                    "77 for greatest too" => (3..6).contains(&statement),
                    "77 for every builder" => (1..6).contains(&statement),
                    "77 for equal alone" => statement == 3,
                    "77 for less alone" => statement == 4,
                    "77 never" => false,
                    _ => statement == 3 || statement == 4,
                };
                let robbed = searches && takes;
                let early = self.is("75 before the words") && limited || self.is("77 before the words") && robbed;
                if !early {
                    if self.is("75 before 67") && limited {
                        faults.retain(|fault| fault.2 != 67);
                    }
                    if self.is("77 before 34") && robbed {
                        faults.retain(|fault| fault.2 != 34);
                    }
                    if let Some(fault) = self.first(faults) {
                        refused = Some([fault.2, number, column_of(fault)]);
                        break;
                    }
                }
                if limited {
                    refused = Some([self.number("sum limit", 75), number, at_first(true)]);
                    break;
                }
                if robbed {
                    refused = Some([self.number("outside", 77), if self.is("77 at the line that takes") { taken_at } else { number }, at_first(false)]);
                    break;
                }
                let field = |at: usize| line.words.get(at).and_then(|word| self.find(if self.is("fields below count") { &below } else { &fields }, &word.1));
                let plain = Named { name: vec![], start: 0, width: 1 };
                match statement {
                    0 => {
                        let number = |at: usize| self.digits(&line.words[at].1, 4).unwrap_or(1) as u32;
                        let mut one = Named { name: line.words[1].1.clone(), start: number(2), width: number(3) };
                        match self.0 {
                            "START and WIDTH exchanged" => std::mem::swap(&mut one.start, &mut one.width),
                            "fields are from the word's end" => one.start = 256 - one.start - one.width,
                            "names are cut to eight" => one.name.truncate(8),
                            _ => {}
                        }
                        fields.push(one);
                    }
                    6 => {
                        let count = self.digits(&line.words[3].1, 3).unwrap_or(256) as u32;
                        let new = match self.0 {
                            "the first limit stays" => limit.or(Some(count)),
                            "the least limit stays" => limit.map_or(Some(count), |old| Some(old.min(count))),
                            "the greatest limit stays" => limit.map_or(Some(count), |old| Some(old.max(count))),
                            "a limit of 256 is none" if count == 256 => None,
                            _ => Some(count),
                        };
                        if self.is("the limit comes one line late") {
                            late[0] = new;
                        } else {
                            limit = new;
                        }
                        if self.is("a limit unsets the registers") {
                            held = [None; 2];
                        }
                    }
                    _ => {
                        let a = field(1).unwrap_or(plain.clone());
                        let (b, s) = (field(2).unwrap_or(a.clone()), field(4).unwrap_or(a.clone()));
                        let value = if statement == 3 || statement == 4 { self.digits(&line.words[2].1, 21).and_then(|value| self.value(value)).unwrap_or(0) } else { 0 };
                        if list.len() < 90000 {
                            list.extend(self.list_of(statement, [&a, &b, &s], value));
                        }
                        if (statement == 3 || statement == 4) && items.len() < 90000 {
                            let brought = self.items_of(statement == 4, a.width, value);
                            if self.is("the last items first") { items.splice(..0, brought); } else { items.extend(brought); }
                            takes |= self.is("77 by searches above");
                        }
                        match self.0 {
                            "statements unset the registers" => held = [None; 2],
                            "statements end the limit" => limit = None,
                            "77 by the line right above" => takes = false,
                            "greatest begins a new list" if statement == 5 => takes = false,
                            _ => {}
                        }
                    }
                }
                if self.is("the limit holds for one line") && statement != 6 {
                    limit = None;
                }
                if self.is("3 before the lines below") && list.len() > most {
                    break;
                }
                if self.is("4 before the lines below") && items.len() > most_items {
                    break;
                }
            }
            self.finish(refused, &list, &items, [most, most_items], lines.len() as u32, list_buffer, items_buffer)
        }

        fn finish(&self, refused: Option<[u32; 3]>, list: &[u8], items: &[u8], most: [usize; 2], lines: u32, list_buffer: &mut [u8], items_buffer: &mut [u8]) -> [u32; 5] {
            let (short_list, short_items) = (list_buffer.len() < list.len(), items_buffer.len() < items.len());
            let short = match self.0 {
                "33 by the list alone" => short_list,
                "33 by the items alone" => short_items,
                "33 where both are short" => short_list && short_items,
                "33 unless the list buffer is longer" => list_buffer.len() <= list.len() && !list.is_empty() || short_items,
                "33 unless the items buffer is longer" => items_buffer.len() <= items.len() && !items.is_empty() || short_list,
                "33 by both together" => list_buffer.len() + items_buffer.len() < list.len() + items.len(),
                "33 by whole items" => short_list || items_buffer.len() / 32 < items.len() / 32 + (items_buffer.len() % 32 != 0) as usize,
                "33 without items buffer" => short_list || short_items || items_buffer.is_empty(),
                "33 by the buffers exchanged" => items_buffer.len() < list.len() || list_buffer.len() < items.len(),
                "33 never" => false,
                _ => short_list || short_items,
            };
            let place = |number: u32| match self.0 {
                "3, 4 and 33 have the last line" => [number, lines, 1],
                "3, 4 and 33 have line and column 1" => [number, 1, 1],
                _ => [number, 0, 0],
            };
            let (three, four, short) = ((list.len() > most[0]).then(|| place(3)), (items.len() > most[1]).then(|| place(if self.is("4 is 3") { 3 } else { 4 })), short.then(|| place(33)));
            let answer = match self.0 {
                "4 before 3" => refused.or(four).or(three).or(short),
                "33 before 3" => refused.or(short).or(three).or(four),
                "33 before 4" => refused.or(three).or(short).or(four),
                "33 before the lines" => short.or(refused).or(three).or(four),
                "3 before the lines" => three.or(refused).or(four).or(short),
                "4 before the lines" => four.or(refused).or(three).or(short),
                _ => refused.or(three).or(four).or(short),
            };
            let (fits, others) = (list.len().min(list_buffer.len()), items.len().min(items_buffer.len()));
            if let Some([number, mut line, mut column]) = answer {
                if self.is("a refusal writes the list") || self.is("33 writes the list") && number == 33 {
                    list_buffer[..fits].copy_from_slice(&list[..fits]);
                }
                if self.is("a refusal writes the items") || self.is("33 writes the items") && number == 33 {
                    items_buffer[..others].copy_from_slice(&items[..others]);
                }
                let (mut counted, mut brought) = (0, 0);
                match self.0 {
                    "columns from 0" => column = column.saturating_sub(1),
                    "lines from 0" => line = line.saturating_sub(1),
                    "line and column exchanged" => (line, column) = (column, line),
                    "columns modulo 256" => column %= 256,
                    "lines modulo 256" => line %= 256,
                    "a refusal counts the list" => counted = list.len() as u32,
                    "a refusal counts the items" => brought = items.len() as u32,
                    _ => {}
                }
                return [number, line, column, counted, brought];
            }
            list_buffer[..fits].copy_from_slice(&list[..fits]);
            items_buffer[..others].copy_from_slice(&items[..others]);
            match self.0 {
                "done clears the rest of the list" => list_buffer[fits..].fill(0),
                "done clears the rest of the items" => items_buffer[others..].fill(0),
                "no items are written" => items_buffer[..others].fill(0),
                _ => {}
            }
            let (list, items) = (list.len() as u32, items.len() as u32);
            match self.0 {
                "the counts exchanged" => [0, 0, 0, items, list],
                "the items are not counted" => [0, 0, 0, list, 0],
                "items are counted in items" => [0, 0, 0, list, items / 32],
                "the list is counted in instructions" => [0, 0, 0, list / 8, items],
                "done has the last line" => [0, lines, 0, list, items],
                _ => [0, 0, 0, list, items],
            }
        }

        /// The numbers of an answer and the buffers afterwards.
        fn answer(&self, lent: &Buffers) -> ([u32; NUMBERS], Buffers) {
            let mut buffers = lent.clone();
            let [_, _, list, items, _, text] = &mut buffers;
            let numbers = self.of(text, list, items);
            (numbers, buffers)
        }
    }

    const WRONG: &[&str] = &[
        // numbers at places
        "name 60", "name 73", "given 70", "given 72", "start 30", "start 31", "width 64", "width 31", "beyond 30", "beyond 64",
        "A 60", "A 63", "A 70", "B 63", "B 74", "S 63", "S 32", "wide B 73", "wide B 30", "wide S 73", "wide S 32", "into 73", "into 60",
        "crossing 31", "crossing 74", "value 64", "value 34", "large 76", "large 64", "count 76", "count 30", "at 60", "at 64", "most 60",
        "most 64", "word 64", "word 67", "more 65", "more 60", "early 73", "early 64", "early 65", "limit 14", "unset 14", "unset 63",
        "sum limit 32", "sum limit 67", "outside 12", "outside 63",
        // words and lines
        "a tab is no blank", "a carriage return is no blank", "127 is a blank", "0 is a blank", "160 is a blank",
        "control characters are blanks", "; inside a word is part of it", "69 behind the comment", "statements may be capital",
        "difference is cut to eight", "statements may be longer", "difference is too long", "statements may be shorter",
        "a 0 ends a statement's name", "capital words stand", "words may be longer", "words may be shorter", "a sign before a number",
        "any number of zeros in front", "numbers of any length", "no zeros in front", "zeros in front are octal",
        "the column of the first word", "the column of a word's last character", "columns count words", "69 at the last word",
        "69 right behind the last word", "69 at the first word", "columns from 0", "lines from 0", "line and column exchanged",
        "columns modulo 256", "lines modulo 256", "more is passed over", "word may be left out",
        // names and fields
        "names are cut to eight", "names lose the top bit", "a 0 ends a name", "127 is passed over in names", "a beginning names a field",
        "a field is named by more", "capital letters of names are small", "names of one length are the same",
        "names of seven characters at most", "names of nine characters", "names of any length", "names with 127",
        "names with bytes over 127", "names with control characters", "names without 126", "names without 33",
        "names of letters and digits", "names of statements are refused", "words of statements are refused as names",
        "names of digits are refused", "names may be given twice", "fields below count", "START and WIDTH exchanged",
        "fields are from the word's end", "START to 256", "START to 254", "START of two digits", "START of four digits",
        "START over 255 is 31", "WIDTH of two digits", "WIDTH of four digits", "WIDTH 0 stands", "WIDTH to 65", "WIDTH to 63",
        "WIDTH to 32", "WIDTH to 255", "31 over 255", "31 over 257", "31 never", "31 at START",
        // sums
        "74 of B alone", "74 of S alone", "74 never", "74 only where it is wider", "74 only where it is narrower", "74 behind all names",
        "32 where they touch", "32 only over two bits and more", "32 only where S is above", "32 only where S is below",
        "32 also at the same start", "32 only one bit apart", "32 only off multiples of 8", "32 within 8 bits", "32 by A alone", "32 by B alone", "32 where both",
        "the start of either is enough", "32 where A crosses B", "32 never", "32 at B", "sum and difference exchanged",
        "A and B exchanged", "sums start with X alone", "sums from the highest bit", "sums store by words", "sums store masked",
        // searches
        "VALUE of 19 digits", "VALUE of 21 digits", "VALUE of eight characters", "VALUE of 18 digits", "VALUE to 32 bits",
        "VALUE wraps at 2^64", "VALUE below 2^32", "VALUE below 2^63", "2^64 is 34", "VALUE ends at 2^64 - 1", "2^64 - 1 is 76",
        "34 over 2 to the width", "34 at the greatest value", "34 never", "34 of equal alone", "34 of less alone",
        "2 to the width stands for less", "34 at 0 for less", "34 by the width modulo 64", "equal and less exchanged", "less is greater",
        "searches leave their marks in X alone", "less than 0 has no list", "greatest from the lowest bit", "flips from the highest",
        "greatest is least", "items from the highest bit", "items of less inverted", "items of equal inverted",
        "items on the first line alone", "items of ones and zeros", "64 items always", "no items behind the highest bit",
        "the last items first", "no items are written",
        // orders along a line
        "START behind WIDTH", "31 before 30", "32 before 74", "67 before the words", "69 before the words",
        "65 before the names", "73 before all else", "74 before all else", "76 and 34 before the name",
        "32 behind 67", "31 behind 67", "34 behind 67", "30 before START", "71 behind START", "the last refused word",
        // the limit
        "COUNT 0 stands", "COUNT to 255", "COUNT to 257", "COUNT to 999", "COUNT is a power of 2", "word alone", "words alone",
        "word for 1 and words for others", "masked stores are not limited", "stores without a mask are not limited", "reads are limited",
        "sources over 4 are not limited", "kinds over 127 are limited", "tags 2 and 3 exchanged", "an unset register is mode 0", "an unset register is mode 255",
        "an unset register stands", "byte 3 counts for every tag", "stores by registers are not limited", "tag 0 is not limited",
        "tags over 3 are not limited", "tags but 1 to 3 are refused", "set bits and not zero bits", "the number of zero bits",
        "256 less the mode", "256 for every mode but 255", "75 never", "75 at the limit itself", "75 over twice the limit",
        "75 before the words", "75 before 67", "75 and 77 at column 1", "75 and 77 at column 0", "75 at the second word",
        "75 at the last word", "75 and 77 at the line's end", "bytes are not limited", "words are not limited",
        "what a run refuses is not limited", "sums are not limited", "differences are not limited", "searches are limited",
        "greatest is limited", "sums reach their width", "the first limit stays", "the least limit stays", "the greatest limit stays",
        "a limit of 256 is none", "the limit comes one line late", "the last limit for all lines", "the limit holds for one line",
        "statements end the limit", "a limit unsets the registers", "statements unset the registers", "any tag sets A",
        "tags over 3 set B", "any kind sets", "kind 6 sets the other", "a refused kind 6 does not set", "a kind 6 in bytes does not set",
        "kind 6 sets once", "kind 6 sets to 0", "kind 6 sets both", "registers are followed from the limit on",
        // from outside
        "77 for greatest too", "77 for every builder", "77 for equal alone", "77 for less alone", "77 never", "77 before the words",
        "77 before 34", "77 at the value", "77 at the name", "77 at the line that takes", "77 by words alone", "77 by kinds 0 to 4 alone",
        "77 by what stands alone", "77 by byte 1 of 4 and more", "77 by the low bits of byte 1", "77 by kind 4", "77 by byte 2",
        "77 by no store", "77 by any instruction", "77 by the line right above", "77 by searches above", "77 also by what stands below",
        "greatest begins a new list",
        // lengths and buffers
        "3 over 4,095", "3 over 4,097", "3 never", "4 over 1,023", "4 over 1,025", "4 over 1,087", "4 never", "4 is 3", "4 before 3",
        "33 before 3", "33 before 4", "33 before the lines", "3 before the lines", "4 before the lines", "3 before the lines below",
        "4 before the lines below", "3, 4 and 33 have the last line", "3, 4 and 33 have line and column 1", "33 by the list alone",
        "33 by the items alone", "33 where both are short", "33 unless the list buffer is longer", "33 unless the items buffer is longer",
        "33 by both together", "33 by whole items", "33 without items buffer", "33 by the buffers exchanged", "33 never",
        "a refusal writes the list", "a refusal writes the items", "33 writes the list", "33 writes the items",
        "a refusal counts the list", "a refusal counts the items", "done clears the rest of the list",
        "done clears the rest of the items", "the counts exchanged", "the items are not counted", "items are counted in items",
        "the list is counted in instructions", "done has the last line",
    ];

    /// The rules answer as the emulator does, and each wrong one is noticed.
    #[test]
    fn the_stored_assemblies_tell_what_is_wrong() {
        let cases = stored_assemblies();
        assert_eq!(WRONG.iter().collect::<BTreeSet<_>>().len(), WRONG.len());
        let mut noticed: BTreeMap<&str, Vec<usize>> = WRONG.iter().map(|&name| (name, vec![])).collect();
        for (k, case) in cases.iter().enumerate() {
            let lent = case.make();
            let mut buffers = lent.clone();
            let numbers = case.call(&mut buffers);
            let right = RIGHT.answer(&lent);
            assert!(numbers == right.0 && buffers == right.1, "{} {:?} {:?}", crate::words::describe(case), numbers, right.0);
            for &name in WRONG {
                if Rules(name).answer(&lent) != right {
                    noticed.get_mut(name).unwrap().push(k);
                }
            }
        }
        let (mut none, mut few) = (vec![], BTreeSet::<usize>::new());
        for (name, by) in &noticed {
            println!("{}: {} of {}", name, by.len(), cases.len());
            if by.is_empty() {
                none.push(name);
            }
            if by.len() < 3 {
                few.extend(by);
                println!("  by {:?}", by);
            }
        }
        println!("{} mistakes; cases that alone or with one other notice one: {:?}", noticed.len(), few);
        assert!(none.is_empty(), "{:?}", none);
    }

    /// The rules answer as the emulator does for random cases too.
    #[test]
    fn the_rules_agree_on_random_assemblies() {
        let mut plan = Plan::new(78);
        for _ in 0..6000 {
            let case = plan.random_assembly();
            case.check();
            let lent = case.make();
            let mut buffers = lent.clone();
            let numbers = case.call(&mut buffers);
            let right = RIGHT.answer(&lent);
            assert!(numbers == right.0 && buffers == right.1, "{} {:?} {:?}", crate::words::describe(&case), numbers, right.0);
        }
    }

    /// What else the stored cases must reach: every number but 72 and 50, at each word of each statement that can have it.
    #[test]
    fn the_stored_assemblies_reach_everything() {
        let cases = stored_assemblies();
        assert!(250 <= cases.len() && cases.len() <= 400, "{}", cases.len());
        let (mut numbers, mut places): (BTreeMap<u32, usize>, BTreeSet<(u32, String, usize)>) = Default::default();
        let (mut lines, mut columns): (BTreeMap<u32, BTreeSet<u32>>, BTreeMap<u32, BTreeSet<u32>>) = Default::default();
        let (mut widths, mut letters, mut lengths) = (BTreeSet::new(), BTreeSet::new(), BTreeSet::new());
        let mut made = BTreeSet::new();
        for case in &cases {
            let lent = case.make();
            let answer = case.answer().words;
            *numbers.entry(answer[0]).or_default() += 1;
            lines.entry(answer[0]).or_default().insert(answer[1]);
            columns.entry(answer[0]).or_default().insert(answer[2]);
            let cut = RIGHT.cut(&lent[TEXT]);
            if answer[1] > 0 {
                let line = &cut[answer[1] as usize - 1];
                let word = line.words.iter().position(|word| word.0 == answer[2]).unwrap_or(line.words.len());
                places.insert((answer[0], String::from_utf8_lossy(&line.words[0].1).to_string(), word));
            }
            for line in cut.iter().filter(|line| line.words.first().is_some_and(|word| word.1 == b"field") && line.words.len() > 3) {
                letters.extend(line.words[1].1.iter().copied());
                if answer[0] == 0 {
                    lengths.insert(line.words[1].1.len());
                    widths.extend(RIGHT.digits(&line.words[3].1, 3));
                }
            }
            if answer[0] == 0 {
                let names = cut.iter().filter_map(|line| line.words.first().map(|word| String::from_utf8_lossy(&word.1).to_string()));
                made.extend(names.zip(std::iter::repeat((answer[3] > 0, answer[4] > 0))));
            }
        }
        println!("{:?}\n{:?}\n{:?}\n{:?}", numbers, places, lines, columns);
        for number in [0, 3, 4].into_iter().chain(30..35).chain(60..72).chain(73..78) {
            assert!(numbers.contains_key(&number), "{}", number);
        }
        for (name, words) in [
            ("field", vec![(69, 1), (69, 2), (69, 3), (70, 1), (71, 1), (64, 2), (30, 3), (31, 3), (67, 4)]),
            ("sum", vec![(69, 1), (69, 2), (69, 3), (69, 4), (73, 1), (73, 2), (73, 4), (74, 2), (74, 4), (65, 3), (32, 4), (67, 5), (75, 0)]),
            ("difference", vec![(69, 1), (69, 2), (69, 3), (69, 4), (73, 1), (73, 2), (73, 4), (74, 2), (74, 4), (65, 3), (32, 4), (67, 5), (75, 0)]),
            ("equal", vec![(69, 1), (69, 2), (73, 1), (76, 2), (34, 2), (67, 3), (77, 0)]),
            ("less", vec![(69, 1), (69, 2), (73, 1), (76, 2), (34, 2), (67, 3), (77, 0)]),
            ("greatest", vec![(69, 1), (73, 1), (67, 2)]),
            ("reach", vec![(69, 1), (69, 2), (69, 3), (69, 4), (65, 1), (65, 2), (65, 4), (64, 3), (67, 5)]),
            ("store", vec![(75, 0), (67, 5), (63, 4), (69, 6)]),
            ("mstore", vec![(75, 0)]),
            ("bytes", vec![(75, 0), (67, 9)]),
        ] {
            for (number, word) in words {
                assert!(places.contains(&(number, name.to_string(), word)), "{} {} {}", name, number, word);
            }
        }
        for number in [69, 70, 71, 73, 74, 75, 76] {
            assert!(lines[&number].len() > 3 && columns[&number].len() > 1, "{} {:?} {:?}", number, lines[&number], columns[&number]);
        }
        assert!(lines.values().flatten().any(|&line| line > 3000) && columns.values().flatten().any(|&column| column > 4000));
        assert!([0, 11, 31, 33, 126, 127, 128, 160, 255].iter().all(|letter| letters.contains(letter)), "{:?}", letters);
        assert!((1..=8).all(|length| lengths.contains(&length)), "{:?}", lengths);
        assert!([1, 2, 8, 31, 32, 33, 63, 64].iter().all(|width| widths.contains(width)), "{:?}", widths);
        assert!(STATEMENTS.iter().all(|name| made.iter().any(|one| one.0.as_bytes() == *name)), "{:?}", made);
    }

    /// About one random case in sixteen is of texts with statements: not many fewer than half of them stand, and the others
    /// have every number but 72.
    #[test]
    fn one_random_case_in_sixteen_has_statements() {
        let mut plan = Plan::new(3);
        plan.random_cases(40000);
        let mut numbers: BTreeMap<u32, usize> = BTreeMap::new();
        let (mut all, mut lines, mut columns, mut long) = (0, BTreeSet::new(), BTreeSet::new(), 0);
        for case in plan.cases.iter().filter(|case| case.kind == ASSEMBLE) {
            all += 1;
            let words = case.answer().words;
            *numbers.entry(words[0]).or_default() += 1;
            lines.insert(words[1]);
            columns.insert(words[2]);
            long += (case.lengths[TEXT] as usize > LETTERS) as usize;
        }
        println!("{} cases, {:?}, {} lines, {} columns, {} long", all, numbers, lines.len(), columns.len(), long);
        assert!(40000 / 18 < all && all < 40000 / 14, "{}", all);
        assert!(3 * all < 10 * numbers[&0] && 10 * numbers[&0] < 6 * all, "{:?}", numbers);
        for number in [3, 4, 30, 31, 32, 33, 34, 60, 63, 64, 65, 67, 69, 70, 71, 73, 74, 75, 76, 77] {
            assert!(numbers.get(&number).is_some_and(|&count| count > 5), "{} {:?}", number, numbers);
        }
        assert!(lines.len() > 15 && columns.len() > 30 && long > 20);
    }

    /// The other random cases are those that a seed gave before there were any with statements.
    #[test]
    fn the_other_random_cases_stay() {
        let mut plan = Plan::new(5);
        plan.random_cases(1100);
        let text: String = plan.cases.iter().filter(|case| case.kind != ASSEMBLE).take(1000).map(|case| case.line() + "\n").collect();
        assert_eq!(digest(text.as_bytes()), RANDOM_BEFORE);
    }
}
