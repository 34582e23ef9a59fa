//! An emulator of the array module of document 01 with document 02's One, Three to Eight and Fourteen, written from
//! documents 01, 02, 001, 003 and 004 alone. It keeps everything unpacked: the memory is a table of words and bits, M, X
//! and Y are 256 bools each, a mode register holds a mode or none, an item on the lines is 256 bools. Lent bytes are
//! unpacked at the start of a call and packed again at its end, and only if the call is done.
//!
//! Points that the documents leave open follow the readings A to K and Q; the comments name them. Lists as text are no
//! document's; they are written from docs/TEXT.md alone, and the lists of its statements from docs/LISTS.md, "Bytes".

pub mod assembly;
pub mod bits;
pub mod blocks;
pub mod closing;
pub mod isolation;
pub mod lists;
pub mod machine;
pub mod memory;
pub mod network;
pub mod program;
pub mod searches;
pub mod text;

pub use assembly::{assemble, Assembled};
pub use blocks::{new_to_old, old_to_new, read_picture, read_plain, write_picture, write_plain, Put};
pub use closing::{Fields, Way};
pub use isolation::{isolated, Isolation};
pub use lists::{difference_list, sum_list, Built};
pub use machine::{run, step, Answer, REGISTERS};
pub use network::{pass, wired_pass};
pub use searches::{prepare, run_prepared, Prepared, Search};
pub use text::{make, reach, show, Made, Written};
