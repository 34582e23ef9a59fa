//! Random cases given to a command for as long as asked, and the smallest differing case.

use crate::case::*;
use crate::closings;
use crate::plan::Plan;
use crate::words;
use std::io::Write;
use std::process::{Command, Stdio};

const BATCH: usize = 500;

/// Gives the cases to the command and takes its answers, line by line.
fn ask(command: &str, cases: &[Case]) -> Vec<String> {
    let mut parts = command.split_whitespace();
    let mut child = Command::new(parts.next().expect("a command"))
        .args(parts)
        .stdin(Stdio::piped())
        .stdout(Stdio::piped())
        .spawn()
        .unwrap_or_else(|e| panic!("{}: {}", command, e));
    let mut input = child.stdin.take().unwrap();
    let text: String = cases.iter().map(|c| c.line() + "\n").collect();
    let feeder = std::thread::spawn(move || {
        let _ = input.write_all(text.as_bytes());
    });
    let output = child.wait_with_output().expect("an end");
    feeder.join().unwrap();
    String::from_utf8_lossy(&output.stdout).lines().map(|l| l.to_string()).collect()
}

fn differs(command: &str, case: &Case) -> bool {
    ask(command, std::slice::from_ref(case)).first() != Some(&case.answer().line())
}

fn weight(case: &Case) -> (usize, usize, usize, u32, u32) {
    let lengths: usize = case.lengths.iter().map(|&l| l as usize).sum();
    let marked = if case.way().is_some() { case.make()[MARKS].iter().map(|b| b.count_ones()).sum() } else { 0 };
    (lengths, case.record().len(), 6 - case.zeros.count_ones() as usize, marked, case.seed)
}

/// Cases that are a little smaller and still keep the promises of the protocol.
fn smaller(case: &Case) -> Vec<Case> {
    let mut all = vec![];
    for k in 0..case.patches.len() {
        let mut one = case.clone();
        one.patches.remove(k);
        all.push(one);
    }
    for k in 0..COUNT {
        if case.kind == PASS || case.kind == WIRED || (case.kind == STEP && k == REGISTERS) {
            break;
        }
        let length = case.lengths[k] as usize;
        let unit = [1, 1, 8, 32, 32, if case.has_file() { 512 } else { 32 }][k];
        for new in [0, length / 2 / unit * unit, length.saturating_sub(8 * unit), length.saturating_sub(unit), length.saturating_sub(1)] {
            if new < length {
                let mut one = case.clone();
                one.lengths[k] = new as u16;
                for patch in &mut one.patches {
                    if patch.target as usize == k {
                        let end = new.saturating_sub(patch.offset as usize).min(patch.bytes.len());
                        patch.bytes.truncate(end);
                    }
                }
                one.patches.retain(|p| match p.target {
                    SEAL => (p.offset as usize) < one.lengths[FILE] as usize / 512,
                    REPEAT | REPEAT_FILE => true,
                    _ => !p.bytes.is_empty(),
                });
                all.push(one);
            }
        }
        if [RUN, ISOLATED, SHOW, REACH].contains(&case.kind) && k == LIST && length % 8 == 0 && length > 8 && length <= 640 {
            // written out, so that any one instruction can be left out
            let list = case.make()[LIST].clone();
            for leave in 0..length / 8 {
                let mut bytes = list.clone();
                bytes.drain(8 * leave..8 * leave + 8);
                let mut one = case.clone();
                one.shape = 0;
                one.zeros |= 1 << LIST;
                one.patches.retain(|p| p.target as usize != LIST);
                one.lengths[LIST] = bytes.len() as u16;
                one.patch(LIST, 0, &bytes);
                all.push(one);
            }
        }
    }
    for k in 0..COUNT {
        if (case.zeros >> k) % 2 == 0 && case.lengths[k] != 0 {
            let mut one = case.clone();
            one.zeros |= 1 << k;
            all.push(one);
        }
    }
    if case.kind == ISOLATED {
        all.extend(without_gaps(case));
    }
    if [MAKE, ASSEMBLE].contains(&case.kind) {
        all.extend(less_text(case));
    }
    if case.way().is_some() {
        all.extend(narrower(case));
        all.extend(fewer_marked(case));
    }
    all.retain(|c| c.record().len() <= LONGEST_RECORD);
    all
}

/// A list in which the whole instructions before one patch, back to the patch before it, are left out.
fn without_gaps(case: &Case) -> Vec<Case> {
    let of_list = |patch: &&Patch| patch.target as usize == LIST;
    let mut ends = vec![0];
    ends.extend(case.patches.iter().filter(of_list).map(|patch| patch.offset as usize + patch.bytes.len()));
    let mut all = vec![];
    for from in case.patches.iter().filter(of_list).map(|patch| patch.offset) {
        let before = ends.iter().copied().filter(|&end| end <= from as usize).max().unwrap_or(0);
        let gap = (from as usize - before) as u16 / 8 * 8;
        let mut one = case.clone();
        one.lengths[LIST] -= gap;
        for patch in one.patches.iter_mut().filter(|patch| patch.target as usize == LIST && patch.offset >= from) {
            patch.offset -= gap;
        }
        if gap > 0 {
            all.push(one);
        }
    }
    all
}

/// The text written out, without one half, one line, one word with the blank before it, or one character; of a long one
/// the first or the last lines.
fn less_text(case: &Case) -> Vec<Case> {
    const MOST: usize = 900;
    let text = case.make()[TEXT].clone();
    let mut parts = vec![(0, text.len() / 2), (text.len() / 2, text.len()), (MOST.min(text.len()), text.len()), (0, text.len().saturating_sub(MOST))];
    let ends: Vec<usize> = (1..text.len()).filter(|&at| text[at - 1] == b'\n').collect();
    if text.len() > MOST {
        parts.extend(ends.iter().filter(|&&at| text.len() - at <= MOST).map(|&at| (0, at)));
        parts.extend(ends.iter().filter(|&&at| at <= MOST).map(|&at| (at, text.len())));
    } else {
        let from = std::iter::once(0).chain(ends.iter().copied());
        parts.extend(from.zip(ends.iter().copied().chain([text.len()])));
        let blank = |at: usize| b" \t\r\n;".contains(&text[at]);
        let starts = (0..text.len()).filter(|&at| at == 0 || blank(at));
        parts.extend(starts.map(|at| (at, (at + 1..text.len()).find(|&end| blank(end)).unwrap_or(text.len()))));
        parts.extend((0..text.len()).map(|at| (at, at + 1)));
    }
    let mut all = vec![];
    for (from, to) in parts.into_iter().filter(|(from, to)| from < to) {
        let less = [&text[..from], &text[to..]].concat();
        if less.len() <= MOST {
            let mut one = case.clone();
            one.zeros |= 1 << TEXT;
            one.patches.retain(|p| p.target as usize != TEXT && p.target != REPEAT_FILE);
            one.lengths[TEXT] = less.len() as u16;
            one.patch(TEXT, 0, &less);
            all.push(one);
        }
    }
    all
}

/// A closing or spreading of fewer bits, with as much room more or less than it wants.
fn narrower(case: &Case) -> Vec<Case> {
    let mut all = vec![];
    let n = case.p[2];
    for new in [1, n / 2, n.saturating_sub(1)] {
        if 1 <= new && new < n && n <= 32 {
            let (was, wants) = (closings::room(case.kind, n), closings::room(case.kind, new));
            let mut one = case.clone();
            one.p[2] = new;
            one.lengths[LIST] = case.lengths[LIST].saturating_sub(was.0 - wants.0);
            one.lengths[ITEMS] = case.lengths[ITEMS].saturating_sub(was.1 - wants.1);
            // patches into the list or the items may no longer fit
            one.patches.retain(|p| p.target as usize != LIST && p.target as usize != ITEMS);
            all.push(one);
        }
    }
    all
}

/// The marks written out, without those of one half, of one byte, or of one bit.
fn fewer_marked(case: &Case) -> Vec<Case> {
    let marks = case.make()[MARKS].clone();
    let mut all = vec![];
    if marks.len() != 32 {
        return all;
    }
    let mut without = |of: &dyn Fn(usize) -> bool| {
        let mut fewer = marks.clone();
        for word in (0..256).filter(|&word| of(word)) {
            fewer[word / 8] &= !(1 << (word % 8));
        }
        if fewer != marks {
            let mut one = case.clone();
            one.zeros |= 1 << MARKS;
            one.patches.retain(|p| p.target as usize != MARKS);
            one.patch(MARKS, 0, &fewer);
            all.push(one);
        }
    };
    without(&|word| word < 128);
    without(&|word| word >= 128);
    for byte in 0..32 {
        without(&|word| word / 8 == byte);
    }
    for bit in 0..256 {
        without(&|word| word == bit);
    }
    all
}

fn shrink(command: &str, case: Case) -> Case {
    let mut best = case;
    let mut tries = 0;
    'again: loop {
        let mut candidates = smaller(&best);
        candidates.sort_by_cached_key(weight);
        for one in candidates {
            // a literal list is a longer record at first, but fewer bytes lent
            let (a, b) = (weight(&one), weight(&best));
            if a.0 > b.0 || (a.0 == b.0 && a >= b && one.zeros == best.zeros) {
                continue;
            }
            one.check();
            tries += 1;
            if tries > 4000 {
                return best;
            }
            if differs(command, &one) {
                best = one;
                continue 'again;
            }
        }
        return best;
    }
}

pub fn go_on(command: &str, seed: Option<u64>, count: usize, open_points: bool) {
    let seed = seed.unwrap_or_else(|| std::time::SystemTime::now().duration_since(std::time::UNIX_EPOCH).map(|d| d.as_secs()).unwrap_or(1));
    println!("seed {}", seed);
    let mut plan = Plan::new(seed);
    plan.open_points = open_points;
    let mut done = 0;
    let mut reported = 0;
    while count == 0 || done < count {
        let size = if count == 0 { BATCH } else { BATCH.min(count - done) };
        plan.cases.clear();
        plan.random_cases(size);
        let answers = ask(command, &plan.cases);
        for (k, case) in plan.cases.iter().enumerate() {
            let expected = case.answer().line();
            if answers.get(k) != Some(&expected) {
                println!("case {} of seed {} differs", done + k, seed);
                let alone = differs(command, case);
                let small = if alone {
                    shrink(command, case.clone())
                } else {
                    println!("it does not differ when asked alone; the case as it was:");
                    case.clone()
                };
                println!("{}", small.line());
                print!("{}", words::describe(&small));
                print!("{}", words::answered(&small, &small.answer()));
                let got = if alone { ask(command, std::slice::from_ref(&small)).first().cloned() } else { answers.get(k).cloned() };
                print!("{}", words::differences("the emulator", Some(&small.answer().line()), "the command", got.as_deref()));
                std::process::exit(1);
            }
        }
        done += size;
        if done - reported >= 5000 || done == count {
            println!("{} cases, no difference (seed {})", done, seed);
            let _ = std::io::stdout().flush();
            reported = done;
        }
    }
}
