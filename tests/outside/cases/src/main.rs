//! The generator of cases, the emulator's own answers, and the comparison of two answer streams.
//! The README and PROTOCOL.md say more.

mod case;
mod plan;
mod against;
mod assemblies;
mod bytes;
mod closings;
mod isolations;
mod masks;
mod modes;
mod pictures;
mod resolves;
mod searches;
mod texts;
mod words;

use case::*;
use plan::Plan;
use std::collections::{BTreeMap, BTreeSet};
use std::io::{BufRead, BufWriter, Write};

/// The stored files: the planned cases and this many random ones of document 01.
const STORED_SEED: u64 = 1975;
const STORED_RANDOM: usize = 300;

const USAGE: &str = "\
cases                               write the stored cases: stdin and stdout of crates/vectors
cases --seed N --count M            write M random cases of seed N instead
      --to DIRECTORY                ... into this directory (for both of the above)
      --open-points                 ... more of those on which document 01 is silent
cases --answer                      read cases from standard input, write the emulator's answers
cases --compare CASES ONE OTHER     find the first case on which two answer files differ
cases --show CASES K                print case K (from 0) in words
cases --against COMMAND [--seed N] [--count M]
                                    give random cases to COMMAND until it differs (0: for ever)
";

fn main() {
    let arguments: Vec<String> = std::env::args().skip(1).collect();
    let mut words: Vec<&str> = arguments.iter().map(|s| s.as_str()).collect();
    let mut seed: Option<u64> = None;
    let mut count: Option<usize> = None;
    let mut directory = "../../crates/vectors".to_string();
    let mut open_points = false;
    let mut rest: Vec<&str> = vec![];
    while !words.is_empty() {
        let word = words.remove(0);
        let mut value = || {
            if words.is_empty() {
                fail("a value is missing")
            } else {
                words.remove(0).to_string()
            }
        };
        match word {
            "--seed" => seed = Some(number(&value())),
            "--count" => count = Some(number(&value()) as usize),
            "--to" => directory = value(),
            "--open-points" => open_points = true,
            "--help" => {
                print!("{}", USAGE);
                return;
            }
            other => rest.push(other),
        }
    }
    match rest.as_slice() {
        [] => generate(seed, count, &directory, open_points),
        ["--answer"] => answer(),
        ["--compare", cases, one, other] => compare(cases, one, other),
        ["--show", cases, k] => show(cases, number(k) as usize),
        ["--against", command] => against::go_on(command, seed, count.unwrap_or(0), open_points),
        _ => fail("not understood"),
    }
}

fn fail(why: &str) -> ! {
    eprint!("{}\n{}", why, USAGE);
    std::process::exit(2)
}

fn number(text: &str) -> u64 {
    text.parse().unwrap_or_else(|_| fail("not a number"))
}

fn generate(seed: Option<u64>, count: Option<usize>, directory: &str, open_points: bool) {
    let mut plan = Plan::new(seed.unwrap_or(STORED_SEED));
    plan.open_points = open_points;
    if seed.is_none() && count.is_none() {
        plan.stored(STORED_RANDOM);
    } else {
        plan.random_cases(count.unwrap_or(2000));
    }
    let write = |name: &str, text: &str| {
        let path = format!("{}/{}", directory, name);
        std::fs::write(&path, text).unwrap_or_else(|e| fail(&format!("{}: {}", path, e)));
    };
    let mut asked = String::new();
    let mut answered = String::new();
    let mut replies = vec![];
    for case in &plan.cases {
        let line = case.line();
        assert_eq!(Case::from_line(&line).as_ref(), Ok(case));
        asked.push_str(&line);
        asked.push('\n');
        let reply = case.answer();
        answered.push_str(&reply.line());
        answered.push('\n');
        replies.push(reply);
    }
    write("stdin", &asked);
    write("stdout", &answered);
    count_up(&plan.cases, &replies, asked.len(), answered.len());
}

/// Counts by kind and by number, with the bytes named, for whoever runs it.
fn count_up(cases: &[Case], replies: &[Reply], asked: usize, answered: usize) {
    let mut by_kind: BTreeMap<u8, (usize, BTreeMap<u32, usize>)> = BTreeMap::new();
    let mut by_number: BTreeMap<u32, (usize, BTreeSet<u32>, BTreeSet<u32>)> = BTreeMap::new();
    for (case, reply) in cases.iter().zip(replies) {
        let (answer, place) = case.number_and_place(reply);
        let kind = by_kind.entry(case.kind).or_default();
        kind.0 += 1;
        *kind.1.entry(answer).or_default() += 1;
        let number = by_number.entry(answer).or_default();
        number.0 += 1;
        number.1.insert(place);
        // the byte stands behind the place
        number.2.extend(case.run_numbers().map(|at| reply.words[at.start + 2]));
    }
    println!("{} cases, {} + {} bytes", cases.len(), asked, answered);
    println!("kind                        cases   done  refused with");
    for (kind, (all, numbers)) in by_kind {
        let refused: Vec<String> = numbers.iter().filter(|n| *n.0 != 0).map(|n| format!("{}: {}", n.0, n.1)).collect();
        println!("{:<26} {:>6} {:>6}  {}", KINDS[kind as usize], all, numbers.get(&0).unwrap_or(&0), refused.join(", "));
    }
    println!("number  cases  different places  bytes");
    for (number, (all, places, bytes)) in by_number {
        let bytes: Vec<String> = bytes.iter().map(|byte| byte.to_string()).collect();
        println!("{:>6} {:>6}  {:>6}            {}", number, all, places.len(), bytes.join(", "));
    }
}

fn answer() {
    let mut out = BufWriter::new(std::io::stdout().lock());
    for line in std::io::stdin().lock().lines() {
        let line = line.expect("a line");
        let case = Case::from_line(&line).unwrap_or_else(|e| fail(&e));
        writeln!(out, "{}", case.answer().line()).expect("written");
    }
}

fn text(path: &str) -> String {
    String::from_utf8_lossy(&std::fs::read(path).unwrap_or_else(|e| fail(&format!("{}: {}", path, e)))).into_owned()
}

fn compare(cases: &str, one: &str, other: &str) {
    let (cases, one_text, other_text) = (text(cases), text(one), text(other));
    let (mut a, mut b) = (one_text.lines(), other_text.lines());
    let mut count = 0;
    for (k, line) in cases.lines().enumerate() {
        let (x, y) = (a.next(), b.next());
        if x.is_none() || x != y {
            let case = Case::from_line(line).unwrap_or_else(|e| fail(&e));
            println!("case {} (line {} of the cases) differs", k, k + 1);
            print!("{}", words::describe(&case));
            print!("{}", words::differences(one, x, other, y));
            std::process::exit(1);
        }
        count += 1;
    }
    if a.next().is_some() || b.next().is_some() || one_text != other_text {
        println!("the answers go on after the last case, or their line ends differ");
        std::process::exit(1);
    }
    println!("{} cases, no difference", count);
}

fn show(cases: &str, k: usize) {
    let cases = text(cases);
    let line = cases.lines().nth(k).unwrap_or_else(|| fail("no such case"));
    let case = Case::from_line(line).unwrap_or_else(|e| fail(&e));
    println!("case {}\n{}", k, line);
    print!("{}", words::describe(&case));
    let reply = case.answer();
    println!("the emulator answers\n{}", reply.line());
    print!("{}", words::answered(&case, &reply));
}
