//! The report program, run on many inputs, prints what the oracle says.

#[allow(dead_code)]
#[path = "../rattle/mod.rs"]
mod rattle;

mod common;

use common::{root, say};
use generator::{any_game, damaged, random, Lcg, Table, REFUSALS};
use oracle::{Oracle, Trap};
use rattle::{Product, Verb};
use std::collections::BTreeMap;
use std::io::Write;
use std::path::{Path, PathBuf};
use std::process::{Command, Stdio};
use std::sync::OnceLock;
use std::thread;

/// The program, built once for all tests.
fn program() -> &'static Path {
    static PROGRAM: OnceLock<PathBuf> = OnceLock::new();
    PROGRAM.get_or_init(|| {
        let report = Product { file: "bin/report".into(), verb: Verb::Run, name: "report" };
        rattle::built(root(), &[report]).expect("the report program");
        root().join("target/bin/report")
    })
}

/// What the program prints for the input. It may stop reading before the input ends.
fn report(input: &[u8]) -> String {
    let mut child = Command::new(program())
        .stdin(Stdio::piped())
        .stdout(Stdio::piped())
        .spawn()
        .expect("the report program starts");
    let (mut stdin, bytes) = (child.stdin.take().expect("piped"), input.to_vec());
    let writer = thread::spawn(move || drop(stdin.write_all(&bytes)));
    let output = child.wait_with_output().expect("the report program ends");
    writer.join().expect("the input is written or turned away");
    assert!(output.status.success(), "{:?}", output.status);
    String::from_utf8(output.stdout).expect("text")
}

fn bytes(words: &[u16]) -> Vec<u8> {
    words.iter().flat_map(|word| word.to_le_bytes()).collect()
}

/// Games, some with repeated edges, damaged tables of each kind, odd byte counts, nothing, and tables
/// that are too long.
fn inputs() -> Vec<Vec<u8>> {
    let mut lcg = Lcg::new(5);
    let mut inputs = vec![vec![], vec![1], bytes(&[3, 3, 0, 1, 0, 0, 0, 1, 0, 1, 2, 1, 1, 1])];
    inputs.push(bytes(&[1, 2, 0, 0, 0, 0, 0, 0]));
    for most in [3, 8, 20, 60, 256] {
        for _ in 0..20 {
            let table = any_game(&mut lcg, most);
            inputs.push(bytes(&table.words()));
            inputs.push(odd(&mut lcg, &table));
        }
        for number in REFUSALS.repeat(2) {
            let table = any_game(&mut lcg, most);
            inputs.push(bytes(&damaged(&mut lcg, &table, number)));
        }
    }
    inputs.extend([300, 511, 512].map(|n| bytes(&random(&mut lcg, n, 2 * n, 8).words())));
    inputs.extend([0, 1, 2, 3, 4, 100, 200_000].map(largest_and));
    inputs
}

/// The longest table, of 9,218 words, and so many bytes behind it.
fn largest_and(more: usize) -> Vec<u8> {
    let words = random(&mut Lcg::new(6), 512, 4096, 3).words();
    assert_eq!(words.len(), 9218);
    [bytes(&words), vec![1; more]].concat()
}

/// It reads one word more than the longest table has, and no further.
#[test]
fn at_most_9219_words_are_read() {
    assert!(report(&largest_and(0)).starts_with("game 512 4096\npasses "));
    for more in [1, 2, 3, 4, 1000] {
        assert_eq!(report(&largest_and(more)), "refused 4 at 9219\n", "{more} bytes more");
    }
    let short = &largest_and(0)[..18_434];
    assert_eq!(report(short), "refused 4 at 9217\n");
}

/// The table's bytes without the last, or with one more.
fn odd(lcg: &mut Lcg, table: &Table) -> Vec<u8> {
    let mut bytes = bytes(&table.words());
    if lcg.once_in(2) {
        bytes.pop();
    } else {
        bytes.push(lcg.below(256) as u8);
    }
    bytes
}

/// The refusal number of a report, 0 for none.
fn number(text: &str) -> u32 {
    let mut words = text.split_whitespace();
    match words.next() {
        Some("refused") => words.next().and_then(|word| word.parse().ok()).expect("a number"),
        _ => 0,
    }
}

#[test]
fn report_program_and_oracle_agree() {
    let inputs = inputs();
    let texts: Vec<String> = inputs.iter().map(|input| report(input)).collect();
    let mut counts = BTreeMap::new();
    for (input, text) in inputs.iter().zip(&texts) {
        assert_eq!(*text, Oracle::exact().report(input), "on {} bytes", input.len());
        *counts.entry(number(text)).or_insert(0) += 1;
    }
    say(format!("{} reports; by refusal number: {counts:?}", inputs.len()));
    let given: Vec<u32> = counts.keys().copied().collect();
    assert_eq!(given, [&[0], &REFUSALS[..]].concat());
    assert!(counts.values().all(|&count| count >= 8), "{counts:?}");
    for trap in Trap::OF_REPORT {
        let misled = Oracle::with(trap);
        let differs = |(input, text): (&Vec<u8>, &String)| misled.report(input) != *text;
        let needed = inputs.iter().zip(&texts).position(differs);
        let needed = needed.unwrap_or_else(|| panic!("{trap:?} goes unnoticed")) + 1;
        say(format!("{trap:?}: reports needed {needed}"));
    }
}

/// The numbers of each line that starts with the word.
fn lines<'a>(text: &'a str, word: &'a str) -> impl Iterator<Item = Vec<usize>> + 'a {
    let of_word = text.lines().filter(move |line| line.split(' ').next() == Some(word));
    of_word.map(|line| line.split(' ').filter_map(|part| part.parse().ok()).collect())
}

#[test]
fn totals_agree_with_the_other_lines() {
    let mut lcg = Lcg::new(10);
    for most in [1, 3, 8, 20, 60, 512].repeat(10) {
        let text = report(&bytes(&any_game(&mut lcg, most).words()));
        let one = |word| lines(&text, word).next().expect("a line");
        let classes: Vec<Vec<usize>> = lines(&text, "class").collect();
        let sum = |place: usize| classes.iter().map(|line| line[place]).sum::<usize>();
        assert!(classes.iter().enumerate().all(|(class, line)| line[0] == class), "{text}");
        assert_eq!([classes.len()], one("classes")[..], "{text}");
        assert_eq!(one("total"), [sum(1), sum(2)], "{text}");
        assert_eq!(one("total"), [one("game")[0], one("reduced")[1]], "{text}");
    }
}
