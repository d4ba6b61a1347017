//! Games by the seed: the four numbers decide every word of the table, and the reader accepts it.

use crate::calls::{Call, Case};
use crate::limits::agree;
use generator::{seed_numbers, Lcg, SEED_LIMITS};
use oracle::{Answer, Memory, Oracle};

/// The words of a table of n vertices and so many edges out of each.
fn words([_, n, degree, _]: [u32; 4]) -> usize {
    2 + 2 * n as usize + 2 * n as usize * degree as usize
}

/// The table by the library, in an output of the exact length.
fn table(numbers: [u32; 4]) -> Vec<u16> {
    let case = Case::of_seed(numbers, vec![6; words(numbers)]);
    assert_eq!(agree(&case), 0, "{numbers:?}");
    case.actual().memory.output
}

/// Numbers within the limits.
fn fit(lcg: &mut Lcg, most: usize) -> [u32; 4] {
    let within = |numbers: &[u32; 4]| {
        let mut limits = numbers[1..].iter().zip(SEED_LIMITS);
        limits.all(|(number, limit)| (1..=limit).contains(number))
            && numbers[1] * numbers[2] <= 4096
    };
    std::iter::repeat_with(|| seed_numbers(lcg, most)).find(within).expect("most are")
}

#[test]
fn limits_of_each_argument() {
    for seed in [0, 1, u32::MAX - 1, u32::MAX] {
        for others in [[1, 1, 1], [2, 3, 4], [512, 8, 65_535], [256, 16, 65_535], SEED_LIMITS] {
            for (which, limit) in SEED_LIMITS.into_iter().enumerate() {
                for number in [0, 1, 2, limit - 1, limit, limit + 1, 65_536, u32::MAX] {
                    let mut numbers = [seed, others[0], others[1], others[2]];
                    numbers[1 + which] = number;
                    let edges = u64::from(numbers[1]) * u64::from(numbers[2]);
                    let fits = (1..=limit).contains(&number) && edges <= 4096;
                    let expected = if fits { 0 } else { 31 };
                    let case = Case::of_seed(numbers, vec![6; 9218]);
                    assert_eq!(agree(&case), expected, "{numbers:?}");
                }
            }
        }
    }
}

#[test]
fn most_edges() {
    for (vertices, degree) in [(256, 16), (512, 8)] {
        let numbers = [5, vertices, degree, 2];
        let answer = Case::of_seed(numbers, vec![6; 9218]).actual().answer;
        assert_eq!(answer, Answer { vertices, edges: 4096, ..Answer::default() });
        let read = Case::on_memory(Call::Read, &table(numbers), Memory::default()).actual().answer;
        assert_eq!((read.number, read.edges), (0, 4096));
    }
    // Each number is within its limit, and their product above 4,096.
    for (vertices, degree) in [(512, 9), (256, 17), (257, 16), (456, 9), (512, 16), (342, 12)] {
        let case = Case::of_seed([5, vertices, degree, 2], vec![6; 20_000]);
        assert_eq!(agree(&case), 31, "{vertices} × {degree}");
    }
}

#[test]
fn outputs_of_any_length() {
    let mut lcg = Lcg::new(71);
    for most in [1, 3, 20, 512].repeat(50) {
        let numbers = fit(&mut lcg, most);
        let needed = words(numbers);
        let table = table(numbers);
        for length in [0, 1, 2, needed - 1, needed, needed + 1, needed + 30] {
            let old: Vec<u16> = (0..length).map(|_| lcg.below(65_536) as u16).collect();
            let case = Case::of_seed(numbers, old.clone());
            let expected = if length < needed { (32, needed) } else { (0, 0) };
            agree(&case);
            let outcome = case.actual();
            assert_eq!((outcome.answer.number, outcome.answer.place), expected);
            let (written, beyond) = old.split_at(if length < needed { 0 } else { needed });
            let whole = if written.is_empty() { &[][..] } else { &table[..] };
            assert_eq!(outcome.memory.output, [whole, beyond].concat(), "{numbers:?}");
        }
    }
}

#[test]
fn ranges_are_judged_before_the_length() {
    for numbers in
        [[1, 0, 1, 1], [1, 513, 1, 1], [1, 512, 9, 1], [1, 1, 17, 1], [1, 1, 1, 0], [1; 4]]
    {
        let case = Case::of_seed(numbers, vec![]);
        assert_eq!(agree(&case), if numbers == [1; 4] { 32 } else { 31 });
    }
}

#[test]
fn the_reader_accepts_every_table() {
    let mut lcg = Lcg::new(72);
    let mut repeats = 0;
    for most in [1, 2, 5, 40, 512].repeat(300) {
        let numbers = fit(&mut lcg, most);
        let words = table(numbers);
        let case = Case::on_memory(Call::Read, &words, Memory::default());
        assert_eq!(agree(&case), 0, "{numbers:?}");
        let answer = case.actual().answer;
        assert_eq!((answer.vertices, answer.edges), (numbers[1], numbers[1] * numbers[2]));
        repeats += (answer.different < answer.edges) as u32;
    }
    assert!(repeats > 300, "{repeats} tables with repeated edges");
}

#[test]
fn a_worked_table() {
    let game = [3, 6, 0, 0, 0, 0, 0, 1, 0, 0, 1, 1, 2, 2, 1, 1, 2, 0, 0, 2];
    assert_eq!(table([1, 3, 2, 4]), game);
    let read = Oracle::exact().read(&game);
    assert_eq!((read.vertices, read.edges, read.different), (3, 6, 5));
}
