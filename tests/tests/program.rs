//! The program on random and hostile input, compared with the second implementation: every byte
//! that it prints. Seeded and bounded. And what it says where its input or output fails.
use label_book_tests::make::{self, Names, NAMES};
use label_book_tests::programs::{printed, printed_and_said, said_when_full};
use label_book_tests::random::Random;
use label_book_tests::reference::{program, Entries, MOST_OFFERED};
use std::io::Write;
use std::os::fd::OwnedFd;
use std::os::unix::net::UnixStream;

const CANNOT_WRITE: &str = "labels: cannot write\\n";
const CANNOT_READ: &str = "labels: cannot read\\n";

fn number(random: &mut Random) -> Vec<u8> {
    let value = match random.below(6) {
        0 => random.pick(&[0, 1, 4_294_967_295, 4_294_967_296, 9_999_999_999, 10_000_000_000]),
        1 => random.any() >> 31,
        2 => random.between(MOST_OFFERED - 1, MOST_OFFERED + 2) as u64,
        _ => random.below(20) as u64,
    };
    match random.below(8) {
        0 => format!("{value:010}").into_bytes(),
        1 => format!("{value:011}").into_bytes(),
        2 => random.pick(&[
            b"".to_vec(),
            b"-1".to_vec(),
            b"+1".to_vec(),
            b" 1".to_vec(),
            b"1a".to_vec(),
            b"0x1".to_vec(),
        ]),
        _ => value.to_string().into_bytes(),
    }
}

/// A line, well formed or almost.
fn line(random: &mut Random, names: Names, held: &mut Entries) -> Vec<u8> {
    let name =
        if random.chance(2) { make::name(random, names, held) } else { make::asked(random, held) };
    let mut line = match random.below(8) {
        0..=3 => {
            held.insert(name.clone(), 0);
            [b"set ".to_vec(), number(random), b" ".to_vec(), name].concat()
        }
        4 | 5 => [
            b"top ".to_vec(),
            number(random),
            b" ".to_vec(),
            name[..random.below(name.len() + 1)].to_vec(),
        ]
        .concat(),
        6 => [b"del ".to_vec(), name].concat(),
        _ => random.pick(&[
            b"".to_vec(),
            b"set".to_vec(),
            b"top 2".to_vec(),
            b"top 2 ".to_vec(),
            b"del".to_vec(),
            b"Set 1 a".to_vec(),
        ]),
    };
    if random.chance(12) && !line.is_empty() {
        let at = random.below(line.len());
        line[at] = random.byte();
    }
    if random.chance(60) {
        let more = random.pick(&[1, 60, 64, 65, 66, 300, 5000, 70_000]);
        line.resize(line.len() + more, b'x');
    }
    line
}

fn script(random: &mut Random, lines: usize) -> Vec<u8> {
    let names = random.pick(&NAMES);
    let mut held = Entries::new();
    let mut all: Vec<Vec<u8>> = (0..lines).map(|_| line(random, names, &mut held)).collect();
    if random.chance(2) {
        all.push(Vec::new());
    }
    all.join(&b'\n')
}

/// An input of some bytes, behind which a read fails: a socket whose other end was closed with
/// something in it that nobody has read.
fn failing_behind(bytes: &[u8]) -> OwnedFd {
    let (mut other, mut input) = UnixStream::pair().expect("two ends of a socket");
    input.write_all(b"unread").expect("it has room");
    other.write_all(bytes).expect("it has room");
    input.into()
}

/// Where it cannot write or read, the program says so once and stops, also where the input has no
/// end. Of a line that a failed read cuts short nothing is printed.
fn failures() {
    assert_eq!(said_when_full("labels", b"set 1 a\n").escape_ascii().to_string(), CANNOT_WRITE);
    let folder = std::fs::File::open("/").expect("a folder opens, but cannot be read");
    let inputs: [(OwnedFd, &[u8]); 3] = [
        (folder.into(), b""),
        (failing_behind(b"set 5 ac\nset 9 rc\n"), b"ok 1\nok 2\n"),
        (failing_behind(b"set 5 ac\nset 9 rc"), b"ok 1\n"),
    ];
    for (input, wanted) in inputs {
        let (printed, said) = printed_and_said("labels", input);
        assert_eq!(printed.escape_ascii().to_string(), wanted.escape_ascii().to_string());
        assert_eq!(said.escape_ascii().to_string(), CANNOT_READ);
    }
    println!("labels: 4 failures of input and output, each said");
}

/// The book with the most looks, by its lines, asked for every count up to 20.
fn every_count() -> Vec<u8> {
    let lines = make::nineteen()
        .into_iter()
        .map(|(name, score)| [format!("set {score} ").as_bytes(), &name, b"\n"].concat());
    let counts = (0..=20).flat_map(|k| [format!("top {k} \n"), format!("top {k} b\n")]);
    lines.chain(counts.map(String::into_bytes)).flatten().collect()
}

/// The longest lines that one command can print: as many as can be asked for, each of the longest
/// name and a score of ten digits.
fn longest_lines() -> Vec<u8> {
    let name = |i: usize| "x".repeat(47) + &i.to_string();
    let lines = (0..MOST_OFFERED).map(|i| format!("set {} {}\n", u32::MAX, name(i)));
    (lines.collect::<String>() + &format!("top {MOST_OFFERED} \n")).into_bytes()
}

fn main() {
    failures();
    let rounds = if std::env::var_os("LONG").is_some() { 20_000 } else { 200 };
    let mut random = Random::new(
        std::env::var("SEED").map_or(1, |seed| seed.parse().expect("SEED is a number")),
    );
    let full: Vec<u8> =
        (0..1030).flat_map(|i| format!("set {i} name {i}\n").into_bytes()).collect();
    let mut inputs = vec![
        b"".to_vec(),
        b"\n".to_vec(),
        b"\n\n".to_vec(),
        b"set 5 ac".to_vec(),
        "set 5 10 µF\nset 9 4.7 kΩ\ntop 5 10 µ\ntop 5 4.7 kΩ\ndel µ\ndel 10 µF".into(),
        b"set 5 10 \xC2\nset 5 \xB5F\ntop 1 \xCE\ndel \xCE\xB5\nset 1 \xC3\xA4\n".to_vec(),
        full,
        every_count(),
        longest_lines(),
        vec![b'x'; 200_000],
    ];
    for _ in 0..rounds {
        let lines = random.below(120);
        inputs.push(script(&mut random, lines));
        let noise = random.below(300);
        inputs.push(random.bytes(noise));
    }
    let mut lines = 0;
    for input in &inputs {
        let (ours, second) = (printed("labels", input), program::run(input));
        if ours != second {
            let (input, ours, second) =
                (input.escape_ascii(), ours.escape_ascii(), second.escape_ascii());
            panic!("labels: a difference\ninput  {input}\nours   {ours}\nsecond {second}");
        }
        lines += input.split(|b| *b == b'\n').count();
    }
    println!("labels: {} inputs of {lines} lines in all, all agree", inputs.len());
}
