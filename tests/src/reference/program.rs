//! The program: what it prints for its input.
use super::*;

const BUFFER: usize = 57_344;

enum Command<'a> {
    Set(u32, &'a [u8]),
    Top(u32, &'a [u8]),
    Del(&'a [u8]),
}

/// A number of 1 to 10 digits below 4,294,967,296 and a space, and what follows.
fn number(rest: &[u8]) -> Option<(u32, &[u8])> {
    let end = rest.iter().position(|&b| b == b' ')?;
    let digits = &rest[..end];
    if !(1..=10).contains(&digits.len()) || !digits.iter().all(u8::is_ascii_digit) {
        return None;
    }
    let value = digits.iter().fold(0u64, |n, &d| n * 10 + (d - b'0') as u64);
    Some((u32::try_from(value).ok()?, &rest[end + 1..]))
}

fn command(line: &[u8]) -> Option<Command<'_>> {
    if let Some(rest) = line.strip_prefix(b"set ") {
        let (score, name) = number(rest)?;
        return Some(Command::Set(score, name));
    }
    if let Some(rest) = line.strip_prefix(b"top ") {
        let (k, prefix) = number(rest)?;
        return Some(Command::Top(k, prefix));
    }
    line.strip_prefix(b"del ").map(Command::Del)
}

fn written(answer: calls::Written, out: &mut Vec<u8>) {
    match answer {
        Ok((entries, _)) => out.extend(format!("ok {entries}\n").bytes()),
        Err(number) => out.extend(format!("no {number}\n").bytes()),
    }
}

fn top(entries: &Entries, prefix: &[u8], k: u32, out: &mut Vec<u8>) {
    let mut answer = vec![0; 53 * MOST_OFFERED];
    match calls::complete(&book::image(entries), prefix, k as usize, &mut answer, MOST_OFFERED) {
        Err(number) => out.extend(format!("no {number}\n").bytes()),
        Ok((offered, bytes, looks)) => {
            let mut fields = Fields { image: &answer[..bytes], at: 0 };
            for _ in 0..offered {
                let length = fields.number(1).unwrap() as usize;
                let name = fields.take(length).unwrap();
                let score = fields.number(4).unwrap();
                out.extend(format!("{score} ").bytes());
                out.extend(name);
                out.push(b'\n');
            }
            out.extend(format!("looks {looks}\n").bytes());
        }
    }
}

/// What the program prints.
pub fn run(input: &[u8]) -> Vec<u8> {
    let mut ledger = ledger::Ledger::new(BUFFER);
    let mut out = Vec::new();
    let mut lines: Vec<&[u8]> = input.split(|&b| b == b'\n').collect();
    if lines.last().is_some_and(|line| line.is_empty()) {
        lines.pop();
    }
    for line in lines {
        match command(line) {
            None => out.extend(b"bad\n"),
            Some(Command::Set(score, name)) => written(ledger.set(name, score), &mut out),
            Some(Command::Del(name)) => written(ledger.withdraw(name), &mut out),
            Some(Command::Top(k, prefix)) => top(&ledger.held, prefix, k, &mut out),
        }
    }
    out
}
