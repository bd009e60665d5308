//! The programs, which `./build labels` and `./build lookup_heads` write to target/bin.
use std::io::Write;
use std::process::{Child, ChildStdin, Command, Output, Stdio};
use std::thread;

fn start(program: &str, stdin: Stdio, stdout: Stdio) -> Child {
    let path = format!("{}/../target/bin/{program}", env!("CARGO_MANIFEST_DIR"));
    let child = Command::new(path).stdin(stdin).stdout(stdout).stderr(Stdio::piped()).spawn();
    child.unwrap_or_else(|error| panic!("target/bin/{program}: {error}"))
}

/// Runs a program on a pipe that `feed` writes to while the output comes out, since pipes are
/// small. What a program that ends early leaves in the pipe is lost.
fn fed(program: &str, stdout: Stdio, feed: impl FnOnce(ChildStdin) + Send + 'static) -> Output {
    let mut child = start(program, Stdio::piped(), stdout);
    let stdin = child.stdin.take().unwrap();
    let writer = thread::spawn(move || feed(stdin));
    let output = child.wait_with_output().expect("the program ends");
    writer.join().unwrap();
    assert!(output.status.success(), "{program} ended with {}", output.status);
    output
}

/// What a program prints for its input. It says nothing on standard error.
pub fn printed(program: &str, input: &[u8]) -> Vec<u8> {
    let lent = input.to_vec();
    let output = fed(program, Stdio::piped(), move |mut stdin| drop(stdin.write_all(&lent)));
    assert!(output.stderr.is_empty(), "{program} says {}", output.stderr.escape_ascii());
    output.stdout
}

/// Lines that no pipe has room for.
const MANY_LINES: usize = 1 << 20;

/// What a program says on standard error that cannot write what it prints. It is fed one line again
/// and again, and has to stop reading before they end.
pub fn said_when_full(program: &str, line: &'static [u8]) -> Vec<u8> {
    let full = std::fs::File::options().write(true).open("/dev/full").expect("Linux has /dev/full");
    let feed = move |mut stdin: ChildStdin| {
        let all_taken = (0..MANY_LINES).all(|_| stdin.write_all(line).is_ok());
        assert!(!all_taken, "it goes on reading");
    };
    fed(program, full.into(), feed).stderr
}

/// What a program prints and says that is given something as its input.
pub fn printed_and_said(program: &str, stdin: impl Into<Stdio>) -> (Vec<u8>, Vec<u8>) {
    let child = start(program, stdin.into(), Stdio::piped());
    let output = child.wait_with_output().expect("the program ends");
    assert!(output.status.success(), "{program} ended with {}", output.status);
    (output.stdout, output.stderr)
}
