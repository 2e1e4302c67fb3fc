//! Logs with the verdicts that documents 01 and 02 give them, worked out by hand from their text.

mod fast_reads;
mod fractured;
mod inherited;
mod limits;
mod malformed_fields;
mod malformed_text;
mod mixed;
mod own_write_missed;
mod precedence;
mod unwritten;

/// A log, and its verdict as a driver prints it.
pub struct Example {
    pub name: &'static str,
    pub log: Vec<u8>,
    pub verdict: &'static str,
}

/// The judge's bench examples, and the session's shown frames as a log.
pub fn bench() -> Vec<Example> {
    let write = "20010000000000000003000000010000000700000008\n";
    let first_read = "21020000000000000003000000000000000000000000000000000000\n";
    let second_read = "21020000000000000003000000010100000007000000010100000008\n";
    let half_read = "21020000000000000003000000010100000007000000000000000000\n";
    vec![
        example("empty log", "00000000", &[]),
        example("fractured read", "00020002", &[write, half_read]),
        example("whole read", "00000000", &[write, second_read]),
        example("session", "00000000", &[write, first_read, second_read]),
        example("session without its write", "00010002", &[first_read, second_read]),
    ]
}

/// Each finding with its nearest clean logs, and which of several faults is named.
pub fn findings() -> Vec<Example> {
    let mut findings = unwritten::examples();
    findings.extend(fractured::examples());
    findings.extend(own_write_missed::examples());
    findings.extend(inherited::examples());
    findings.extend(fast_reads::examples());
    findings.extend(mixed::examples());
    findings.extend(precedence::examples());
    findings
}

/// Each ground for refusal 15 alone, with the nearest logs that are accepted.
pub fn malformed() -> Vec<Example> {
    let mut malformed = malformed_text::examples();
    malformed.extend(malformed_fields::examples());
    malformed
}

/// Logs at and past the limits of refusal 16, and the greatest line numbers.
pub fn limits() -> Vec<Example> {
    limits::examples()
}

/// All of them.
pub fn all() -> Vec<Example> {
    let mut all = bench();
    all.extend(findings());
    all.extend(malformed());
    all.extend(limits());
    all
}

/// The verdict on a log without fault.
const CLEAN: &str = "00000000";
/// What a read shows of an item that nobody wrote.
const INITIAL: (u32, u8, u32) = (0, 0, 0);

fn example(name: &'static str, verdict: &'static str, lines: &[&str]) -> Example {
    let log = lines.concat().into_bytes();
    Example { name, log, verdict }
}

/// A line `20`: desk, set, number, values.
fn write(client: u8, set: u64, number: u32, values: &[u32]) -> String {
    let values: String = values.iter().map(|value| format!("{value:08x}")).collect();
    format!("20{client:02x}{set:016x}{number:08x}{values}\n")
}

/// A line `21`: desk, set, and per line number, writing desk, value.
fn read(client: u8, set: u64, shown: &[(u32, u8, u32)]) -> String {
    format!("21{}", read_part(client, set, shown))
}

/// A line `23`, laid out as `21`.
fn fast_read(client: u8, set: u64, shown: &[(u32, u8, u32)]) -> String {
    format!("23{}", read_part(client, set, shown))
}

/// A line `24`: desk, read part as in `21`, write part as in `20`.
fn mixed(
    client: u8,
    (set, shown): (u64, &[(u32, u8, u32)]),
    (written, number, values): (u64, u32, &[u32]),
) -> String {
    let read = read_part(client, set, shown);
    let write = write(client, written, number, values);
    format!("24{}{}", read.trim_end(), &write[4..])
}

fn read_part(client: u8, set: u64, shown: &[(u32, u8, u32)]) -> String {
    let shown: String = shown
        .iter()
        .map(|(number, writer, value)| format!("{number:08x}{writer:02x}{value:08x}"))
        .collect();
    format!("{client:02x}{set:016x}{shown}\n")
}

/// A line `22`: giver, receiver.
fn hand_over(giver: u8, receiver: u8) -> String {
    format!("22{giver:02x}{receiver:02x}\n")
}
