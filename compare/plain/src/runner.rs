//! The runner program of 01, over any reader and writer.

use std::io::{self, Read, Write};

use crate::bytes::{get16, get32};
use crate::codes::{NO_ERROR, READ_SAMPLING_MESSAGE, RECEIVE_QUEUING_MESSAGE};
use crate::judge::{judge_file, Verdict, MOST_RECORDS, RECORD};
use crate::kernel::{run_prepared, stretch, EVENT};
use crate::state::State;
use crate::tables::Prepared;

/// "at most 400 records at a time".
const TURN: usize = 400 * EVENT;

/// Loads the tables, then runs and prints the events turn by turn.
pub fn play(tables: impl Read, mut events: impl Read, mut out: impl Write) -> io::Result<()> {
    let (length, first) = read_tables(tables);
    if let Verdict::Refused { number, record } = judge_file(length, &first) {
        return writeln!(out, "tables refused {number} at {record}");
    }
    let tables = Prepared::of(&first).expect("accepted tables are whole: at most 160 records");
    let mut state = State::at_load();
    let mut buffer = vec![0; TURN];
    let mut answers = vec![0; TURN];
    let mut number = 0;
    loop {
        let got = fill(&mut events, &mut buffer);
        let whole = got - got % EVENT;
        run_prepared(&tables, &mut state, &buffer[..whole], &mut answers);
        for record in 0..whole / EVENT {
            let code = buffer[record * EVENT];
            print_line(&mut out, number, code, &answers, record)?;
            number += 1;
        }
        if whole < got {
            writeln!(out, "events refused 27")?;
        }
        if got < TURN {
            return out.flush();
        }
    }
}

/// The true length of the tables, and their first 161 records.
/// What cannot be read counts as missing, and so as length 0.
fn read_tables(mut tables: impl Read) -> (usize, Vec<u8>) {
    let mut first = Vec::new();
    let most = (MOST_RECORDS * RECORD) as u64;
    if tables.by_ref().take(most).read_to_end(&mut first).is_err() {
        return (0, Vec::new());
    }
    let rest = io::copy(&mut tables, &mut io::sink()).unwrap_or(0);
    (first.len() + rest as usize, first)
}

/// Fills the buffer as far as the input reaches; an error ends the input.
fn fill(events: &mut impl Read, buffer: &mut [u8]) -> usize {
    let mut got = 0;
    while got < buffer.len() {
        match events.read(&mut buffer[got..]) {
            Ok(0) => break,
            Ok(more) => got += more,
            Err(error) if error.kind() == io::ErrorKind::Interrupted => {}
            Err(_) => break,
        }
    }
    got
}

/// "number from 0, doer, code, id, number, length field, byte 12, byte 13, depth, then message".
fn print_line(
    out: &mut impl Write,
    number: u64,
    event_code: u8,
    answers: &[u8],
    record: usize,
) -> io::Result<()> {
    let answer = &answers[record * EVENT..][..EVENT];
    write!(
        out,
        "{number} {} {} {} {} {} {} {} {} ",
        answer[1],
        answer[0],
        get16(answer, 2),
        get32(answer, 4),
        get32(answer, 8),
        answer[12],
        answer[13],
        get16(answer, 14),
    )?;
    let hands_out = matches!(event_code, READ_SAMPLING_MESSAGE | RECEIVE_QUEUING_MESSAGE);
    if !hands_out || answer[0] != NO_ERROR {
        return writeln!(out, "-");
    }
    let (start, length) = stretch(answers, record);
    for byte in &answers[start..start + length] {
        write!(out, "{byte:02x}")?;
    }
    writeln!(out)
}
