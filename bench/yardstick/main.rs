//! A yardstick for the speed of `leireg`: a plain Rust program over std alone that answers the same lines.
//!
//! Nothing of the product stands on it, and nothing is proved of it. `bench/run` compiles it, measures it beside
//! the register, and compares what both write with what the documents say, byte by byte.
//!
//!     yardstick lines [MOMENT..]                answers the lines of the standard input
//!     yardstick demo N                          makes up a register of N records
//!     yardstick apply TABLE FORM COPY DELTA     patches a golden copy by a delta
//!
//! It does the work of these commands as docs/FORMATS.md and docs/RULES.md have them. Bodies are read without a
//! tree, their texts are borrowed, and 2,048 items or more are checked in several threads. Records, authority keys
//! and relationships are found by hash maps. Rows are held once, and shared with the publications. Each body that
//! is taken is kept, so that a repeat is compared with it. Each reply is written before the next line is read.
//! Records and relationships get all their checks by rules 3, but for C40, which asks for an exception.
//!
//! It knows no exceptions, so that a body with the member `exceptions` is no upload; no `KEPT` and `DELTA`; no
//! store, no HTTP, no rules 1 and 2, no `check` and `digits`. Its moments are those of RFC 3339, without what
//! `jiff` takes beyond them. A publication after a change sorts all rows anew. The program ends at a fault of
//! reading or writing, and where memory runs out. MOMENTs are those that the requests get, the last one again and
//! again, in the place of the clock's: with them it can be held against the worked examples.
mod apply;
mod demo;
mod fields;
mod json;
mod office;
mod rows;
mod rules;

use fields::{Code, Sheet, lei_of, moment_of};
use office::{MAX_BODY, Office, Reply, Request};
use rows::Form;
use std::io::{self, BufRead, BufReader, BufWriter, Read, Write};
use std::process::exit;
use std::time::{SystemTime, UNIX_EPOCH};
use std::{env, fs};

/// The longest line without its end: an upload with the greatest number and the longest body.
const MAX_LINE: usize = MAX_BODY + 36;
const BLOCK: usize = 65_536;

const TOO_LONG: Reply = Reply::Words(413, "TOO_LONG");
const NO_ROUTE: Reply = Reply::Words(404, "NO_ROUTE");
const PATH: Reply = Reply::Words(400, "PATH");

fn sheet_of(word: &[u8]) -> Option<Sheet> {
    match word {
        b"lei" => Some(Sheet::Lei),
        b"rr" => Some(Sheet::Rr),
        _ => None,
    }
}

fn form_of(word: &[u8]) -> Option<Form> {
    match word {
        b"csv" => Some(Form::Csv),
        b"json" => Some(Form::Json),
        _ => None,
    }
}

/// A decimal number without sign or leading zero, from 1 to 1,000,000.
fn number_of(word: &[u8]) -> Option<u32> {
    let fits = word.len() <= 7
        && word.iter().all(u8::is_ascii_digit)
        && word.first().is_some_and(|&byte| byte != b'0');
    let number = if fits { std::str::from_utf8(word).ok()?.parse().ok()? } else { 0 };
    (1..=1_000_000).contains(&number).then_some(number)
}

/// The request that a line is, after its first word.
fn request<'a>(first: &[u8], rest: Option<&'a [u8]>) -> Result<Request<'a>, Reply> {
    let mut words = rest
        .into_iter()
        .flat_map(|rest| rest.splitn(if first == b"UPLOAD" { 3 } else { usize::MAX }, |&byte| byte == b' '));
    let mut next = || words.next().ok_or(PATH);
    let lei = |word: &[u8]| -> Result<Code, Reply> { lei_of(word).ok_or(PATH) };
    let asked = match first {
        b"ACCREDIT" => Request::Accredit(lei(next()?)?),
        b"UPLOAD" => {
            let (lou, number, body) = (next()?, next()?, next()?);
            Request::Upload(lei(lou)?, number_of(number).ok_or(PATH)?, body)
        }
        b"PUBLISH" => Request::Publish(number_of(next()?).ok_or(PATH)?),
        b"SHOW" => Request::Show(lei(next()?)?),
        b"COPY" => Request::Copy(sheet_of(next()?).ok_or(PATH)?, form_of(next()?).ok_or(PATH)?),
        b"STATUS" => Request::Status,
        _ => return Err(NO_ROUTE),
    };
    if next().is_ok() { Err(PATH) } else { Ok(asked) }
}

/// Reads a line into a buffer, without its end, and says whether it is too long; or nothing at the end of the input.
fn read_line(input: &mut impl BufRead, line: &mut Vec<u8>) -> io::Result<Option<bool>> {
    line.clear();
    input.take(MAX_LINE as u64 + 2).read_until(b'\n', line)?;
    if line.is_empty() {
        return Ok(None);
    }
    let mut has_end = line.pop_if(|byte| *byte == b'\n').is_some();
    if has_end {
        line.pop_if(|byte| *byte == b'\r');
    }
    let is_too_long = line.len() > MAX_LINE;
    let mut dropped = Vec::new();
    while is_too_long && !has_end && input.take(BLOCK as u64).read_until(b'\n', &mut dropped)? > 0 {
        has_end = dropped.ends_with(b"\n");
        dropped.clear();
    }
    Ok(Some(is_too_long))
}

fn write_reply(out: &mut impl Write, reply: &Reply) -> io::Result<()> {
    if let Reply::File(text) = reply {
        writeln!(out, "{} {}", reply.status(), text.len())?;
        return writeln!(out, "{text}");
    }
    writeln!(out, "{} {}", reply.status(), reply.text())
}

/// Answers each line of the input. The reply to a request is written before the next line is read.
fn lines(office: &mut Office, moments: &[i64]) -> io::Result<()> {
    let mut input = BufReader::with_capacity(BLOCK, io::stdin().lock());
    let mut out = BufWriter::with_capacity(BLOCK, io::stdout().lock());
    let mut line = Vec::new();
    let mut asked = 0;
    while let Some(is_too_long) = read_line(&mut input, &mut line)? {
        if is_too_long {
            write_reply(&mut out, &TOO_LONG)?;
            continue;
        }
        if line.is_empty() {
            continue;
        }
        let mut words = line.splitn(2, |&byte| byte == b' ');
        let first = words.next().unwrap_or_default();
        match request(first, words.next()) {
            Ok(request) => {
                let moment = moments.get(asked).or(moments.last()).copied().unwrap_or_else(now);
                asked += 1;
                write_reply(&mut out, &office.answer(request, moment))?;
                out.flush()?;
            }
            Err(refusal) => write_reply(&mut out, &refusal)?,
        }
    }
    out.flush()
}

fn now() -> i64 {
    SystemTime::now().duration_since(UNIX_EPOCH).map_or(0, |time| time.as_secs() as i64)
}

/// Writes the copy after a delta or why there is none, and says whether there is one.
fn patch(sheet: Sheet, form: Form, copy: &str, delta: &str) -> io::Result<bool> {
    let (copy, delta) = (fs::read(copy)?, fs::read(delta)?);
    let mut out = BufWriter::with_capacity(BLOCK, io::stdout().lock());
    let done = apply::apply(&mut out, sheet, form, &copy, &delta)?;
    if let Err(words) = &done {
        writeln!(out, "{words}")?;
    }
    out.flush()?;
    Ok(done.is_ok())
}

/// Runs the command of these words, and says the status with which the program ends.
fn run(words: &[&str], office: &mut Office) -> io::Result<i32> {
    match words {
        ["lines", moments @ ..] => {
            let moments: Option<Vec<i64>> = moments.iter().map(|text| moment_of(text)).collect();
            let Some(moments) = moments else { return Ok(1) };
            lines(office, &moments)?;
        }
        ["demo", number] => {
            let Some(records) = number_of(number.as_bytes()).filter(|number| (2..=100_000).contains(number))
            else {
                return Ok(1);
            };
            print!("{}", demo::demo(office, records));
        }
        ["apply", sheet, form, copy, delta] => {
            let (Some(sheet), Some(form)) = (sheet_of(sheet.as_bytes()), form_of(form.as_bytes())) else {
                return Ok(1);
            };
            return Ok(if patch(sheet, form, copy, delta)? { 0 } else { 2 });
        }
        _ => return Ok(1),
    }
    Ok(0)
}

fn main() {
    let words: Vec<String> = env::args().skip(1).collect();
    let words: Vec<&str> = words.iter().map(String::as_str).collect();
    // The program ends with the register as it is: nothing takes it apart.
    let mut office = Office::default();
    exit(run(&words, &mut office).unwrap_or_else(|fault| {
        eprintln!("{fault}");
        3
    }));
}
