//! Golden copies and deltas as they are read, and copies after deltas.
//!
//! A file is read only if it is what would be printed of its rows, so the text of a row is taken as it stands.
use crate::fields::{Sheet, moment_of, put_moment};
use crate::json::{Reader, put_string};
use crate::rows::{Form, Head, csv_names, json_front};
use std::borrow::Cow;
use std::cmp::Ordering;
use std::io::{self, Write};

const MAX_NUMBER: usize = 1_000_000;
const NO_EVENT: &str = ",\"\",\"\",\"\",\"\"";

type Key<'a> = [Cow<'a, str>; 3];

/// A row of a copy, or a change of a delta: its key, and its text as it stands in a copy.
struct Line<'a> {
    key: Key<'a>,
    is_drop: bool,
    text: &'a str,
}

struct File<'a> {
    head: Head,
    /// The columns in CSV.
    width: usize,
    lines: Vec<Line<'a>>,
}

/// What is asked for: a sheet in a form, and whether it is a delta.
#[derive(Clone, Copy)]
struct Kind {
    sheet: Sheet,
    form: Form,
    is_delta: bool,
}

/// The field in quotes at a place of a text, and the place after it.
fn csv_field(text: &str, start: usize) -> Option<(Cow<'_, str>, usize)> {
    let bytes = text.as_bytes();
    if bytes.get(start) != Some(&b'"') {
        return None;
    }
    let (first, mut at, mut has_quote) = (start + 1, start + 1, false);
    loop {
        at += bytes[at..].iter().position(|&byte| byte == b'"')?;
        if bytes.get(at + 1) != Some(&b'"') {
            break;
        }
        has_quote = true;
        at += 2;
    }
    let field = &text[first..at];
    let read = if has_quote { Cow::Owned(field.replace("\"\"", "\"")) } else { Cow::Borrowed(field) };
    Some((read, at + 1))
}

/// The line at a place of a text, and the place after it.
fn csv_line(text: &str, start: usize, kind: Kind, width: usize) -> Option<(Line<'_>, usize)> {
    let mut at = start;
    let mut is_drop = false;
    if kind.is_delta {
        is_drop = text[at..].starts_with("\"DROP\",");
        at += if is_drop { 7 } else { 6 };
        if !is_drop && !text[start..].starts_with("\"PUT\",") {
            return None;
        }
    }
    let row = at;
    let mut key = Key::default();
    for place in 0..width {
        let (field, end) = csv_field(text, at)?;
        let separator = if place + 1 == width { b'\n' } else { b',' };
        if text.as_bytes().get(end) != Some(&separator) {
            return None;
        }
        if place < kind.sheet.key_width() {
            key[place] = field;
        } else if is_drop && !field.is_empty() {
            return None;
        }
        at = end + 1;
    }
    Some((Line { key, is_drop, text: &text[row..at - 1] }, at))
}

fn read_csv(text: &str, kind: Kind) -> Option<File<'_>> {
    let widths = if kind.sheet == Sheet::Lei { vec![28, 32] } else { vec![kind.sheet.fields().len()] };
    let (width, front) = widths.into_iter().find_map(|width| {
        let names = csv_names(kind.sheet, width, kind.is_delta);
        text.starts_with(&names).then_some((width, names.len()))
    })?;
    let mut lines: Vec<Line<'_>> = Vec::new();
    let mut at = front;
    while at < text.len() {
        let (line, end) = csv_line(text, at, kind, width)?;
        if lines.last().is_some_and(|before| before.key >= line.key) {
            return None;
        }
        lines.push(line);
        at = end;
    }
    Some(File { head: Head { moment: 0, from: None, publication: 0 }, width, lines })
}

/// A string that has exactly the escapes with which it is printed.
fn json_string<'a>(reader: &mut Reader<'a>) -> Option<Cow<'a, str>> {
    let start = reader.at;
    let text = reader.string().ok()?;
    if let Cow::Owned(text) = &text {
        let mut printed = String::new();
        put_string(&mut printed, text);
        if printed != reader.text[start..reader.at] {
            return None;
        }
    }
    Some(text)
}

/// A number without sign or leading zero.
fn json_number(reader: &mut Reader<'_>) -> Option<usize> {
    let rest = &reader.text[reader.at..];
    let length = rest.bytes().take_while(u8::is_ascii_digit).count();
    reader.at += length;
    let digits = &rest[..length];
    if digits.len() > 1 && digits.starts_with('0') { None } else { digits.parse().ok() }
}

/// A member of a head, whose value is a publication's number.
fn json_publication(reader: &mut Reader<'_>, name: &str) -> Option<usize> {
    reader.literal(name).ok()?;
    json_number(reader).filter(|number| (1..=MAX_NUMBER).contains(number))
}

/// The head of a file, and how many records it says that there are.
fn json_head(reader: &mut Reader<'_>, is_delta: bool) -> Option<(Head, usize)> {
    reader.literal("{\"contentDate\":").ok()?;
    let date = json_string(reader)?;
    let moment = moment_of(&date)?;
    let mut printed = String::new();
    put_moment(&mut printed, moment);
    if printed != date {
        return None;
    }
    let from = if is_delta { Some(json_publication(reader, ",\"fromPublication\":")?) } else { None };
    let publication = json_publication(reader, ",\"publication\":")?;
    reader.literal(",\"recordCount\":").ok()?;
    let count = json_number(reader)?;
    reader.literal(",\"records\":[").ok()?;
    Some((Head { moment, from, publication }, count))
}

/// The object of a row's present fields, of which only those of the key stand in a drop.
fn json_object<'a>(reader: &mut Reader<'a>, sheet: Sheet, is_drop: bool) -> Option<Line<'a>> {
    let start = reader.at;
    let mut key = Key::default();
    reader.take(b'{').ok()?;
    let mut names = sheet.by_name().iter();
    let mut is_first = true;
    while reader.take(b'}').is_err() {
        if !is_first {
            reader.take(b',').ok()?;
        }
        is_first = false;
        let name = json_string(reader)?;
        let &place = names.find(|&&place| sheet.fields()[place].name == name)?;
        reader.take(b':').ok()?;
        let text = json_string(reader)?;
        if text.is_empty() || is_drop && place >= sheet.key_width() {
            return None;
        }
        if place < sheet.key_width() {
            key[place] = text;
        }
    }
    Some(Line { key, is_drop, text: &reader.text[start..reader.at] })
}

fn json_line<'a>(reader: &mut Reader<'a>, kind: Kind) -> Option<Line<'a>> {
    if !kind.is_delta {
        return json_object(reader, kind.sheet, false);
    }
    reader.literal("{\"action\":\"").ok()?;
    let is_drop = reader.literal("DROP\",\"record\":").is_ok();
    if !is_drop {
        reader.literal("PUT\",\"record\":").ok()?;
    }
    let line = json_object(reader, kind.sheet, is_drop)?;
    reader.take(b'}').ok()?;
    Some(line)
}

fn read_json(text: &str, kind: Kind) -> Option<File<'_>> {
    let mut reader = Reader::new(text);
    let (head, count) = json_head(&mut reader, kind.is_delta)?;
    let mut lines: Vec<Line<'_>> = Vec::new();
    while reader.take(b']').is_err() {
        if !lines.is_empty() {
            reader.take(b',').ok()?;
        }
        let line = json_line(&mut reader, kind)?;
        if lines.last().is_some_and(|before| before.key >= line.key) {
            return None;
        }
        lines.push(line);
    }
    reader.take(b'}').ok()?;
    (lines.len() == count && reader.at == text.len()).then_some(File {
        head,
        width: kind.sheet.fields().len(),
        lines,
    })
}

fn read(bytes: &[u8], kind: Kind) -> Option<File<'_>> {
    let text = std::str::from_utf8(bytes).ok()?;
    match kind.form {
        Form::Csv => read_csv(text, kind),
        Form::Json => read_json(text, kind),
    }
}

/// The texts of a copy's rows after a delta. Those that stay have this text after them.
fn patch_rows<'a>(
    copy: &[Line<'a>],
    delta: &[Line<'a>],
    stays: &'static str,
) -> Vec<(&'a str, &'static str)> {
    let (mut left, mut right) = (copy.iter().peekable(), delta.iter().peekable());
    let mut rows = Vec::with_capacity(copy.len() + delta.len());
    loop {
        let order = match (left.peek(), right.peek()) {
            (None, None) => return rows,
            (Some(_), None) => Ordering::Less,
            (None, Some(_)) => Ordering::Greater,
            (Some(row), Some(change)) => row.key.cmp(&change.key),
        };
        let row = if order.is_le() { left.next() } else { None };
        let change = if order.is_ge() { right.next() } else { None };
        match (row, change) {
            (Some(row), None) => rows.push((row.text, stays)),
            (_, Some(change)) if !change.is_drop => rows.push((change.text, "")),
            _ => {}
        }
    }
}

/// Writes the copy after a delta, or gives the words that say why there is none.
pub fn apply(
    out: &mut impl Write,
    sheet: Sheet,
    form: Form,
    copy: &[u8],
    delta: &[u8],
) -> io::Result<Result<(), String>> {
    let refused = |words: &str| Ok(Err(format!("refused {words}")));
    let Some(copy) = read(copy, Kind { sheet, form, is_delta: false }) else {
        return refused("COPY_NOT_READ");
    };
    let Some(delta) = read(delta, Kind { sheet, form, is_delta: true }) else {
        return refused("DELTA_NOT_READ");
    };
    if let Some(from) = delta.head.from.filter(|&from| from != copy.head.publication) {
        return refused(&format!("WRONG_BASE {} {from}", copy.head.publication));
    }
    if copy.width > delta.width {
        return refused("OLDER_DELTA");
    }
    let rows = patch_rows(&copy.lines, &delta.lines, if copy.width < delta.width { NO_EVENT } else { "" });
    let (front, separator, end) = match form {
        Form::Csv => (csv_names(sheet, delta.width, false), "", ""),
        Form::Json => (json_front(&Head { from: None, ..delta.head }, rows.len()), ",", "]}"),
    };
    out.write_all(front.as_bytes())?;
    for (at, (text, more)) in rows.into_iter().enumerate() {
        let line_end = if form == Form::Csv { "\n" } else { "" };
        for part in [if at > 0 { separator } else { "" }, text, more, line_end] {
            out.write_all(part.as_bytes())?;
        }
    }
    out.write_all(end.as_bytes())?;
    Ok(Ok(()))
}
