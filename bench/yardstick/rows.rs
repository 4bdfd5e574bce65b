//! Rows as they are held and published, and their texts in golden copies and deltas.
use crate::fields::{Sheet, put_moment};
use crate::json::put_string;
use std::cmp::Ordering;
use std::sync::Arc;

#[derive(Clone, Copy, PartialEq, Eq)]
pub enum Form {
    Csv,
    Json,
}

/// The texts of a row in one piece, with the end of each. A record has at most 25,000 bytes.
#[derive(PartialEq)]
pub struct Texts {
    joined: Box<str>,
    ends: [u16; 32],
}

impl Texts {
    /// The row of these texts. A moment stands in it as it is printed.
    pub fn of(texts: &[&str; 32], moments: &[Option<i64>; 32], width: usize) -> Self {
        let length = |place: usize| if moments[place].is_some() { 20 } else { texts[place].len() };
        let mut joined = String::with_capacity((0..width).map(length).sum());
        let mut ends = [0; 32];
        for place in 0..width {
            match moments[place] {
                Some(moment) => put_moment(&mut joined, moment),
                None => joined.push_str(texts[place]),
            }
            ends[place] = joined.len() as u16;
        }
        Texts { joined: joined.into_boxed_str(), ends }
    }

    pub fn get(&self, place: usize) -> &str {
        self.span(place, place)
    }

    /// The texts from one place to another, behind one another.
    pub fn span(&self, first: usize, last: usize) -> &str {
        let start = if first == 0 { 0 } else { self.ends[first - 1] };
        &self.joined[usize::from(start)..usize::from(self.ends[last])]
    }

    /// How the keys of two rows stand to each other.
    pub fn by_key(&self, other: &Self, sheet: Sheet) -> Ordering {
        let places = 0..sheet.key_width();
        places.clone().map(|place| self.get(place)).cmp(places.map(|place| other.get(place)))
    }
}

/// The rows of a publication's sheet, by their keys. Rows are shared with the table and with other publications.
pub type Rows = Arc<Vec<Arc<Texts>>>;

/// What changed at a key.
enum Change<'a> {
    Put(&'a Texts),
    Drop(&'a Texts),
}

/// The numbers and the moment at the front of a file in JSON. A copy is from no other publication.
pub struct Head {
    pub moment: i64,
    pub from: Option<usize>,
    pub publication: usize,
}

fn put_field(out: &mut String, text: &str) {
    out.push('"');
    for (at, part) in text.split('"').enumerate() {
        if at > 0 {
            out.push_str("\"\"");
        }
        out.push_str(part);
    }
    out.push('"');
}

/// Puts the fields of a row in CSV, of which those from a place on are left empty, and the end of the line.
fn put_line(out: &mut String, sheet: Sheet, row: &Texts, present: usize) {
    for place in 0..sheet.fields().len() {
        if place > 0 {
            out.push(',');
        }
        put_field(out, if place < present { row.get(place) } else { "" });
    }
    out.push('\n');
}

/// The first line of a file in CSV of so many columns.
pub fn csv_names(sheet: Sheet, width: usize, is_delta: bool) -> String {
    let action = if is_delta { Some("Delta.Action") } else { None };
    let names = action.into_iter().chain(sheet.fields()[..width].iter().map(|field| field.name));
    let quoted: Vec<String> = names.map(|name| format!("\"{name}\"")).collect();
    quoted.join(",") + "\n"
}

/// Puts a row as an object of its present fields.
pub fn put_object(out: &mut String, sheet: Sheet, row: &Texts) {
    let mut separator = '{';
    for &place in sheet.by_name() {
        let text = row.get(place);
        if !text.is_empty() {
            out.push(separator);
            put_string(out, sheet.fields()[place].name);
            out.push(':');
            put_string(out, text);
            separator = ',';
        }
    }
    out.push('}');
}

/// The front of a file in JSON, up to its records.
pub fn json_front(head: &Head, count: usize) -> String {
    let mut out = String::from("{\"contentDate\":\"");
    put_moment(&mut out, head.moment);
    out.push('"');
    if let Some(from) = head.from {
        out += &format!(",\"fromPublication\":{from}");
    }
    out + &format!(",\"publication\":{},\"recordCount\":{count},\"records\":[", head.publication)
}

/// The golden copy of these rows.
pub fn copy_text(sheet: Sheet, form: Form, head: &Head, rows: &Rows) -> String {
    if form == Form::Csv {
        let mut out = csv_names(sheet, sheet.fields().len(), false);
        rows.iter().for_each(|row| put_line(&mut out, sheet, row, sheet.fields().len()));
        return out;
    }
    let mut out = json_front(head, rows.len());
    for (at, row) in rows.iter().enumerate() {
        if at > 0 {
            out.push(',');
        }
        put_object(&mut out, sheet, row);
    }
    out + "]}"
}

/// What changed from one list of rows to another, by keys.
fn changes<'a>(sheet: Sheet, earlier: &'a Rows, later: &'a Rows) -> Vec<Change<'a>> {
    if Arc::ptr_eq(earlier, later) {
        return Vec::new();
    }
    let (mut left, mut right) = (earlier.iter().peekable(), later.iter().peekable());
    let mut found = Vec::new();
    loop {
        let order = match (left.peek(), right.peek()) {
            (None, None) => return found,
            (Some(_), None) => Ordering::Less,
            (None, Some(_)) => Ordering::Greater,
            (Some(old), Some(new)) => old.by_key(new, sheet),
        };
        let old = if order.is_le() { left.next() } else { None };
        let new = if order.is_ge() { right.next() } else { None };
        match (old, new) {
            (Some(old), None) => found.push(Change::Drop(old)),
            (Some(old), Some(new)) if Arc::ptr_eq(old, new) || old == new => {}
            (_, Some(new)) => found.push(Change::Put(new)),
            (None, None) => unreachable!(),
        }
    }
}

/// The delta in CSV from one list of rows to another.
pub fn delta_text(sheet: Sheet, earlier: &Rows, later: &Rows) -> String {
    let mut out = csv_names(sheet, sheet.fields().len(), true);
    for change in changes(sheet, earlier, later) {
        let (action, row, present) = match change {
            Change::Put(row) => ("\"PUT\",", row, sheet.fields().len()),
            Change::Drop(row) => ("\"DROP\",", row, sheet.key_width()),
        };
        out.push_str(action);
        put_line(&mut out, sheet, row, present);
    }
    out
}
