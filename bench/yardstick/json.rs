//! JSON texts (RFC 8259) without a tree, and the items of an upload's body.
use crate::fields::Sheet;
use std::borrow::Cow;
use std::collections::BTreeMap;
use std::ops::Range;

const MAX_ITEMS: usize = 5_000;
const MAX_DEPTH: u32 = 127;

/// The bytes aren't a JSON text.
pub struct NotJson;

type Read<T> = Result<T, NotJson>;

/// Reads values one after the other at a place of a text.
pub struct Reader<'a> {
    pub text: &'a str,
    pub at: usize,
    depth: u32,
}

/// How many bytes at the front of these stand for themselves in a string: no quote, no backslash and no control
/// character. Eight bytes are looked at at once.
fn plain_length(bytes: &[u8]) -> usize {
    const ONES: u64 = 0x0101_0101_0101_0101;
    const HIGH: u64 = 0x8080_8080_8080_8080;
    let has_zero = |word: u64| word.wrapping_sub(ONES) & !word & HIGH;
    let mut at = 0;
    while let Some(chunk) = bytes.get(at..at + 8) {
        let word = u64::from_le_bytes(chunk.try_into().unwrap());
        let below_space = word.wrapping_sub(ONES * 0x20) & !word & HIGH;
        let found = has_zero(word ^ (ONES * u64::from(b'"')))
            | has_zero(word ^ (ONES * u64::from(b'\\')))
            | below_space;
        if found != 0 {
            return at + found.trailing_zeros() as usize / 8;
        }
        at += 8;
    }
    let rest = &bytes[at..];
    at + rest.iter().position(|&byte| byte < 0x20 || byte == b'"' || byte == b'\\').unwrap_or(rest.len())
}

impl<'a> Reader<'a> {
    pub fn new(text: &'a str) -> Self {
        Reader { text, at: 0, depth: 0 }
    }

    fn peek(&self) -> Option<u8> {
        self.text.as_bytes().get(self.at).copied()
    }

    pub fn take(&mut self, byte: u8) -> Read<()> {
        if self.peek() == Some(byte) {
            self.at += 1;
            return Ok(());
        }
        Err(NotJson)
    }

    /// Takes a text that has to stand here, byte for byte.
    pub fn literal(&mut self, text: &str) -> Read<()> {
        if !self.text.as_bytes()[self.at..].starts_with(text.as_bytes()) {
            return Err(NotJson);
        }
        self.at += text.len();
        Ok(())
    }

    fn blanks(&mut self) {
        while matches!(self.peek(), Some(b' ' | b'\t' | b'\n' | b'\r')) {
            self.at += 1;
        }
    }

    /// The string that stands here. It is borrowed if it has no escapes.
    pub fn string(&mut self) -> Read<Cow<'a, str>> {
        self.take(b'"')?;
        let start = self.at;
        self.at += plain_length(&self.text.as_bytes()[start..]);
        if self.peek() == Some(b'"') {
            self.at += 1;
            return Ok(Cow::Borrowed(&self.text[start..self.at - 1]));
        }
        let mut out = String::from(&self.text[start..self.at]);
        loop {
            match self.peek() {
                Some(b'"') => {
                    self.at += 1;
                    return Ok(Cow::Owned(out));
                }
                Some(b'\\') => out.push(self.escape()?),
                _ => return Err(NotJson),
            }
            let start = self.at;
            self.at += plain_length(&self.text.as_bytes()[start..]);
            out.push_str(&self.text[start..self.at]);
        }
    }

    fn escape(&mut self) -> Read<char> {
        self.at += 1;
        let byte = self.peek().ok_or(NotJson)?;
        self.at += 1;
        Ok(match byte {
            b'"' | b'\\' | b'/' => char::from(byte),
            b'b' => '\u{8}',
            b'f' => '\u{c}',
            b'n' => '\n',
            b'r' => '\r',
            b't' => '\t',
            b'u' => return self.unicode(),
            _ => return Err(NotJson),
        })
    }

    fn four_hex(&mut self) -> Read<u32> {
        let digits = self.text.as_bytes().get(self.at..self.at + 4).ok_or(NotJson)?;
        self.at += 4;
        digits
            .iter()
            .try_fold(0, |number, &byte| Ok(number * 16 + char::from(byte).to_digit(16).ok_or(NotJson)?))
    }

    /// The character after `\u`, which may be a pair of surrogates.
    fn unicode(&mut self) -> Read<char> {
        let first = self.four_hex()?;
        if !(0xd800..0xdc00).contains(&first) {
            return char::from_u32(first).ok_or(NotJson);
        }
        self.literal("\\u")?;
        let second = self.four_hex()?;
        if !(0xdc00..0xe000).contains(&second) {
            return Err(NotJson);
        }
        char::from_u32(0x10000 + ((first - 0xd800) << 10) + (second - 0xdc00)).ok_or(NotJson)
    }

    fn decimals(&mut self) -> Read<()> {
        let start = self.at;
        while matches!(self.peek(), Some(b'0'..=b'9')) {
            self.at += 1;
        }
        if self.at == start { Err(NotJson) } else { Ok(()) }
    }

    fn number(&mut self) -> Read<()> {
        let start = self.at;
        let _ = self.take(b'-');
        if self.take(b'0').is_err() {
            self.decimals()?;
        }
        if self.take(b'.').is_ok() {
            self.decimals()?;
        }
        if matches!(self.peek(), Some(b'e' | b'E')) {
            self.at += 1;
            let _ = self.take(b'+').or_else(|_| self.take(b'-'));
            self.decimals()?;
        }
        let value: f64 = self.text[start..self.at].parse().map_err(|_| NotJson)?;
        if value.is_finite() { Ok(()) } else { Err(NotJson) }
    }

    /// Reads the value that stands here, and drops it.
    fn skip(&mut self) -> Read<()> {
        match self.peek().ok_or(NotJson)? {
            b'"' => self.string().map(|_| ()),
            b'{' => self.members(|reader, _| reader.skip()),
            b'[' => self.elements(Self::skip),
            b't' => self.literal("true"),
            b'f' => self.literal("false"),
            b'n' => self.literal("null"),
            _ => self.number(),
        }
    }

    fn deeper(&mut self) -> Read<()> {
        self.at += 1;
        self.depth += 1;
        if self.depth > MAX_DEPTH {
            return Err(NotJson);
        }
        self.blanks();
        Ok(())
    }

    /// Whether another part follows in a list or an object, which ends in this byte.
    fn goes_on(&mut self, end: u8) -> Read<bool> {
        self.blanks();
        if self.take(b',').is_ok() {
            self.blanks();
            return Ok(true);
        }
        self.depth -= 1;
        self.take(end)?;
        Ok(false)
    }

    /// Reads an object: each member's name, and its value by `value`.
    fn members(&mut self, mut value: impl FnMut(&mut Self, Cow<'a, str>) -> Read<()>) -> Read<()> {
        self.deeper()?;
        if self.peek() == Some(b'}') {
            return self.goes_on(b'}').map(|_| ());
        }
        loop {
            let name = self.string()?;
            self.blanks();
            self.take(b':')?;
            self.blanks();
            value(self, name)?;
            if !self.goes_on(b'}')? {
                return Ok(());
            }
        }
    }

    /// Reads a list, each element by `element`.
    fn elements(&mut self, mut element: impl FnMut(&mut Self) -> Read<()>) -> Read<()> {
        self.deeper()?;
        if self.peek() == Some(b']') {
            return self.goes_on(b']').map(|_| ());
        }
        loop {
            element(self)?;
            if !self.goes_on(b']')? {
                return Ok(());
            }
        }
    }

    /// The text that stands here, or `None` for another value.
    fn text_or_other(&mut self) -> Read<Option<Cow<'a, str>>> {
        if self.peek() == Some(b'"') {
            return self.string().map(Some);
        }
        self.skip().map(|_| None)
    }
}

/// An item of a body: where its fields stand among those of its list, and the least name that isn't a field's.
pub struct Item<'a> {
    pub fields: Range<usize>,
    pub unknown: Option<Cow<'a, str>>,
}

/// The items of one list, and the fields of all of them, each with its place.
pub struct Items<'a> {
    pub sheet: Sheet,
    pub items: Vec<Item<'a>>,
    pub fields: Vec<(usize, Option<Cow<'a, str>>)>,
    count: usize,
    is_wrong: bool,
}

impl<'a> Items<'a> {
    fn new(sheet: Sheet) -> Self {
        Items { sheet, items: Vec::new(), fields: Vec::new(), count: 0, is_wrong: false }
    }

    /// Reads the value of a member, which should be a list of objects.
    fn read(&mut self, reader: &mut Reader<'a>) -> Read<()> {
        *self = Items::new(self.sheet);
        if reader.peek() != Some(b'[') {
            self.is_wrong = true;
            return reader.skip();
        }
        reader.elements(|reader| self.read_item(reader))
    }

    fn read_item(&mut self, reader: &mut Reader<'a>) -> Read<()> {
        if reader.peek() != Some(b'{') {
            self.is_wrong = true;
            return reader.skip();
        }
        let start = self.fields.len();
        let mut seen = 0_u32;
        let mut strangers: BTreeMap<Cow<'a, str>, bool> = BTreeMap::new();
        reader.members(|reader, name| {
            let place = self.sheet.place_of(&name);
            let value = reader.text_or_other()?;
            match place {
                // The last value of a name counts.
                Some(place) if seen >> place & 1 == 1 => {
                    let before = self.fields[start..].iter_mut().find(|field| field.0 == place);
                    *before.expect("it was seen") = (place, value);
                }
                Some(place) => {
                    seen |= 1 << place;
                    self.fields.push((place, value));
                }
                None => _ = strangers.insert(name, value.is_some()),
            }
            Ok(())
        })?;
        self.is_wrong |= strangers.values().any(|is_text| !is_text);
        self.is_wrong |= self.fields[start..].iter().any(|(_, text)| text.is_none());
        self.count += 1;
        if self.count > MAX_ITEMS {
            self.fields.truncate(start);
        } else {
            let unknown = strangers.pop_first().map(|(name, _)| name);
            self.items.push(Item { fields: start..self.fields.len(), unknown });
        }
        Ok(())
    }
}

/// The items of a body, list by list, or the fault that it has.
pub fn read_upload(body: &[u8]) -> Result<[Items<'_>; 2], &'static str> {
    let mut lists = [Sheet::Lei, Sheet::Rr].map(Items::new);
    let mut is_wrong = false;
    read_members(body, &mut lists, &mut is_wrong).map_err(|_| "NOT_JSON")?;
    if is_wrong || lists.iter().any(|list| list.is_wrong) {
        return Err("NOT_AN_UPLOAD");
    }
    match lists.iter().map(|list| list.count).sum() {
        0 => Err("NO_ITEMS"),
        1..=MAX_ITEMS => Ok(lists),
        _ => Err("TOO_MANY_ITEMS"),
    }
}

fn read_members<'a>(body: &'a [u8], lists: &mut [Items<'a>; 2], is_wrong: &mut bool) -> Read<()> {
    let mut reader = Reader::new(std::str::from_utf8(body).map_err(|_| NotJson)?);
    reader.blanks();
    if reader.peek() == Some(b'{') {
        reader.members(|reader, name| match &*name {
            "records" => lists[0].read(reader),
            "relationships" => lists[1].read(reader),
            _ => {
                *is_wrong = true;
                reader.skip()
            }
        })?;
    } else {
        *is_wrong = true;
        reader.skip()?;
    }
    reader.blanks();
    if reader.at == reader.text.len() { Ok(()) } else { Err(NotJson) }
}

/// Puts a text after another one as a JSON string.
pub fn put_string(out: &mut String, text: &str) {
    out.push('"');
    let mut rest = text;
    loop {
        let length = plain_length(rest.as_bytes());
        out.push_str(&rest[..length]);
        let Some(&byte) = rest.as_bytes().get(length) else { break };
        match byte {
            b'"' => out.push_str("\\\""),
            b'\\' => out.push_str("\\\\"),
            8 => out.push_str("\\b"),
            b'\t' => out.push_str("\\t"),
            b'\n' => out.push_str("\\n"),
            12 => out.push_str("\\f"),
            b'\r' => out.push_str("\\r"),
            _ => out.push_str(&format!("\\u{byte:04x}")),
        }
        rest = &rest[length + 1..];
    }
    out.push('"');
}
