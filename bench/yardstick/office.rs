//! The register: issuers and what was answered to them, the table, and publications.
use crate::fields::{Code, Sheet, day, put_moment};
use crate::json::{put_string, read_upload};
use crate::rows::{Form, Head, Rows, copy_text, delta_text, put_object};
use crate::rules::{Fault, Sitting, Table, ready_all};
use std::collections::HashMap;
use std::collections::hash_map::Entry;
use std::sync::Arc;

pub const MAX_BODY: usize = 4_194_304;
const MAX_ENTRIES: u64 = 10_000_000;
const MAX_KEPT: u64 = 2_147_483_648;

pub enum Request<'a> {
    Accredit(Code),
    Upload(Code, u32, &'a [u8]),
    Publish(u32),
    Show(Code),
    Copy(Sheet, Form),
    Status,
}

pub enum Reply {
    /// A refusal's words.
    Words(u16, &'static str),
    Text(u16, String),
    /// What was answered when the entry was made.
    Kept(u16, Arc<str>),
    /// A golden copy.
    File(String),
}

struct Issuer {
    answer: Arc<str>,
    /// The bodies that were taken, and what was answered to each.
    uploads: Vec<(Box<[u8]>, Arc<str>)>,
}

struct Publication {
    moment: i64,
    answer: Arc<str>,
    sheets: [Rows; 2],
}

#[derive(Default)]
pub struct Office {
    issuers: HashMap<Code, Issuer>,
    table: Table,
    publications: Vec<Publication>,
    entries: u64,
    kept_bytes: u64,
    last_moment: i64,
    /// Whether an upload came after the latest publication.
    is_changed: bool,
}

fn number_ahead(next: usize) -> Reply {
    Reply::Text(409, format!("NUMBER_AHEAD {next}"))
}

const LEDGER_FULL: Reply = Reply::Words(507, "LEDGER_FULL");

impl Office {
    pub fn entries(&self) -> u64 {
        self.entries
    }

    /// Answers a request that comes at a moment.
    pub fn answer(&mut self, request: Request<'_>, moment: i64) -> Reply {
        let moment = if self.entries == 0 { moment } else { moment.max(self.last_moment) };
        match request {
            Request::Accredit(lei) => self.accredit(lei, moment),
            Request::Upload(lei, number, body) => self.upload(lei, number, body, moment),
            Request::Publish(number) => self.publish(number, moment),
            Request::Show(lei) => self.show(lei),
            Request::Copy(sheet, form) => self.copy(sheet, form),
            Request::Status => self.status(),
        }
    }

    fn add_entry(&mut self, moment: i64) {
        self.entries += 1;
        self.last_moment = moment;
    }

    fn accredit(&mut self, lei: Code, moment: i64) -> Reply {
        let is_full = self.entries >= MAX_ENTRIES;
        let place = match self.issuers.entry(lei) {
            Entry::Occupied(issuer) => return Reply::Kept(200, issuer.get().answer.clone()),
            Entry::Vacant(_) if is_full => return LEDGER_FULL,
            Entry::Vacant(place) => place,
        };
        let text =
            format!("{{\"entry\":{},\"issuer\":\"{}\"}}", self.entries + 1, String::from_utf8_lossy(&lei));
        let answer: Arc<str> = text.into();
        place.insert(Issuer { answer: answer.clone(), uploads: Vec::new() });
        self.add_entry(moment);
        Reply::Kept(200, answer)
    }

    fn upload(&mut self, lei: Code, number: u32, body: &[u8], moment: i64) -> Reply {
        if body.len() > MAX_BODY {
            return Reply::Words(413, "TOO_LONG");
        }
        let Some(issuer) = self.issuers.get(&lei) else { return Reply::Words(404, "ISSUER_UNKNOWN") };
        let taken = issuer.uploads.len();
        match issuer.uploads.get(number as usize - 1) {
            Some((kept, answer)) if **kept == *body => return Reply::Kept(200, answer.clone()),
            Some(_) => return Reply::Words(409, "NUMBER_TAKEN"),
            None if number as usize > taken + 1 => return number_ahead(taken + 1),
            None => {}
        }
        let lists = match read_upload(body) {
            Ok(lists) => lists,
            Err(fault) => return Reply::Text(400, format!("MALFORMED {fault}")),
        };
        if self.entries >= MAX_ENTRIES || self.kept_bytes + body.len() as u64 > MAX_KEPT {
            return LEDGER_FULL;
        }
        let sitting = Sitting { uploader: lei, today: day(moment) };
        let verdicts =
            lists.iter().flat_map(ready_all).map(|item| self.table.take(item?, &sitting)).collect();
        let answer: Arc<str> = upload_answer(self.entries + 1, &lei, verdicts, number).into();
        let issuer = self.issuers.get_mut(&lei).expect("it was found");
        issuer.uploads.push((body.into(), answer.clone()));
        self.kept_bytes += body.len() as u64;
        self.is_changed = true;
        self.add_entry(moment);
        Reply::Kept(200, answer)
    }

    fn publish(&mut self, number: u32, moment: i64) -> Reply {
        let made = self.publications.len();
        match self.publications.get(number as usize - 1) {
            Some(publication) => return Reply::Kept(201, publication.answer.clone()),
            None if number as usize > made + 1 => return number_ahead(made + 1),
            None if self.entries >= MAX_ENTRIES => return LEDGER_FULL,
            None => {}
        }
        let sheets = match self.publications.last() {
            Some(latest) if !self.is_changed => latest.sheets.clone(),
            _ => [Sheet::Lei, Sheet::Rr].map(|sheet| Arc::new(self.table.rows(sheet))),
        };
        let mut text = String::from("{\"contentDate\":\"");
        put_moment(&mut text, moment);
        let ([lei, rr], entry) = ([0, 1].map(|at| sheets[at].len()), self.entries + 1);
        text +=
            &format!("\",\"entry\":{entry},\"lei\":{lei},\"publication\":{number},\"repex\":0,\"rr\":{rr}}}");
        let answer: Arc<str> = text.into();
        self.publications.push(Publication { moment, answer: answer.clone(), sheets });
        self.is_changed = false;
        self.add_entry(moment);
        Reply::Kept(201, answer)
    }

    fn show(&self, lei: Code) -> Reply {
        let Some(record) = self.table.records.get(&lei) else { return Reply::Words(404, "LEI_UNKNOWN") };
        let mut text = String::new();
        put_object(&mut text, Sheet::Lei, &record.texts);
        Reply::Text(200, text)
    }

    fn copy(&self, sheet: Sheet, form: Form) -> Reply {
        let Some(latest) = self.publications.last() else { return Reply::Words(404, "NOTHING_PUBLISHED") };
        let head = Head { moment: latest.moment, from: None, publication: self.publications.len() };
        Reply::File(copy_text(sheet, form, &head, &latest.sheets[sheet as usize]))
    }

    /// The delta in CSV from the publication of a number to the latest one. Both have to be there.
    pub fn delta(&self, from: usize, sheet: Sheet) -> String {
        let [earlier, later] = [from, self.publications.len()]
            .map(|number| &self.publications[number - 1].sheets[sheet as usize]);
        delta_text(sheet, earlier, later)
    }

    fn status(&self) -> Reply {
        let (entries, issuers, kept) = (self.entries, self.issuers.len(), self.kept_bytes);
        let (records, relationships) = (self.table.records.len(), self.table.relationships.len());
        let publications = self.publications.len();
        let text = format!(
            "{{\"entries\":{entries},\"exceptions\":0,\"issuers\":{issuers},\"keptBytes\":{kept},\
             \"publications\":{publications},\"records\":{records},\"relationships\":{relationships}}}"
        );
        Reply::Text(200, text)
    }
}

fn upload_answer(entry: u64, lei: &Code, verdicts: Vec<Result<(), Fault>>, number: u32) -> String {
    let mut text = format!("{{\"entry\":{entry},\"issuer\":\"{}\",\"items\":", String::from_utf8_lossy(lei));
    let mut separator = '[';
    for verdict in verdicts {
        text.push(separator);
        match verdict {
            Ok(()) => text.push_str("\"ACCEPTED\""),
            Err(fault) => put_string(&mut text, &fault),
        }
        separator = ',';
    }
    text + &format!("],\"number\":{number}}}")
}

impl Reply {
    pub fn status(&self) -> u16 {
        match self {
            Reply::Words(status, _) | Reply::Text(status, _) | Reply::Kept(status, _) => *status,
            Reply::File(_) => 200,
        }
    }

    pub fn text(&self) -> &str {
        match self {
            Reply::Words(_, text) => text,
            Reply::Text(_, text) | Reply::File(text) => text,
            Reply::Kept(_, text) => text,
        }
    }
}
