//! The checks of items, by themselves and on the table, and the table. docs/RULES.md has them by their numbers.
use crate::fields::{
    Code, RELATIONSHIPS, STATUSES, Shape, Sheet, at, day, has_check_digits, has_shape, moment_of,
};
use crate::json::{Item, Items};
use crate::rows::Texts;
use std::borrow::Cow;
use std::collections::{HashMap, HashSet};
use std::sync::Arc;
use std::thread;

const MAX_RECORDS: usize = 500_000;
const MAX_WALK: usize = 200;
const FEW_ITEMS: usize = 2_048;

/// Why an item is rejected: the check, and what it reports.
pub type Fault = Cow<'static, str>;

/// Places of a relationship's texts.
const RELATIONSHIP_STATUS: usize = 3;
const REGISTRATION: usize = 8;
const RELATIONSHIP_MANAGER: usize = 9;

/// Types of relationships as their places in the list.
const DIRECT: usize = 0;
const ULTIMATE: usize = 1;
const BRANCH: usize = 2;

/// The texts of an item by place, an absent one empty, and the moments among them.
struct Slots<'a> {
    texts: [&'a str; 32],
    moments: [Option<i64>; 32],
}

/// An item that passes the checks of its fields.
pub enum Ready {
    Record(RecordItem),
    Relationship(RelationshipItem),
}

pub struct RecordItem {
    record: Record,
    created: Option<i64>,
    renewal: i64,
    effective: Option<i64>,
    recorded: Option<i64>,
}

pub struct RelationshipItem {
    texts: Arc<Texts>,
    starts: i64,
    ends: Option<i64>,
    initial: i64,
    updated: i64,
}

/// A record that is held.
pub struct Record {
    pub texts: Arc<Texts>,
    status: Status,
    initial: i64,
    updated: i64,
}

#[derive(Clone, Copy, PartialEq, Eq)]
enum Status {
    Issued,
    Lapsed,
    PendingTransfer,
    PendingArchival,
    Retired,
    Duplicate,
    Annulled,
}

impl Status {
    fn of(text: &str) -> Self {
        use Status::*;
        let at = STATUSES.iter().position(|&status| status == text).expect("the shape was checked");
        [Issued, Lapsed, PendingTransfer, PendingArchival, Retired, Duplicate, Annulled][at]
    }

    fn is_live(self) -> bool {
        matches!(self, Status::Issued | Status::Lapsed | Status::PendingTransfer | Status::PendingArchival)
    }

    /// Who may change a held record of this status to another one: its manager (M), its receiver (R) or nobody.
    fn changed_by(self, to: Status) -> u8 {
        const MAY: [&[u8; 7]; 7] =
            [b"MMM-MMM", b"MMM-MMM", b"MMMM---", b"RRM----", b"M---M--", b"-----M-", b"-------"];
        MAY[self as usize][to as usize]
    }
}

fn reject_if(fails: bool, check: &'static str) -> Result<(), Fault> {
    if fails { Err(Cow::Borrowed(check)) } else { Ok(()) }
}

fn code_at(texts: &Texts, place: usize) -> Code {
    texts.get(place).as_bytes().try_into().expect("the shape was checked")
}

fn slots_of<'a>(list: &'a Items<'_>, item: &Item<'_>) -> Slots<'a> {
    let mut slots = Slots { texts: [""; 32], moments: [None; 32] };
    for (place, text) in &list.fields[item.fields.clone()] {
        slots.texts[*place] = text.as_deref().unwrap_or("");
    }
    slots
}

fn is_needed(sheet: Sheet, place: usize, texts: &[&str; 32]) -> bool {
    match sheet {
        Sheet::Lei if place == at::TRANSFER => texts[at::STATUS] == "PENDING_ARCHIVAL",
        _ => sheet.fields()[place].needed,
    }
}

/// Whether a field that is present has its shape, C03. Its moment is noted.
fn has_right_shape(sheet: Sheet, place: usize, slots: &mut Slots<'_>) -> bool {
    let text = slots.texts[place];
    match sheet.fields()[place].shape {
        _ if text.is_empty() => true,
        Shape::Moment => {
            slots.moments[place] = moment_of(text);
            slots.moments[place].is_some()
        }
        shape => {
            let stands_alone =
                sheet == Sheet::Lei && place == at::TRANSFER && slots.texts[at::STATUS] != "PENDING_ARCHIVAL";
            has_shape(shape, text) && !stands_alone
        }
    }
}

/// C01 to C04.
fn check_fields(sheet: Sheet, item: &Item<'_>, slots: &mut Slots<'_>) -> Result<(), Fault> {
    if let Some(name) = &item.unknown {
        return Err(format!("C01 FIELD_UNKNOWN {name}").into());
    }
    let fields = sheet.fields();
    let places = 0..fields.len();
    if let Some(place) =
        places.clone().find(|&place| slots.texts[place].is_empty() && is_needed(sheet, place, &slots.texts))
    {
        return Err(format!("C02 FIELD_MISSING {}", fields[place].name).into());
    }
    if let Some(place) = places.clone().find(|&place| !has_right_shape(sheet, place, slots)) {
        return Err(format!("C03 FIELD_SHAPE {}", fields[place].name).into());
    }
    let is_wrong = |place: usize| {
        !slots.texts[place].is_empty() && !has_check_digits(fields[place].shape, slots.texts[place])
    };
    if let Some(place) = places.clone().find(|&place| is_wrong(place)) {
        return Err(format!("C04 CHECK_DIGITS {}", fields[place].name).into());
    }
    Ok(())
}

/// An item by itself: made ready, or why it is rejected.
fn make_ready(list: &Items<'_>, item: &Item<'_>) -> Result<Ready, Fault> {
    let mut slots = slots_of(list, item);
    check_fields(list.sheet, item, &mut slots)?;
    let texts = Arc::new(Texts::of(&slots.texts, &slots.moments, list.sheet.fields().len()));
    let moment = |place: usize| slots.moments[place].expect("the field is needed");
    Ok(match list.sheet {
        Sheet::Lei => Ready::Record(RecordItem {
            record: Record {
                texts,
                status: Status::of(slots.texts[at::STATUS]),
                initial: moment(at::INITIAL),
                updated: moment(at::UPDATED),
            },
            created: slots.moments[at::CREATED],
            renewal: moment(at::RENEWAL),
            effective: slots.moments[at::EVENT_EFFECTIVE],
            recorded: slots.moments[at::EVENT_RECORDED],
        }),
        Sheet::Rr => Ready::Relationship(RelationshipItem {
            texts,
            starts: moment(4),
            ends: slots.moments[5],
            initial: moment(6),
            updated: moment(7),
        }),
    })
}

/// All items of a list by themselves. Many are made ready in several threads.
pub fn ready_all(list: &Items<'_>) -> Vec<Result<Ready, Fault>> {
    let of_part = |part: &[Item<'_>]| -> Vec<_> { part.iter().map(|item| make_ready(list, item)).collect() };
    let threads =
        if list.items.len() < FEW_ITEMS { 1 } else { thread::available_parallelism().map_or(1, usize::from) };
    if threads == 1 {
        return of_part(&list.items);
    }
    thread::scope(|scope| {
        let parts = list.items.chunks(list.items.len().div_ceil(threads));
        let running: Vec<_> = parts.map(|part| scope.spawn(move || of_part(part))).collect();
        running.into_iter().flat_map(|thread| thread.join().expect("no check panics")).collect()
    })
}

/// The issuer that sent an upload, and the day of its entry.
pub struct Sitting {
    pub uploader: Code,
    pub today: i64,
}

impl Sitting {
    fn is_uploader(&self, text: &str) -> bool {
        text.as_bytes() == self.uploader
    }
}

/// A start and a type of relationships.
type Pair = (Code, usize);

/// What is held, with an index for each question of the rules.
#[derive(Default)]
pub struct Table {
    pub records: HashMap<Code, Record>,
    /// The LEI of the live record that has an authority key.
    keys: HashMap<Box<str>, Code>,
    /// By start, type and end, one behind the other.
    pub relationships: HashMap<Box<str>, Arc<Texts>>,
    /// The end of the ACTIVE relationship of a start and a type.
    active: HashMap<Pair, Code>,
}

/// The authority key of a record, if it is live and has one. The first part is always as long.
fn live_key(record: &Record) -> Option<&str> {
    let texts = &record.texts;
    let has_none = texts.get(at::AUTHORITY_ID).is_empty()
        || ["RA888888", "RA999999"].contains(&texts.get(at::AUTHORITY));
    (record.status.is_live() && !has_none).then(|| texts.span(at::AUTHORITY, at::AUTHORITY_ID))
}

fn successors(texts: &Texts) -> impl Iterator<Item = Code> + '_ {
    let codes = texts.get(at::SUCCESSORS).split(' ').filter(|code| !code.is_empty());
    codes.map(|code| code.as_bytes().try_into().expect("the shape was checked"))
}

fn pair(texts: &Texts) -> Pair {
    let place = RELATIONSHIPS.iter().position(|&text| text == texts.get(1)).expect("the shape was checked");
    (code_at(texts, 0), place)
}

/// C05 to C09.
fn check_alone(item: &RecordItem, sitting: &Sitting) -> Result<(), Fault> {
    let Record { texts, status, initial, updated } = &item.record;
    let fits = match status {
        Status::Issued => texts.get(at::ENTITY_STATUS) == "ACTIVE",
        Status::Retired => texts.get(at::ENTITY_STATUS) == "INACTIVE",
        Status::Duplicate | Status::Annulled => true,
        _ => texts.get(at::ENTITY_STATUS) != "NULL",
    };
    reject_if(!fits, "C05 STATUS_ENTITY")?;
    reject_if(updated < initial || item.renewal < *initial, "C06 DATES_ORDER")?;
    let is_ahead = |moment: i64| day(moment) > sitting.today;
    reject_if(is_ahead(*updated) || item.created.is_some_and(is_ahead), "C07 DATE_FUTURE")?;
    let has_successor = !texts.get(at::SUCCESSORS).is_empty();
    let is_wrong = match status {
        Status::Duplicate => !has_successor,
        Status::Retired => false,
        _ => has_successor,
    };
    reject_if(is_wrong, "C08 SUCCESSOR_SHAPE")?;
    reject_if(!sitting.is_uploader(texts.get(at::MANAGER)), "C09 MANAGER_NOT_UPLOADER")
}

/// C10 to C14: what is held under the item's LEI, and what it may become.
fn check_change(item: &Record, held: Option<&Record>, sitting: &Sitting) -> Result<(), Fault> {
    let Some(held) = held else {
        return reject_if(item.status != Status::Issued, "C10 NOT_ISSUED");
    };
    let party = match held.status.changed_by(item.status) {
        b'M' => held.texts.get(at::MANAGER),
        b'R' => held.texts.get(at::TRANSFER),
        _ => return Err(format!("C11 TRANSITION {}", held.texts.get(at::STATUS)).into()),
    };
    reject_if(!sitting.is_uploader(party), "C12 NOT_MANAGER")?;
    reject_if(item.initial != held.initial, "C13 INITIAL_DATE_CHANGED")?;
    reject_if(item.updated < held.updated, "C14 UPDATE_EARLIER")
}

/// C21 and C22.
fn check_event(item: &RecordItem, sitting: &Sitting) -> Result<(), Fault> {
    let texts = &item.record.texts;
    if texts.span(at::EVENT_TYPE, at::EVENT_STATUS).is_empty() {
        return Ok(());
    }
    let needed = [at::EVENT_TYPE, at::EVENT_RECORDED, at::EVENT_STATUS];
    if let Some(place) = needed.into_iter().find(|&place| texts.get(place).is_empty()) {
        return Err(format!("C21 EVENT_INCOMPLETE {}", Sheet::Lei.fields()[place].name).into());
    }
    let has_come = |moment: Option<i64>| moment.is_some_and(|moment| day(moment) <= sitting.today);
    let is_early = texts.get(at::EVENT_STATUS) == "COMPLETED" && !has_come(item.effective);
    reject_if(!has_come(item.recorded) || is_early, "C22 EVENT_DATES")
}

impl Table {
    /// Judges an item on what is held, and puts it if it is accepted.
    pub fn take(&mut self, item: Ready, sitting: &Sitting) -> Result<(), Fault> {
        match item {
            Ready::Record(item) => {
                let lei = code_at(&item.record.texts, at::LEI);
                self.check_record(&lei, &item, sitting)?;
                self.put_record(lei, item.record);
            }
            Ready::Relationship(item) => {
                self.check_relationship(&item, sitting)?;
                self.put_relationship(item.texts);
            }
        }
        Ok(())
    }

    /// C05 to C22.
    fn check_record(&self, lei: &Code, item: &RecordItem, sitting: &Sitting) -> Result<(), Fault> {
        let held = self.records.get(lei);
        check_alone(item, sitting)?;
        check_change(&item.record, held, sitting)?;
        let ahead = day(item.renewal) - sitting.today;
        let is_renewed = match item.record.status {
            Status::Issued => (0..=400).contains(&ahead),
            Status::Lapsed => ahead < 0,
            _ => true,
        };
        reject_if(!is_renewed, "C15 RENEWAL_DATE")?;
        self.check_successors(lei, &item.record.texts)?;
        match live_key(&item.record).and_then(|key| self.keys.get(key)) {
            Some(owner) if owner != lei => {
                return Err(format!("C19 AUTHORITY_KEY_TAKEN {}", String::from_utf8_lossy(owner)).into());
            }
            _ => {}
        }
        reject_if(held.is_none() && self.records.len() >= MAX_RECORDS, "C20 REGISTER_FULL")?;
        check_event(item, sitting)
    }

    /// C16 to C18: the item's own LEI isn't followed, and isn't counted.
    fn check_successors(&self, lei: &Code, texts: &Texts) -> Result<(), Fault> {
        reject_if(!successors(texts).all(|code| self.records.contains_key(&code)), "C16 SUCCESSOR_UNKNOWN")?;
        let mut left: Vec<Code> = successors(texts).collect();
        let mut met = HashSet::new();
        let mut comes_back = false;
        while let Some(code) = left.pop() {
            comes_back |= code == *lei;
            if code != *lei && met.insert(code) {
                reject_if(met.len() > MAX_WALK, "C18 SUCCESSOR_CHAIN_LONG")?;
                left.extend(self.records.get(&code).into_iter().flat_map(|record| successors(&record.texts)));
            }
        }
        reject_if(comes_back, "C17 SUCCESSOR_CYCLE")
    }

    fn put_record(&mut self, lei: Code, record: Record) {
        if let Some(key) = self.records.get(&lei).and_then(live_key) {
            self.keys.remove(key);
        }
        if let Some(key) = live_key(&record) {
            self.keys.insert(key.into(), lei);
        }
        self.records.insert(lei, record);
    }

    /// C30 to C39.
    fn check_relationship(&self, item: &RelationshipItem, sitting: &Sitting) -> Result<(), Fault> {
        let texts = &item.texts;
        let ((start, kind), end) = (pair(texts), code_at(texts, 2));
        reject_if(start == end, "C30 SAME_NODE")?;
        let is_late = item.ends.is_some_and(|ends| ends < item.starts) || item.updated < item.initial;
        reject_if(is_late, "C31 PERIOD_ORDER")?;
        let Some(record) = self.records.get(&start) else { return Err("C32 START_UNKNOWN".into()) };
        reject_if(!self.records.contains_key(&end), "C33 END_UNKNOWN")?;
        let managers = [texts.get(RELATIONSHIP_MANAGER), record.texts.get(at::MANAGER)];
        reject_if(!managers.into_iter().all(|text| sitting.is_uploader(text)), "C34 START_NOT_MANAGED")?;
        let category = record.texts.get(at::CATEGORY);
        let fits = match kind {
            DIRECT | ULTIMATE => true,
            BRANCH => category == "BRANCH",
            _ => category == "FUND",
        };
        reject_if(!fits, "C35 START_CATEGORY")?;
        let is_active = texts.get(RELATIONSHIP_STATUS) == "ACTIVE";
        let held = self.relationships.get(texts.span(0, 2));
        reject_if(!may_follow(held, texts.get(REGISTRATION), is_active), "C36 RELATION_TRANSITION")?;
        if is_active { self.check_active(start, end, kind) } else { Ok(()) }
    }

    /// C37 to C39.
    fn check_active(&self, start: Code, end: Code, kind: usize) -> Result<(), Fault> {
        if let Some(other) = self.active.get(&(start, kind)).filter(|&&other| other != end) {
            return Err(format!("C37 ACTIVE_TAKEN {}", String::from_utf8_lossy(other)).into());
        }
        if kind == DIRECT {
            let mut member = Some(end);
            let mut count = 0;
            while let Some(code) = member {
                count += 1;
                reject_if(count > MAX_WALK, "C39 PARENT_CHAIN_LONG")?;
                reject_if(code == start, "C38 PARENT_CYCLE")?;
                member = self.active.get(&(code, DIRECT)).copied();
            }
        }
        Ok(())
    }

    fn put_relationship(&mut self, texts: Arc<Texts>) {
        let end = code_at(&texts, 2);
        if texts.get(RELATIONSHIP_STATUS) == "ACTIVE" {
            self.active.insert(pair(&texts), end);
        } else if self.active.get(&pair(&texts)) == Some(&end) {
            self.active.remove(&pair(&texts));
        }
        self.relationships.insert(texts.span(0, 2).into(), texts);
    }

    /// The rows of a sheet as they are published, by their keys.
    pub fn rows(&self, sheet: Sheet) -> Vec<Arc<Texts>> {
        let mut rows: Vec<Arc<Texts>> = match sheet {
            Sheet::Lei => self.records.values().map(|record| record.texts.clone()).collect(),
            Sheet::Rr => self
                .relationships
                .values()
                .filter(|row| row.get(REGISTRATION) != "ANNULLED")
                .cloned()
                .collect(),
        };
        rows.sort_unstable_by(|one, other| one.by_key(other, sheet));
        rows
    }
}

/// Whether a relationship's registration status may follow the held one, and stand beside its status.
fn may_follow(held: Option<&Arc<Texts>>, status: &str, is_active: bool) -> bool {
    let is_issued = matches!(status, "ISSUED" | "PUBLISHED");
    let follows = match held.map(|row| row.get(REGISTRATION)) {
        None | Some("ANNULLED") => is_issued,
        Some("RETIRED") => status != "LAPSED",
        Some(_) => true,
    };
    follows && !(is_active && matches!(status, "RETIRED" | "ANNULLED"))
}
