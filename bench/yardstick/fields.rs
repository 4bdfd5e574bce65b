//! LEIs, moments, the fields of items, and the shapes of their texts, as docs/FORMATS.md has them.
use std::ops::Range;
use std::sync::LazyLock;

/// An LEI's 20 bytes.
pub type Code = [u8; 20];

#[derive(Clone, Copy, PartialEq, Eq, Hash, Debug)]
pub enum Sheet {
    Lei,
    Rr,
}

#[derive(Clone, Copy)]
pub enum Shape {
    Code,
    Codes,
    Free,
    Lang,
    Country,
    Authority,
    Jurisdiction,
    Form,
    Moment,
    List(&'static [&'static str]),
}

pub struct Field {
    pub name: &'static str,
    pub shape: Shape,
    pub needed: bool,
}

const fn needed(name: &'static str, shape: Shape) -> Field {
    Field { name, shape, needed: true }
}

const fn may(name: &'static str, shape: Shape) -> Field {
    Field { name, shape, needed: false }
}

pub const STATUSES: &[&str] =
    &["ISSUED", "LAPSED", "PENDING_TRANSFER", "PENDING_ARCHIVAL", "RETIRED", "DUPLICATE", "ANNULLED"];
const ENTITY_STATUSES: &[&str] = &["ACTIVE", "INACTIVE", "NULL"];
const CATEGORIES: &[&str] = &[
    "GENERAL",
    "BRANCH",
    "FUND",
    "SOLE_PROPRIETOR",
    "RESIDENT_GOVERNMENT_ENTITY",
    "INTERNATIONAL_ORGANIZATION",
];
const VALIDATIONS: &[&str] =
    &["PENDING", "ENTITY_SUPPLIED_ONLY", "PARTIALLY_CORROBORATED", "FULLY_CORROBORATED"];
pub const RELATIONSHIPS: &[&str] = &[
    "IS_DIRECTLY_CONSOLIDATED_BY",
    "IS_ULTIMATELY_CONSOLIDATED_BY",
    "IS_INTERNATIONAL_BRANCH_OF",
    "IS_FUND-MANAGED_BY",
    "IS_SUBFUND_OF",
    "IS_FEEDER_TO",
];
const RELATIONSHIP_STATUSES: &[&str] = &["ACTIVE", "INACTIVE"];
const REGISTRATIONS: &[&str] = &["ISSUED", "PUBLISHED", "LAPSED", "RETIRED", "ANNULLED"];
const EVENTS: &[&str] = &[
    "CHANGE_LEGAL_NAME",
    "CHANGE_LEGAL_ADDRESS",
    "CHANGE_HQ_ADDRESS",
    "CHANGE_LEGAL_FORM",
    "MERGER",
    "LIQUIDATION",
    "DISSOLUTION",
    "BANKRUPTCY",
];
const EVENT_STATUSES: &[&str] = &["IN_PROGRESS", "COMPLETED", "WITHDRAWN_CANCELLED"];

/// Places of a record's fields that the rules speak of, counted from 0.
pub mod at {
    pub const LEI: usize = 0;
    pub const AUTHORITY: usize = 13;
    pub const AUTHORITY_ID: usize = 14;
    pub const CATEGORY: usize = 16;
    pub const ENTITY_STATUS: usize = 18;
    pub const CREATED: usize = 19;
    pub const SUCCESSORS: usize = 20;
    pub const INITIAL: usize = 21;
    pub const UPDATED: usize = 22;
    pub const STATUS: usize = 23;
    pub const RENEWAL: usize = 24;
    pub const MANAGER: usize = 25;
    pub const TRANSFER: usize = 27;
    pub const EVENT_TYPE: usize = 28;
    pub const EVENT_EFFECTIVE: usize = 29;
    pub const EVENT_RECORDED: usize = 30;
    pub const EVENT_STATUS: usize = 31;
}

const RECORD: [Field; 32] = [
    needed("LEI", Shape::Code),
    needed("Entity.LegalName", Shape::Free),
    may("Entity.LegalName.xmllang", Shape::Lang),
    needed("Entity.LegalAddress.FirstAddressLine", Shape::Free),
    needed("Entity.LegalAddress.City", Shape::Free),
    may("Entity.LegalAddress.Region", Shape::Free),
    needed("Entity.LegalAddress.Country", Shape::Country),
    may("Entity.LegalAddress.PostalCode", Shape::Free),
    needed("Entity.HeadquartersAddress.FirstAddressLine", Shape::Free),
    needed("Entity.HeadquartersAddress.City", Shape::Free),
    may("Entity.HeadquartersAddress.Region", Shape::Free),
    needed("Entity.HeadquartersAddress.Country", Shape::Country),
    may("Entity.HeadquartersAddress.PostalCode", Shape::Free),
    needed("Entity.RegistrationAuthority.RegistrationAuthorityID", Shape::Authority),
    may("Entity.RegistrationAuthority.RegistrationAuthorityEntityID", Shape::Free),
    needed("Entity.LegalJurisdiction", Shape::Jurisdiction),
    needed("Entity.EntityCategory", Shape::List(CATEGORIES)),
    needed("Entity.LegalForm.EntityLegalFormCode", Shape::Form),
    needed("Entity.EntityStatus", Shape::List(ENTITY_STATUSES)),
    may("Entity.EntityCreationDate", Shape::Moment),
    may("Entity.SuccessorEntity.1.SuccessorLEI", Shape::Codes),
    needed("Registration.InitialRegistrationDate", Shape::Moment),
    needed("Registration.LastUpdateDate", Shape::Moment),
    needed("Registration.RegistrationStatus", Shape::List(STATUSES)),
    needed("Registration.NextRenewalDate", Shape::Moment),
    needed("Registration.ManagingLOU", Shape::Code),
    needed("Registration.ValidationSources", Shape::List(VALIDATIONS)),
    may("Register.TransferTo", Shape::Code),
    may("Entity.Event.1.Type", Shape::List(EVENTS)),
    may("Entity.Event.1.EffectiveDate", Shape::Moment),
    may("Entity.Event.1.RecordedDate", Shape::Moment),
    may("Entity.Event.1.Status", Shape::List(EVENT_STATUSES)),
];

const RELATIONSHIP: [Field; 11] = [
    needed("Relationship.StartNode", Shape::Code),
    needed("Relationship.RelationshipType", Shape::List(RELATIONSHIPS)),
    needed("Relationship.EndNode", Shape::Code),
    needed("Relationship.RelationshipStatus", Shape::List(RELATIONSHIP_STATUSES)),
    needed("Relationship.StartDate", Shape::Moment),
    may("Relationship.EndDate", Shape::Moment),
    needed("Registration.InitialRegistrationDate", Shape::Moment),
    needed("Registration.LastUpdateDate", Shape::Moment),
    needed("Registration.RegistrationStatus", Shape::List(REGISTRATIONS)),
    needed("Registration.ManagingLOU", Shape::Code),
    needed("Registration.ValidationSources", Shape::List(VALIDATIONS)),
];

impl Sheet {
    /// The fields of an item, in order of place.
    pub fn fields(self) -> &'static [Field] {
        match self {
            Sheet::Lei => &RECORD,
            Sheet::Rr => &RELATIONSHIP,
        }
    }

    /// How many of the first texts of a row are its key.
    pub fn key_width(self) -> usize {
        match self {
            Sheet::Lei => 1,
            Sheet::Rr => 3,
        }
    }

    /// The places of the fields in the byte order of their names.
    pub fn by_name(self) -> &'static [usize] {
        &NAMES[self as usize].by_name
    }

    /// The place of the field of a name. Only fields whose names are as long are compared with it.
    pub fn place_of(self, name: &str) -> Option<usize> {
        let as_long = NAMES[self as usize].by_length.get(name.len())?;
        as_long.iter().copied().find(|&place| self.fields()[place].name == name)
    }
}

/// The places of a sheet's fields, by the byte order of their names and by their lengths.
struct Names {
    by_name: Vec<usize>,
    by_length: Vec<Vec<usize>>,
}

static NAMES: LazyLock<[Names; 2]> = LazyLock::new(|| {
    [Sheet::Lei, Sheet::Rr].map(|sheet| {
        let fields = sheet.fields();
        let mut by_name: Vec<usize> = (0..fields.len()).collect();
        by_name.sort_by_key(|&place| fields[place].name);
        let of_length =
            |length: usize| (0..fields.len()).filter(|&place| fields[place].name.len() == length).collect();
        Names { by_name, by_length: (0..64).map(of_length).collect() }
    })
});

fn is_upper_or_digit(byte: u8) -> bool {
    byte.is_ascii_uppercase() || byte.is_ascii_digit()
}

fn is_code(text: &[u8]) -> bool {
    text.len() == 20
        && text[..18].iter().all(|&byte| is_upper_or_digit(byte))
        && text[18..].iter().all(u8::is_ascii_digit)
}

/// What a code's number leaves when it is divided by 97.
fn remainder(code: &[u8]) -> u32 {
    code.iter().fold(0, |left, &byte| match byte {
        b'A'..=b'Z' => (left * 100 + u32::from(byte - b'A') + 10) % 97,
        _ => (left * 10 + u32::from(byte - b'0')) % 97,
    })
}

/// The LEI that a text is, check digits included.
pub fn lei_of(text: &[u8]) -> Option<Code> {
    if is_code(text) && remainder(text) == 1 { text.try_into().ok() } else { None }
}

/// The LEI of a number.
pub fn numbered_lei(number: u32) -> String {
    let front = format!("{number:018}00");
    format!("{}{:02}", &front[..18], 98 - remainder(front.as_bytes()))
}

/// Whether the check digits of a text are right, where its shape has any.
pub fn has_check_digits(shape: Shape, text: &str) -> bool {
    match shape {
        Shape::Code | Shape::Codes => text.split(' ').all(|code| remainder(code.as_bytes()) == 1),
        _ => true,
    }
}

fn are_codes(text: &str) -> bool {
    let codes: Vec<&str> = text.split(' ').take(6).collect();
    codes.len() <= 5
        && codes.iter().enumerate().all(|(at, code)| is_code(code.as_bytes()) && !codes[..at].contains(code))
}

fn is_free(text: &str) -> bool {
    if text.bytes().all(|byte| (0x20..0x7f).contains(&byte)) {
        return (1..=500).contains(&text.len());
    }
    text.chars().take(501).count() <= 500 && !text.chars().any(char::is_control)
}

fn is_jurisdiction(text: &[u8]) -> bool {
    let (country, rest) = text.split_at(text.len().min(2));
    let rest_fits = match rest {
        [] => true,
        [b'-', part @ ..] => {
            (1..=3).contains(&part.len()) && part.iter().all(|&byte| is_upper_or_digit(byte))
        }
        _ => false,
    };
    country.len() == 2 && country.iter().all(u8::is_ascii_uppercase) && rest_fits
}

/// Whether a text has a shape. That of a moment is left to `moment_of`.
pub fn has_shape(shape: Shape, text: &str) -> bool {
    let bytes = text.as_bytes();
    match shape {
        Shape::Code => is_code(bytes),
        Shape::Codes => are_codes(text),
        Shape::Free => is_free(text),
        Shape::Lang => {
            bytes.len() <= 35 && bytes.iter().all(|&byte| byte.is_ascii_alphanumeric() || byte == b'-')
        }
        Shape::Country => bytes.len() == 2 && bytes.iter().all(u8::is_ascii_uppercase),
        Shape::Authority => {
            bytes.len() == 8 && bytes.starts_with(b"RA") && bytes[2..].iter().all(u8::is_ascii_digit)
        }
        Shape::Jurisdiction => is_jurisdiction(bytes),
        Shape::Form => bytes.len() == 4 && bytes.iter().all(|&byte| is_upper_or_digit(byte)),
        Shape::Moment => moment_of(text).is_some(),
        Shape::List(texts) => texts.contains(&text),
    }
}

const FIRST_MOMENT: i64 = -62_135_596_800;
const LAST_MOMENT: i64 = 253_370_764_799;

/// The number of a moment's UTC day.
pub fn day(moment: i64) -> i64 {
    moment.div_euclid(86_400)
}

/// The number of the day of a date of the Gregorian calendar, by years that begin in March.
fn day_of_date(year: i64, month: i64, day: i64) -> i64 {
    let year = if month <= 2 { year - 1 } else { year };
    let era = year.div_euclid(400);
    let year_of_era = year - era * 400;
    let day_of_year = (153 * ((month + 9) % 12) + 2) / 5 + day - 1;
    era * 146_097 + year_of_era * 365 + year_of_era / 4 - year_of_era / 100 + day_of_year - 719_468
}

fn date_of_day(day: i64) -> (i64, i64, i64) {
    let day = day + 719_468;
    let era = day.div_euclid(146_097);
    let day_of_era = day - era * 146_097;
    let year_of_era = (day_of_era - day_of_era / 1_460 + day_of_era / 36_524 - day_of_era / 146_096) / 365;
    let day_of_year = day_of_era - (365 * year_of_era + year_of_era / 4 - year_of_era / 100);
    let from_march = (5 * day_of_year + 2) / 153;
    let month = if from_march < 10 { from_march + 3 } else { from_march - 9 };
    let year = year_of_era + era * 400 + i64::from(month <= 2);
    (year, month, day_of_year - (153 * from_march + 2) / 5 + 1)
}

fn days_in(year: i64, month: i64) -> i64 {
    match month {
        2 if year % 4 == 0 && (year % 100 != 0 || year % 400 == 0) => 29,
        2 => 28,
        4 | 6 | 9 | 11 => 30,
        _ => 31,
    }
}

/// The seconds by which the end of a moment, an offset with or without a fraction before it, is ahead of UTC.
fn offset_of(end: &str) -> Option<i64> {
    let offset = match end.strip_prefix('.') {
        Some(rest) if rest.starts_with(|first: char| first.is_ascii_digit()) => {
            rest.trim_start_matches(|digit: char| digit.is_ascii_digit())
        }
        Some(_) => return None,
        None => end,
    };
    let sign = match offset.as_bytes() {
        b"Z" => return Some(0),
        [b'+', _, _, b':', _, _] => 1,
        [b'-', _, _, b':', _, _] => -1,
        _ => return None,
    };
    Some(sign * (number_at(offset, 1..3, 23)? * 3_600 + number_at(offset, 4..6, 59)? * 60))
}

/// The decimal number at some places of a text, at most so large.
fn number_at(text: &str, places: Range<usize>, most: i64) -> Option<i64> {
    let digits = text.get(places)?;
    let number =
        if digits.bytes().all(|byte| byte.is_ascii_digit()) { digits.parse().ok()? } else { most + 1 };
    (number <= most).then_some(number)
}

/// The moment that a text is: a date and a time of RFC 3339 with an offset, rounded down to a second.
pub fn moment_of(text: &str) -> Option<i64> {
    let separators = [(4, b'-'), (7, b'-'), (10, b'T'), (13, b':'), (16, b':')];
    if text.len() < 20 || separators.iter().any(|&(at, byte)| text.as_bytes()[at] != byte) {
        return None;
    }
    let (year, month, date) =
        (number_at(text, 0..4, 9_999)?, number_at(text, 5..7, 12)?, number_at(text, 8..10, 31)?);
    if month == 0 || date == 0 || date > days_in(year, month) {
        return None;
    }
    let (hour, minute) = (number_at(text, 11..13, 23)?, number_at(text, 14..16, 59)?);
    let second = number_at(text, 17..19, 60)?.min(59) - offset_of(text.get(19..)?)?;
    let moment = day_of_date(year, month, date) * 86_400 + hour * 3_600 + minute * 60 + second;
    (FIRST_MOMENT..=LAST_MOMENT).contains(&moment).then_some(moment)
}

/// Puts a moment's printed form, of 20 bytes, after a text.
pub fn put_moment(out: &mut String, moment: i64) {
    let ((year, month, date), second) = (date_of_day(day(moment)), moment.rem_euclid(86_400));
    let parts = [month, date, second / 3_600, second / 60 % 60, second % 60];
    for two in [year / 100, year % 100] {
        put_two(out, two);
    }
    for (part, before) in parts.into_iter().zip(['-', '-', 'T', ':', ':']) {
        out.push(before);
        put_two(out, part);
    }
    out.push('Z');
}

fn put_two(out: &mut String, number: i64) {
    out.push(char::from(b'0' + (number / 10) as u8));
    out.push(char::from(b'0' + (number % 10) as u8));
}
