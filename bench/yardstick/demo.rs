//! `demo N`: a register of made-up records, and a summary of what became of it.
use crate::apply::apply;
use crate::fields::{Sheet, lei_of, numbered_lei};
use crate::office::{Office, Reply, Request};
use crate::rows::Form;
use std::fmt::Write;

const ISSUERS: [&str; 2] = ["HWUPKR0MPOU8FGXBT394", "506700GE1G29325QX363"];
const FIRST_MOMENT: i64 = 1_735_689_600;
const BLOCK: u32 = 100;

struct Demo<'a> {
    office: &'a mut Office,
    records: u32,
    requests: i64,
    /// The texts of the answers to the uploads that are counted.
    answers: String,
}

fn put_record(out: &mut String, number: u32, manager: &str) {
    let id = if number.is_multiple_of(10) { number - 1 } else { number };
    let lei = numbered_lei(number);
    write!(
        out,
        "{{\"Entity.EntityCategory\":\"GENERAL\",\"Entity.EntityStatus\":\"ACTIVE\",\
         \"Entity.HeadquartersAddress.City\":\"Paris\",\"Entity.HeadquartersAddress.Country\":\"FR\",\
         \"Entity.HeadquartersAddress.FirstAddressLine\":\"1 Main Street\",\"Entity.LegalAddress.City\":\"Paris\",\
         \"Entity.LegalAddress.Country\":\"FR\",\"Entity.LegalAddress.FirstAddressLine\":\"1 Main Street\",\
         \"Entity.LegalForm.EntityLegalFormCode\":\"AB12\",\"Entity.LegalJurisdiction\":\"FR\",\
         \"Entity.LegalName\":\"Entity {number}\",\
         \"Entity.RegistrationAuthority.RegistrationAuthorityEntityID\":\"{id}\",\
         \"Entity.RegistrationAuthority.RegistrationAuthorityID\":\"RA000001\",\"LEI\":\"{lei}\",\
         \"Registration.InitialRegistrationDate\":\"2025-01-01T00:00:00Z\",\
         \"Registration.LastUpdateDate\":\"2025-01-01T00:00:00Z\",\"Registration.ManagingLOU\":\"{manager}\",\
         \"Registration.NextRenewalDate\":\"2026-01-01T00:00:00Z\",\"Registration.RegistrationStatus\":\"ISSUED\",\
         \"Registration.ValidationSources\":\"FULLY_CORROBORATED\"}}"
    )
    .expect("a String takes all");
}

fn put_relationship(out: &mut String, number: u32, manager: &str) {
    let (start, end) = (numbered_lei(number), numbered_lei(number / 2));
    write!(
        out,
        "{{\"Registration.InitialRegistrationDate\":\"2025-01-01T00:00:00Z\",\
         \"Registration.LastUpdateDate\":\"2025-01-01T00:00:00Z\",\"Registration.ManagingLOU\":\"{manager}\",\
         \"Registration.RegistrationStatus\":\"PUBLISHED\",\"Registration.ValidationSources\":\"FULLY_CORROBORATED\",\
         \"Relationship.EndNode\":\"{end}\",\"Relationship.RelationshipStatus\":\"ACTIVE\",\
         \"Relationship.RelationshipType\":\"IS_DIRECTLY_CONSOLIDATED_BY\",\
         \"Relationship.StartDate\":\"2025-01-01T00:00:00Z\",\"Relationship.StartNode\":\"{start}\"}}"
    )
    .expect("a String takes all");
}

impl Demo<'_> {
    fn ask(&mut self, request: Request<'_>) -> Reply {
        self.requests += 1;
        self.office.answer(request, FIRST_MOMENT + self.requests - 1)
    }

    /// Sends each block of items as an upload. The numbers of an issuer's uploads go on behind those of so many before.
    fn send(
        &mut self,
        member: &str,
        first: u32,
        before: [u32; 2],
        put: fn(&mut String, u32, &str),
    ) -> Vec<Reply> {
        let mut replies = Vec::new();
        for block in 1..=self.records.div_ceil(BLOCK) {
            let issuer = ISSUERS[block as usize % 2];
            let mut body = format!("{{\"{member}\":");
            let mut separator = '[';
            for number in first.max(BLOCK * (block - 1) + 1)..=self.records.min(BLOCK * block) {
                body.push(separator);
                put(&mut body, number, issuer);
                separator = ',';
            }
            body.push_str("]}");
            let number = before[block as usize % 2] + block.div_ceil(2);
            let lei = lei_of(issuer.as_bytes()).expect("an LEI");
            replies.push(self.ask(Request::Upload(lei, number, body.as_bytes())));
        }
        replies
    }

    fn count(&mut self, replies: &[Reply]) {
        replies.iter().for_each(|reply| self.answers.push_str(reply.text()));
    }
}

/// The digits after a name in an answer.
fn number_after<'a>(name: &str, answer: &'a str) -> &'a str {
    let rest = answer.split_once(name).map_or("", |(_, rest)| rest);
    &rest[..rest.bytes().take_while(u8::is_ascii_digit).count()]
}

/// Makes the register in an office, and the summary.
pub fn demo(office: &mut Office, records: u32) -> String {
    let mut demo = Demo { office, records, requests: 0, answers: String::new() };
    for issuer in [ISSUERS[1], ISSUERS[0]] {
        demo.ask(Request::Accredit(lei_of(issuer.as_bytes()).expect("an LEI")));
    }
    let replies = demo.send("records", 1, [0, 0], put_record);
    demo.count(&replies);
    let mut made = u32::from(demo.ask(Request::Publish(1)).status() == 201);
    demo.ask(Request::Copy(Sheet::Lei, Form::Csv));
    let copy = demo.ask(Request::Copy(Sheet::Rr, Form::Csv));
    let blocks = records.div_ceil(BLOCK);
    let replies = demo.send("relationships", 2, [blocks / 2, blocks.div_ceil(2)], put_relationship);
    demo.count(&replies);
    let second = demo.ask(Request::Publish(2));
    made += u32::from(second.status() == 201);
    let repeats =
        demo.send("records", 1, [0, 0], put_record).iter().filter(|reply| reply.status() == 200).count();
    let [lei, rr] = [Sheet::Lei, Sheet::Rr].map(|sheet| demo.office.delta(1, sheet));
    let rows = |delta: &str| delta.lines().count() - 1;
    let mut applied = Vec::new();
    let outcome = apply(&mut applied, Sheet::Rr, Form::Csv, copy.text().as_bytes(), rr.as_bytes());
    assert!(matches!(outcome, Ok(Ok(()))), "a delta of the register wasn't read");
    let rejected = |check: &str| demo.answers.matches(check).count();
    format!(
        "entries {}\naccepted {}\nrejected C19 {}\nrejected C32 {}\nrejected C33 {}\nrepeats {repeats}\n\
         publications {made}\nlei {}\nrr {}\ndelta lei {}\ndelta rr {}\napplied rr csv {}\n",
        demo.office.entries(),
        rejected("\"ACCEPTED\""),
        rejected("\"C19 "),
        rejected("\"C32 "),
        rejected("\"C33 "),
        number_after("\"lei\":", second.text()),
        number_after("\"rr\":", second.text()),
        rows(&lei),
        rows(&rr),
        applied.len(),
    )
}
