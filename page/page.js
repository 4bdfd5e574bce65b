"use strict";

// The page of a register of legal entities. It shows records of the server, and what the published files and their
// index have. Each view has a fragment of its own, such as #/lei/506700GE1G29325QX363. README.md describes them.

const PUBLISHED = "publish/";
const RECORDS = "v1/records/";
const PAGE_SIZE = 50;
const MOST_WORDS = 8;
const MOST_CHANGES = 500;
const MOST_CHILDREN = 500;
const LARGEST_DELTA = 30_000_000;
const MOST_STEPS = 200;
const TABLES = ["lei", "rr", "repex"];

// ---- LEIs

/** The remainder of a code by 97, each letter read as two digits. */
function remainder(code) {
  return Array.from(code).reduce((rest, letter) => {
    const value = parseInt(letter, 36);
    return (rest * (value < 10 ? 10 : 100) + value) % 97;
  }, 0);
}

/** The check digits that go with 18 characters. */
function checkDigits(start) {
  return String(98 - remainder(`${start}00`)).padStart(2, "0");
}

/** The first fault of a text that isn't an LEI, or null. */
function faultOf(text) {
  const letters = Array.from(text);
  if (letters.length !== 20) {
    return {kind: "length", length: letters.length};
  }
  const place = letters.findIndex((letter, at) => !(at < 18 ? /^[0-9A-Z]$/ : /^[0-9]$/).test(letter));
  if (place >= 0) {
    return {kind: "character", place: place + 1, letter: letters[place]};
  }
  return remainder(text) === 1 ? null : {kind: "digits", given: text.slice(18), wanted: checkDigits(text.slice(0, 18))};
}

/** Whether a text is meant as an LEI: it has no blanks, and as many letters and digits as a mistyped one might have. */
function isMeantAsCode(text) {
  return /^[0-9A-Za-z]{12,28}$/.test(text) && text.replace(/[^0-9]/g, "").length >= 4 || faultOf(text) === null;
}

// ---- words of fields

const MONTHS = ["January", "February", "March", "April", "May", "June", "July", "August", "September", "October",
  "November", "December"];

const SECTIONS = [
  ["Entity", [
    ["LEI", "LEI", "code"],
    ["Entity.LegalName", "Legal name", "name"],
    ["Entity.LegalName.xmllang", "Language of the name", "language"],
    ["Entity.EntityCategory", "Category", "word"],
    ["Entity.EntityStatus", "Status of the entity", "word"],
    ["Entity.LegalJurisdiction", "Jurisdiction", "country"],
    ["Entity.LegalForm.EntityLegalFormCode", "Legal form (ELF code)", "code"],
    ["Entity.EntityCreationDate", "Created", "moment"],
    ["Entity.SuccessorEntity.1.SuccessorLEI", "Succeeded by", "codes"],
  ]],
  ["Legal address", [
    ["Entity.LegalAddress.FirstAddressLine", "Address", "text"],
    ["Entity.LegalAddress.PostalCode", "Postal code", "text"],
    ["Entity.LegalAddress.City", "City", "text"],
    ["Entity.LegalAddress.Region", "Region", "text"],
    ["Entity.LegalAddress.Country", "Country", "country"],
  ]],
  ["Headquarters", [
    ["Entity.HeadquartersAddress.FirstAddressLine", "Address", "text"],
    ["Entity.HeadquartersAddress.PostalCode", "Postal code", "text"],
    ["Entity.HeadquartersAddress.City", "City", "text"],
    ["Entity.HeadquartersAddress.Region", "Region", "text"],
    ["Entity.HeadquartersAddress.Country", "Country", "country"],
  ]],
  ["Business register", [
    ["Entity.RegistrationAuthority.RegistrationAuthorityID", "Registered at (authority)", "code"],
    ["Entity.RegistrationAuthority.RegistrationAuthorityEntityID", "Number there", "text"],
  ]],
  ["Registration of the LEI", [
    ["Registration.RegistrationStatus", "Status", "word"],
    ["Registration.InitialRegistrationDate", "First registered", "moment"],
    ["Registration.LastUpdateDate", "Last update", "moment"],
    ["Registration.NextRenewalDate", "Next renewal", "moment"],
    ["Registration.ManagingLOU", "Managed by (issuer)", "codes"],
    ["Registration.ValidationSources", "Validation", "word"],
    ["Register.TransferTo", "To be transferred to (issuer)", "codes"],
  ]],
  ["Event", [
    ["Entity.Event.1.Type", "Type", "word"],
    ["Entity.Event.1.Status", "Status", "word"],
    ["Entity.Event.1.EffectiveDate", "Takes effect", "moment"],
    ["Entity.Event.1.RecordedDate", "Recorded", "moment"],
  ]],
];

const OTHER_LABELS = [
  ["Relationship.StartNode", "Start", "codes"],
  ["Relationship.RelationshipType", "Type", "word"],
  ["Relationship.EndNode", "End", "codes"],
  ["Relationship.RelationshipStatus", "Status of the relationship", "word"],
  ["Relationship.StartDate", "Start date", "moment"],
  ["Relationship.EndDate", "End date", "moment"],
  ["ExceptionCategory", "Category", "word"],
  ["ExceptionReason", "Reason", "word"],
  ["ExceptionReference", "Reference", "text"],
];

const TITLES_IN_CHANGES = {
  "Legal address": "Legal address: ",
  "Headquarters": "Headquarters: ",
  "Registration of the LEI": "Registration: ",
  "Event": "Event: ",
};

/** What a field is called where no heading stands above it, and its kind, by its name. */
const FIELDS = new Map([
  ...OTHER_LABELS.map(([name, label, kind]) => [name, [label, kind]]),
  ...SECTIONS.flatMap(([title, fields]) => fields.map(([name, label, kind]) => {
    const start = TITLES_IN_CHANGES[title] ?? "";
    return [name, [start ? start + label[0].toLowerCase() + label.slice(1) : label, kind]];
  })),
]);

const RELATIONSHIPS = {
  "IS_DIRECTLY_CONSOLIDATED_BY": ["Directly consolidated by", "Directly consolidates"],
  "IS_ULTIMATELY_CONSOLIDATED_BY": ["Ultimately consolidated by", "Ultimately consolidates"],
  "IS_INTERNATIONAL_BRANCH_OF": ["International branch of", "Has the international branch"],
  "IS_FUND-MANAGED_BY": ["Fund managed by", "Manages the fund"],
  "IS_SUBFUND_OF": ["Sub-fund of", "Has the sub-fund"],
  "IS_FEEDER_TO": ["Feeder to", "Has the feeder"],
};

const EXCEPTIONS = {
  "DIRECT_ACCOUNTING_CONSOLIDATION_PARENT": "direct parent",
  "ULTIMATE_ACCOUNTING_CONSOLIDATION_PARENT": "ultimate parent",
};

const countryNames = new Intl.DisplayNames("en", {type: "region", fallback: "none"});
const languageNames = new Intl.DisplayNames("en", {type: "language", fallback: "none"});

/** A value of a list in words: FULLY_CORROBORATED becomes "Fully corroborated". */
function inWords(text) {
  const words = text.replaceAll("_", " ").toLowerCase();
  return words.charAt(0).toUpperCase() + words.slice(1);
}

/** A code and what it stands for, if that is known. */
function named(names, code, part) {
  try {
    const name = names.of(part);
    return name ? `${name} (${code})` : code;
  } catch {
    return code;
  }
}

function count(number) {
  return number.toLocaleString("en");
}

/** A number of things: "1 record", "2 records". */
function many(number, thing, things = `${thing}s`) {
  return `${count(number)} ${number === 1 ? thing : things}`;
}

function dateOf(text) {
  const [year, month, day] = text.slice(0, 10).split("-").map(Number);
  return `${day} ${MONTHS[month - 1]} ${year}`;
}

// ---- elements

/** An element with attributes and contents, of which texts stay texts. */
function make(tag, attributes = {}, ...contents) {
  const element = document.createElement(tag);
  for (const [name, value] of Object.entries(attributes)) {
    element.setAttribute(name, value);
  }
  element.append(...contents.filter((each) => each !== null));
  return element;
}

/** An element of a drawing. */
function draw(tag, attributes, ...contents) {
  const element = document.createElementNS("http://www.w3.org/2000/svg", tag);
  for (const [name, value] of Object.entries(attributes)) {
    element.setAttribute(name, value);
  }
  element.append(...contents);
  return element;
}

function link(fragment, ...contents) {
  return make("a", {href: `#/${fragment}`}, ...contents);
}

/** A name of an entity, in its own direction and, where it is known, its own language. */
function nameOf(name, language = "") {
  if (!name) {
    return "(no name)";
  }
  return make("bdi", /^[A-Za-z]{2,3}(-[A-Za-z0-9]{2,8})*$/.test(language) ? {lang: language} : {}, name);
}

function codeOf(code) {
  return make("code", {}, code);
}

/** A code that leads to its record. */
function linkOf(code) {
  return link(`lei/${code}`, codeOf(code));
}

function momentOf(text) {
  if (!/^\d{4}-\d\d-\d\dT\d\d:\d\d:\d\dZ$/.test(text)) {
    return text;
  }
  return make("time", {datetime: text}, `${dateOf(text)}, ${text.slice(11, 19)} UTC`);
}

/** The value of a field as it is shown. */
function valueOf(kind, text, language) {
  switch (kind) {
    case "name": return nameOf(text, language);
    case "code": return codeOf(text);
    case "codes": return make("span", {}, ...text.split(" ").flatMap((code) => [linkOf(code), " "]));
    case "moment": return momentOf(text);
    case "country": return named(countryNames, text, text.slice(0, 2));
    case "language": return named(languageNames, text, text);
    case "word": return RELATIONSHIPS[text]?.[0] ?? inWords(text);
    default: return make("bdi", {}, text);
  }
}

/** A heading and what stands below it. */
function section(title, ...contents) {
  return make("section", {}, make("h2", {}, title), ...contents);
}

function note(...contents) {
  return make("div", {class: "note"}, ...contents.map((each) => typeof each === "string" ? make("p", {}, each) : each));
}

/** A status as a text in a box. */
function stateOf(status) {
  return make("span", {class: status === "ISSUED" ? "state current" : "state"}, inWords(status));
}

// ---- what is read

/** Why something can't be shown: what a person is told, the status of HTTP, or 0 if no response came, and its text. */
class Trouble extends Error {
  constructor(status, told, text = "") {
    super(told);
    this.status = status;
    this.text = text;
  }
}

const TOLD = {
  404: "The register has no such file or record.",
  429: "Too many requests came from here. Wait a moment, and try again.",
  500: "The register is out of memory for this request. Try again later.",
};

async function read(path, options = {}) {
  let response;
  try {
    response = await fetch(path, options);
  } catch {
    throw new Trouble(0, "The register can't be reached. Check your connection, and try again.");
  }
  if (!response.ok) {
    throw new Trouble(response.status, TOLD[response.status] ?? `The register doesn't answer at the moment (status ${
      response.status}). Try again later.`, (await response.text().catch(() => "")).trim());
  }
  try {
    return await response.json();
  } catch {
    throw new Trouble(response.status, "What came from the register can't be read. Try again later.");
  }
}

const kept = new Map();

/** Reads a file that never changes, once. */
function readOnce(path) {
  if (!kept.has(path)) {
    const file = read(path);
    file.catch(() => kept.delete(path));
    kept.set(path, file);
  }
  return kept.get(path);
}

/** Reads a file that never changes, or gives null if there is none. */
function readIfThere(path) {
  return readOnce(path).catch((trouble) => {
    if (trouble.status !== 404) {
      throw trouble;
    }
    return null;
  });
}

async function readManifest() {
  const manifest = await read(`${PUBLISHED}manifest.json`, {cache: "no-cache"});
  const latest = manifest.publications.at(-1);
  if (latest) {
    document.getElementById("source").textContent =
      `Latest publication: ${latest.publication}, of ${dateOf(latest.contentDate)}.`;
  }
  return manifest;
}

/** The head of the latest index that is there. The index of a new publication may come some seconds after it. */
async function readIndex() {
  const {publications} = await readManifest();
  for (const {publication} of publications.slice(-3).reverse()) {
    const index = await readIfThere(`${PUBLISHED}index/${publication}/index.json`);
    if (index) {
      return index;
    }
  }
  throw new Trouble(404, "There is no index of names and groups yet.");
}

function readFromIndex(index, path) {
  return readOnce(`${PUBLISHED}index/${index.publication}/${path}`);
}

/** The CRC-32 of a text in UTF-8. */
function crc32(text) {
  let rest = -1;
  for (const byte of new TextEncoder().encode(text)) {
    rest ^= byte;
    for (let bit = 0; bit < 8; bit++) {
      rest = rest >>> 1 ^ (rest & 1 ? 0xEDB88320 : 0);
    }
  }
  return ~rest >>> 0;
}

/** The value of a name in files that share names by their CRC-32, or undefined. */
async function readShared(index, folder, files, name) {
  const values = await readFromIndex(index, `${folder}/${crc32(name) % files}.json`);
  return Object.hasOwn(values, name) ? values[name] : undefined;
}

/** What the index has of an entity, or undefined. */
function readEntity(index, code) {
  return readShared(index, "entities", index.entityFiles, code);
}

/** The index, and what it has of an entity; null if it can't be read, as it only adds to a record. */
async function readEntityIfThere(code) {
  try {
    const index = await readIndex();
    return {index, entity: await readEntity(index, code)};
  } catch {
    return null;
  }
}

// ---- searches

// Where words are cut: at white space, and at what is ASCII and neither a letter nor a digit.
const SEPARATORS = /[\0-\/:-@[-`{-\x7f\x85\xa0\u1680\u2000-\u200a\u2028\u2029\u202f\u205f\u3000]+/;

/** The words of a text, by the rules of `leireg search`. */
async function wordsOf(index, text) {
  const folds = await readFromIndex(index, "fold.json");
  const letters = Array.from(text.normalize("NFKC"), (letter) => folds[letter] ?? letter);
  return letters.join("").split(SEPARATORS).filter((word) => word !== "");
}

/** The places of the records whose names have a word, ascending. */
async function placesOf(index, word) {
  let steps = await readShared(index, "words", index.wordFiles, word) ?? [];
  if (typeof steps === "number") {
    steps = await readFromIndex(index, `long/${steps}.json`);
  }
  let place = 0;
  return steps.map((step) => place += step);
}

/** The places of the records whose names have all words. */
async function findAll(index, words) {
  const [fewest, ...others] = (await Promise.all(Array.from(new Set(words), (word) => placesOf(index, word))))
    .sort((one, other) => one.length - other.length);
  const sets = others.map((places) => new Set(places));
  return fewest.filter((place) => sets.every((set) => set.has(place)));
}

/** What the list shows of the records at some places. */
function readNames(index, places) {
  return Promise.all(places.map(async (place) => {
    const names = await readFromIndex(index, `names/${Math.floor(place / index.block)}.json`);
    return names[place % index.block];
  }));
}

/** How many names have each word of a text, and those on a page. Throws if the text has no words or too many. */
async function search(text, page) {
  const index = await readIndex();
  const words = await wordsOf(index, text);
  if (words.length === 0) {
    throw new Trouble(400, "This text has no word to search for. A word has letters or digits.");
  }
  if (words.length > MOST_WORDS) {
    throw new Trouble(400, `This text has ${words.length} words. A search takes at most ${MOST_WORDS}.`);
  }
  const places = await findAll(index, words);
  const names = await readNames(index, places.slice(PAGE_SIZE * (page - 1), PAGE_SIZE * page));
  return {index, matches: places.length, names};
}

// ---- the first view

async function showHome() {
  const {publications} = await readManifest();
  const latest = publications.at(-1);
  const introduction = make("p", {}, "A Legal Entity Identifier (LEI) identifies a company, fund or branch in "
    + "contracts, trades and reports. This register says who holds an LEI, who its parents are, and what became of "
    + "it.");
  if (!latest) {
    return {title: "Look up a legal entity", nodes: [introduction, note("Nothing has been published yet.")]};
  }
  const tile = (number, thing) => make("li", {}, make("strong", {}, count(number)), thing);
  const base = latest.deltasFrom.at(-1);
  return {
    title: "Look up a legal entity",
    nodes: [
      introduction,
      section(`Publication ${latest.publication}, of ${dateOf(latest.contentDate)}`,
        make("ul", {class: "tiles"}, tile(latest.counts.lei, "records"), tile(latest.counts.rr, "relationships"),
          tile(latest.counts.repex, "reporting exceptions")),
        base ? make("p", {}, link(`changes/${base}/${latest.publication}`,
          `What changed since publication ${base}`)) : null,
        make("p", {}, link("counts", "Counts over all publications"))),
    ],
  };
}

// ---- records

async function showRecord(code = "") {
  const fault = faultOf(code);
  if (fault) {
    return explainFault(code, fault);
  }
  let record;
  try {
    record = await read(RECORDS + code);
  } catch (trouble) {
    return showNoRecord(code, trouble);
  }
  const published = await readEntityIfThere(code);
  const title = record["Entity.LegalName"] ?? code;
  return {
    title,
    heading: nameOf(title, record["Entity.LegalName.xmllang"]),
    nodes: [
      make("p", {class: "under"}, codeOf(code), stateOf(record["Registration.RegistrationStatus"] ?? "")),
      ...await remarksOn(record, published),
      groupOf(code, published),
      ...SECTIONS.map(([name, fields]) => fieldTable(name, fields, record)),
      otherFields(record),
    ],
    told: "Record as the register holds it now.",
  };
}

/** What a person has to know of the state of a record before all else. */
async function remarksOn(record, published) {
  const status = record["Registration.RegistrationStatus"];
  const successors = (record["Entity.SuccessorEntity.1.SuccessorLEI"] ?? "").split(" ").filter((code) => code !== "");
  const remarks = {
    "LAPSED": "The registration has lapsed: it wasn't renewed in time, so what it says may be out of date.",
    "RETIRED": "The entity is inactive, and its LEI is retired.",
    "DUPLICATE": "This LEI is a duplicate of another one of the same entity.",
    "ANNULLED": "This LEI is annulled.",
    "PENDING_TRANSFER": "The registration is to be transferred to another issuer.",
    "PENDING_ARCHIVAL": "The registration is being handed over to another issuer.",
  };
  const links = await Promise.all(successors.map(async (code) => {
    const entity = published && await readEntity(published.index, code).catch(() => undefined);
    return make("li", {}, link(`lei/${code}`, nameOf(entity?.name ?? code)), " ", codeOf(code));
  }));
  if (!remarks[status] && links.length === 0) {
    return [];
  }
  return [note(remarks[status] ?? "", ...(links.length > 0 ? ["Succeeded by:", make("ul", {}, ...links)] : []))];
}

function fieldTable(title, fields, record) {
  const language = record["Entity.LegalName.xmllang"];
  const rows = fields.filter(([name]) => Object.hasOwn(record, name)).map(([name, label, kind]) => make("tr", {},
    make("th", {scope: "row"}, label, make("code", {class: "raw"}, name)),
    make("td", {}, valueOf(kind, record[name], language))));
  if (rows.length === 0) {
    return null;
  }
  return make("table", {class: "fields"}, make("caption", {}, title), make("tbody", {}, ...rows));
}

/** Fields that this page has no words for. */
function otherFields(record) {
  const others = Object.keys(record).filter((name) => !FIELDS.has(name)).map((name) => [name, name, "text"]);
  return fieldTable("Other fields", others, record);
}

/** The parents of an entity, in a few lines. */
function groupOf(code, published) {
  if (!published) {
    return section("Group", make("p", {}, "The published groups can't be read at the moment."));
  }
  const {index, entity} = published;
  const title = `Group, by publication ${index.publication}`;
  if (!entity) {
    return section(title, make("p", {}, "This publication doesn't have the record yet."));
  }
  return section(title, parentLines(entity), ...disagreementOf(entity),
    make("p", {}, link(`group/${code}`, "Open the group")));
}

/** The name of an entity, which leads to its record, and its LEI. */
function entityLinks([code, name]) {
  return [link(`lei/${code}`, nameOf(name)), " ", codeOf(code)];
}

/** A line for each parent: who it is, why none is reported, or that nothing is. */
function parentLines(entity) {
  const line = (label, parent, category) => {
    const exception = (entity.exceptions ?? []).find(([each]) => each === category);
    const text = exception ? `none reported. Reason: ${inWords(exception[1]).toLowerCase()}` : "none reported";
    return make("p", {}, `${label}: `, ...(parent ? entityLinks(parent)
      : [text, exception?.[2] ? ` (${exception[2]})` : ""]));
  };
  return make("div", {class: "lines"},
    line("Direct parent", entity.direct, "DIRECT_ACCOUNTING_CONSOLIDATION_PARENT"),
    line("Ultimate parent", entity.ultimate, "ULTIMATE_ACCOUNTING_CONSOLIDATION_PARENT"));
}

/** What a person is told if the reported ultimate parent isn't the one that the direct parents lead to. */
function disagreementOf(entity) {
  if (!entity.disagrees) {
    return [];
  }
  const who = (parent) => parent ? entityLinks(parent) : ["nobody"];
  const [reported, computed] = entity.disagrees;
  return [note(
    make("p", {}, make("strong", {}, "The parents disagree.")),
    make("p", {}, "Reported as ultimate parent: ", ...who(reported)),
    make("p", {}, "The direct parents lead to: ", ...who(computed)))];
}

/** What is said if there is no record to show. The published files may know the name, even if the server is down. */
async function showNoRecord(code, trouble) {
  if (trouble.text === "LEI_UNKNOWN") {
    return {
      title: "No record for this LEI",
      nodes: [
        make("p", {class: "code"}, codeOf(code)),
        note("The register holds no record for this LEI. The code is well formed, and its check digits are right."),
      ],
    };
  }
  const published = await readEntityIfThere(code);
  const name = published?.entity && make("p", {}, `In publication ${published.index.publication} this LEI belongs to `,
    link(`group/${code}`, nameOf(published.entity.name)), ".");
  return {...showTrouble(trouble), nodes: [note(trouble.message), name || null, tryAgain()]};
}

// ---- wrong codes

function explainFault(code, fault) {
  const explain = {length: explainLength, character: explainCharacter, digits: explainDigits}[fault.kind];
  return {
    title: "This isn't an LEI",
    nodes: [
      make("p", {class: "code"}, markedCode(code, fault)),
      note(...explain(code, fault)),
      make("p", {}, "An LEI has 18 capital letters or digits, and then two check digits, which come from these."),
      make("p", {}, link(`search/${encodeURIComponent(code)}`, "Search the names for this text instead")),
    ],
  };
}

/** The code with the part marked that is wrong. */
function markedCode(code, fault) {
  const letters = Array.from(code);
  const [from, to] = {
    length: [20, letters.length],
    character: [fault.place - 1, fault.place],
    digits: [18, 20],
  }[fault.kind];
  const part = (start, end) => letters.slice(start, end).join("");
  return make("code", {}, part(0, from), make("mark", {}, part(from, to)), part(to));
}

function explainLength(code, {length}) {
  const difference = length < 20 ? `${20 - length} too few` : `${length - 20} too many`;
  return [`Its length is wrong: an LEI has 20 characters, and this text has ${length}, which is ${difference}.`];
}

function explainCharacter(code, {place, letter}) {
  const wanted = place <= 18 ? "a digit or one of the capital letters A to Z" : "a digit";
  const capitals = code.toUpperCase();
  const isHelped = capitals !== code && faultOf(capitals) === null;
  return [
    `Character ${place} is wrong: it is “${letter}”, and has to be ${wanted}.`,
    ...(isHelped ? [make("p", {}, "In capitals it is an LEI: ", link(`lei/${capitals}`, codeOf(capitals)))] : []),
  ];
}

function explainDigits(code, {given, wanted}) {
  const corrected = code.slice(0, 18) + wanted;
  return [
    `Its check digits are wrong: they are ${given}, and for the 18 characters before them they would have to be ${
      wanted}.`,
    "So at least one of the 20 characters is mistyped, perhaps not one of the last two. Compare each with your source.",
    make("p", {}, "With the other check digits: ", link(`lei/${corrected}`, codeOf(corrected))),
  ];
}

// ---- a search

async function showSearch(text = "", pageText = "1") {
  const page = Math.max(1, parseInt(pageText, 10) || 1);
  const {index, matches, names} = await search(text, page);
  const pages = Math.ceil(matches / PAGE_SIZE);
  const place = pages > 1 ? `, page ${page} of ${pages}` : "";
  const found = matches > 0 ? many(matches, "name") : "No names";
  return {
    title: `Names with “${text}”`,
    heading: make("span", {}, "Names with “", nameOf(text), "”"),
    told: `${found} found${place}, in publication ${index.publication}.`,
    nodes: [
      matches > 0 ? make("ul", {class: "list"}, ...names.map(foundName)) : noNames(text),
      pages > 1 ? pageLinks(text, page, pages) : null,
    ],
  };
}

function noNames(text) {
  return note("No legal name has each of these words, whole.",
    ...(isMeantAsCode(text) ? [make("p", {}, link(`lei/${text}`, "Look it up as an LEI"))] : []));
}

function foundName([code, name, city, country, status]) {
  return make("li", {},
    make("div", {class: "name"}, link(`lei/${code}`, nameOf(name))),
    make("div", {class: "facts"}, codeOf(code), make("bdi", {}, [city, country].filter((part) => part).join(", ")),
      inWords(status)));
}

function pageLinks(text, page, pages) {
  const to = (other, words) => link(`search/${encodeURIComponent(text)}/${other}`, words);
  return make("nav", {class: "pages", "aria-label": "Pages"},
    page > 1 ? to(page - 1, "Previous page") : null, page < pages ? to(page + 1, "Next page") : null);
}

// ---- a group

async function showGroup(code = "") {
  const fault = faultOf(code);
  if (fault) {
    return explainFault(code, fault);
  }
  const index = await readIndex();
  const entity = await readEntity(index, code);
  if (!entity) {
    return {title: "No group for this LEI", nodes: [make("p", {class: "code"}, codeOf(code)),
      note(`Publication ${index.publication} has no record for this LEI.`)]};
  }
  const above = await parentsAbove(index, code, entity);
  const title = `Group of ${entity.name}`;
  return {
    title,
    heading: make("span", {}, "Group of ", nameOf(entity.name)),
    told: `${entity.children ? many(entity.children.length, "direct subsidiary", "direct subsidiaries")
      : "No direct subsidiaries"}, by publication ${index.publication}.`,
    nodes: [
      make("p", {class: "under"}, link(`lei/${code}`, codeOf(code))),
      ...disagreementOf(entity),
      section("Parents", parentLines(entity), above.length > 0 ? parentList(above) : null),
      subsidiariesOf(index, code, entity),
      relationTable(entity),
    ],
  };
}

/** The tree of those whose direct parents lead to an entity, or that there are none. */
function subsidiariesOf(index, code, entity) {
  if (!entity.children) {
    return section("Subsidiaries", make("p", {}, "No entity reports this one as its direct parent."));
  }
  return section("Subsidiaries", treeOf(index, code, entity), make("p", {class: "hint"},
    "Arrow keys move in the tree, open it and close it. Enter shows the record."));
}

/** The direct parent, its direct parent and so on, from the top down. A walk that comes back to itself is cut. */
async function parentsAbove(index, code, entity) {
  const found = [], seen = new Set([code]);
  while (entity?.direct && !seen.has(entity.direct[0]) && found.length < MOST_STEPS) {
    const [parent, name] = entity.direct;
    seen.add(parent);
    found.unshift([parent, name]);
    entity = await readEntity(index, parent);
  }
  return found;
}

function parentList(parents) {
  const items = parents.map(([code, name]) => make("li", {}, link(`group/${code}`, nameOf(name)), " ", codeOf(code)));
  return make("div", {}, make("p", {}, "The direct parents, from the top:"), make("ol", {class: "parents"}, ...items));
}

/** Relationships other than those to the parents that count. */
function relationTable(entity) {
  const rows = [[entity.to ?? [], 0], [entity.from ?? [], 1]].flatMap(([relations, side]) => relations
    .slice(0, MOST_CHILDREN)
    .map(([kind, code, name, status]) => make("tr", {},
      make("td", {}, RELATIONSHIPS[kind]?.[side] ?? kind, make("code", {class: "raw"}, kind)),
      make("td", {}, link(`group/${code}`, nameOf(name)), " ", codeOf(code)),
      make("td", {}, inWords(status)))));
  if (rows.length === 0) {
    return null;
  }
  const heads = ["Relationship", "Entity", "Status"].map((head) => make("th", {scope: "col"}, head));
  return make("table", {}, make("caption", {}, "Other relationships"), make("thead", {}, make("tr", {}, ...heads)),
    make("tbody", {}, ...rows));
}

// ---- the tree

/** The tree below an entity, whose first level is open. */
function treeOf(index, code, entity) {
  const tree = make("ul", {class: "tree", role: "tree", "aria-label": "Subsidiaries"});
  const root = treeItem([code, entity.name, entity.children.length, entity.disagrees ? 1 : 0], 1, 1, 1);
  root.tabIndex = 0;
  tree.append(root);
  addChildren(root, entity.children);
  setOpen(root, true);
  tree.addEventListener("keydown", (event) => moveInTree(index, tree, event));
  tree.addEventListener("click", (event) => {
    const item = event.target.closest("[role=treeitem]");
    if (item && !event.target.closest("a")) {
      focusItem(tree, item);
      toggle(index, item);
    }
  });
  return tree;
}

function treeItem([code, name, children, disagrees], level, place, size) {
  const below = many(children, "subsidiary", "subsidiaries");
  const label = [name, code, below, disagrees ? "parents disagree" : ""].filter((part) => part !== "").join(", ");
  const row = make("div", {class: "row"},
    make("span", {class: "twist", "aria-hidden": "true"}, children ? "▸" : "·"),
    make("div", {},
      make("a", {href: `#/lei/${code}`, tabindex: "-1"}, nameOf(name)),
      make("div", {class: "facts"}, codeOf(code), children ? below : null,
        disagrees ? make("span", {class: "mark"}, "Parents disagree") : null)));
  const item = make("li", {role: "treeitem", tabindex: "-1", "aria-level": level, "aria-posinset": place,
    "aria-setsize": size, "aria-label": label, "data-code": code}, row);
  if (children) {
    item.setAttribute("aria-expanded", "false");
  }
  return item;
}

/** Puts the children into an item, those that lie on the way up to it left out, as they would never end. */
function addChildren(item, children) {
  const above = new Set();
  for (let each = item; each; each = each.parentElement.closest("[role=treeitem]")) {
    above.add(each.dataset.code);
  }
  const shown = children.filter(([code]) => !above.has(code)).slice(0, MOST_CHILDREN);
  const level = Number(item.getAttribute("aria-level")) + 1;
  const group = make("ul", {role: "group"}, ...shown.map((child, at) => treeItem(child, level, at + 1, shown.length)));
  item.append(group);
  if (children.length > MOST_CHILDREN) {
    item.append(make("p", {class: "small"}, `The first ${MOST_CHILDREN} of ${count(children.length)} are shown.`));
  }
}

function setOpen(item, isOpen) {
  if (!item.hasAttribute("aria-expanded")) {
    return;
  }
  item.setAttribute("aria-expanded", String(isOpen));
  item.querySelector(".twist").textContent = isOpen ? "▾" : "▸";
  for (const part of item.querySelectorAll(":scope > ul, :scope > p")) {
    part.hidden = !isOpen;
  }
}

/** Opens an item, whose children are read first if need be. */
async function openItem(index, item) {
  if (!item.querySelector(":scope > ul")) {
    const entity = await readEntity(index, item.dataset.code).catch(announceTrouble);
    if (!entity || item.querySelector(":scope > ul")) {
      return;
    }
    addChildren(item, entity.children ?? []);
  }
  setOpen(item, true);
}

function toggle(index, item) {
  if (item.getAttribute("aria-expanded") === "true") {
    setOpen(item, false);
  } else if (item.hasAttribute("aria-expanded")) {
    openItem(index, item);
  }
}

function focusItem(tree, item) {
  tree.querySelector("[tabindex='0']").tabIndex = -1;
  item.tabIndex = 0;
  item.focus();
}

/** The items that can be seen, from the top down. */
function visibleItems(tree) {
  return Array.from(tree.querySelectorAll("[role=treeitem]")).filter((item) => !item.parentElement.closest("[hidden]"));
}

/** Does what a key does in a tree, by the practices of ARIA. */
function moveInTree(index, tree, event) {
  const item = event.target.closest("[role=treeitem]");
  if (!item || event.ctrlKey || event.altKey || event.metaKey) {
    return;
  }
  const items = visibleItems(tree), at = items.indexOf(item), isOpen = item.getAttribute("aria-expanded") === "true";
  const actions = {
    ArrowDown: () => items[at + 1],
    ArrowUp: () => items[at - 1],
    Home: () => items[0],
    End: () => items.at(-1),
    ArrowRight: () => isOpen ? item.querySelector("[role=treeitem]") : void toggle(index, item),
    ArrowLeft: () => isOpen ? void setOpen(item, false) : item.parentElement.closest("[role=treeitem]"),
    Enter: () => void (location.hash = `#/lei/${item.dataset.code}`),
  };
  if (Object.hasOwn(actions, event.key)) {
    event.preventDefault();
  }
  const next = Object.hasOwn(actions, event.key) ? actions[event.key]() : nextByLetter(items, at, event.key);
  if (next) {
    focusItem(tree, next);
  }
}

/** The next item whose name begins with what a key writes, from the top again after the last one. */
function nextByLetter(items, at, key) {
  const isNamed = (item) => item.getAttribute("aria-label").toLowerCase().startsWith(key.toLowerCase());
  return key.length === 1 ? [...items.slice(at + 1), ...items.slice(0, at)].find(isNamed) : undefined;
}

// ---- changes

async function showChanges(baseText, numberText) {
  const {publications} = await readManifest();
  const choices = publications.filter(({deltasFrom}) => deltasFrom.length > 0);
  const latest = choices.at(-1);
  if (!latest) {
    return {title: "What changed", nodes: [note("There are no two publications yet that can be compared.")]};
  }
  const number = numberText ? Number(numberText) : latest.publication;
  const later = choices.find(({publication}) => publication === number);
  const base = baseText ? Number(baseText) : latest.deltasFrom.at(-1);
  const choice = chooser(choices, base, number);
  if (!later?.deltasFrom.includes(base)) {
    return {title: "What changed", nodes: [choice, note(`No changes from publication ${baseText ?? base} to ${
      numberText ?? number} were published. Choose two others.`)]};
  }
  const tables = await readChanges(base, number);
  return {
    title: `What changed from publication ${base} to ${number}`,
    told: tables.map(({table, delta}) => delta ? many(delta.recordCount, THINGS[table]) : "").filter((part) => part)
      .join(", ") + ` changed between ${periodOf(publications, base, number)}.`,
    nodes: [choice, ...tables.map(changeSection)],
  };
}

const THINGS = {lei: "record", rr: "relationship", repex: "exception"};

function periodOf(publications, ...numbers) {
  return numbers.map((number) => {
    const found = publications.find(({publication}) => publication === number);
    return found ? dateOf(found.contentDate) : `publication ${number}`;
  }).join(" and ");
}

/** What the deltas between two publications have, and what the index adds to it: earlier rows, and names. */
async function readChanges(base, number) {
  const about = await readOnce(`${PUBLISHED}publication/${number}.json`);
  const index = await readIfThere(`${PUBLISHED}index/${number}/index.json`);
  const added = index ? await readFromIndex(index, `changes/${base}.json`) : {names: {}, rows: null};
  return Promise.all(TABLES.map(async (table) => {
    const path = `${table}/${base}-${number}.json`;
    const size = about.files.find((file) => file.path === path)?.bytes ?? 0;
    return {table, path, size, added, delta: size > LARGEST_DELTA ? null : await readOnce(PUBLISHED + path)};
  }));
}

/** Two lists of publications, of which the second has those that were compared with the first. */
function chooser(choices, base, number) {
  const option = (value, chosen) => make("option", value === chosen ? {value, selected: ""} : {value}, String(value));
  const later = make("select", {id: "later"}, ...choices.map(({publication}) => option(publication, number)).reverse());
  const earlier = make("select", {id: "earlier"});
  const fill = () => {
    const found = choices.find(({publication}) => publication === Number(later.value));
    earlier.replaceChildren(...found.deltasFrom.map((each) => option(each, base)));
  };
  fill();
  later.addEventListener("change", fill);
  const form = make("form", {class: "choice"},
    make("div", {}, make("label", {for: "later"}, "Publication"), later),
    make("div", {}, make("label", {for: "earlier"}, "compared with"), earlier),
    make("button", {type: "submit"}, "Show changes"));
  form.addEventListener("submit", (event) => {
    event.preventDefault();
    go(`changes/${earlier.value}/${later.value}`);
  });
  return form;
}

function changeSection({table, path, size, added, delta}) {
  const title = `${inWords(THINGS[table])}s`;
  const file = make("p", {class: "small"}, "All changes as a file: ",
    make("a", {href: PUBLISHED + path}, path), ` (${count(size)} bytes)`);
  if (!delta) {
    return section(title, make("p", {}, "There are too many changes to show them here."), file);
  }
  if (delta.recordCount === 0) {
    return section(title, make("p", {}, "No changes."));
  }
  const rest = delta.recordCount > MOST_CHANGES
    ? make("p", {}, `The first ${MOST_CHANGES} of ${count(delta.recordCount)} changes are shown.`) : null;
  const items = delta.records.slice(0, MOST_CHANGES).map((change) => changeItem(table, change, added));
  return section(title, rest, make("ul", {class: "list"}, ...items), file);
}

const KEYS = {
  lei: ["LEI"],
  rr: ["Relationship.StartNode", "Relationship.RelationshipType", "Relationship.EndNode"],
  repex: ["LEI", "ExceptionCategory"],
};

/** A change: what it is about, what happened to it, and the fields that differ if the earlier row is known. */
function changeItem(table, {action, record}, {names, rows}) {
  const key = KEYS[table].map((name) => record[name] ?? "").join(" ");
  const before = rows && (Object.hasOwn(rows[table], key) ? rows[table][key] : null);
  const steps = action === "PUT" && before ? differences(before, record) : [];
  const fact = action === "DROP" ? "Removed" : !rows ? "Added or changed" : !before ? "Added"
    : steps.length > 0 ? "Changed" : "Sent again, the same as before";
  const about = {lei: aboutRecord, rr: aboutRelationship, repex: aboutException}[table];
  const [head, ...facts] = about(record, before, names);
  return make("li", {}, head,
    make("div", {class: "facts"}, make("span", {class: "change"}, fact), ...facts.filter((each) => each !== null)),
    steps.length > 0 ? make("ul", {class: "steps"}, ...steps) : null);
}

// What a change is about: a line, and what stands below it.

function aboutRecord(record, before) {
  const name = (before ?? record)["Entity.LegalName"];
  const language = (before ?? record)["Entity.LegalName.xmllang"];
  const status = record["Registration.RegistrationStatus"];
  return [
    make("div", {class: "name"}, link(`lei/${record.LEI}`, name ? nameOf(name, language) : record.LEI)),
    codeOf(record.LEI), status ? inWords(status) : null,
  ];
}

function aboutRelationship(record, _before, names) {
  const [start, kind, end] = KEYS.rr.map((name) => record[name]);
  const words = RELATIONSHIPS[kind]?.[0] ?? kind;
  const who = (code) => make("span", {class: "name"}, link(`group/${code}`, nameOf(names[code] ?? code)));
  return [
    make("div", {}, who(start), ` ${words.charAt(0).toLowerCase()}${words.slice(1)} `, who(end)),
    codeOf(start), codeOf(end),
  ];
}

function aboutException(record, _before, names) {
  const parent = EXCEPTIONS[record.ExceptionCategory] ?? record.ExceptionCategory;
  return [
    make("div", {class: "name"}, link(`lei/${record.LEI}`, nameOf(names[record.LEI] ?? record.LEI))),
    codeOf(record.LEI), `Why it reports no ${parent}`, record.ExceptionReason ? inWords(record.ExceptionReason) : null,
  ];
}

/** A line for each field that differs between two rows, in the order in which a record is shown. */
function differences(before, after) {
  const names = new Set([...FIELDS.keys(), ...Object.keys(before), ...Object.keys(after)]);
  return Array.from(names).filter((name) => before[name] !== after[name]).map((name) => {
    const [label, kind] = FIELDS.get(name) ?? [name, "text"];
    const value = (row, tag) => name in row ? make(tag, {}, valueOf(kind, row[name])) : "absent";
    return make("li", {}, `${label}: `, value(before, "del"), " → ", value(after, "ins"));
  });
}

// ---- counts

async function showCounts() {
  const {publications} = await readManifest();
  if (publications.length === 0) {
    return {title: "Counts over publications", nodes: [note("Nothing has been published yet.")]};
  }
  const shown = [["lei", "Records"], ["rr", "Relationships"], ["repex", "Reporting exceptions"]];
  return {
    title: "Counts over publications",
    told: `${many(publications.length, "publication")}, from ${dateOf(publications[0].contentDate)} to ${
      dateOf(publications.at(-1).contentDate)}.`,
    nodes: [
      ...shown.map(([table, title]) => chart(title, publications, table)),
      make("p", {class: "small"}, "Each scale goes from the least count to the greatest one. Publications stand at "
        + "equal distances."),
      countTable(publications),
    ],
  };
}

const WIDEST = 720, HEIGHT = 132, LEFT = 62, RIGHT = 14, TOP = 12, BOTTOM = 26;

/** A line over the publications in order, between the least and the greatest count. */
function chart(title, publications, table) {
  const width = Math.min(WIDEST, document.getElementById("view").clientWidth);
  const counts = publications.map((each) => each.counts[table]);
  const least = Math.min(...counts), most = Math.max(...counts);
  const x = (at) => LEFT + (width - LEFT - RIGHT) * (counts.length > 1 ? at / (counts.length - 1) : 0.5);
  const y = (value) => TOP + (HEIGHT - TOP - BOTTOM) * (most > least ? (most - value) / (most - least) : 0.5);
  const say = (at) => `${count(counts.at(at))} in publication ${publications.at(at).publication}`;
  const label = `${title}: ${say(0)}, ${say(-1)}, least ${count(least)}, most ${count(most)}`;
  const marks = Array.from(new Set([least, most]), (value) => [value, y(value)]);
  const points = counts.length <= 40 ? counts.map((value, at) => draw("circle",
    {class: "point", cx: x(at), cy: y(value), r: 3.5})) : [];
  return make("figure", {}, make("figcaption", {}, title),
    draw("svg", {viewBox: `0 0 ${width} ${HEIGHT}`, role: "img", "aria-label": label},
      ...marks.map(([, height]) => draw("line", {class: "axis", x1: LEFT, x2: width - RIGHT, y1: height, y2: height})),
      ...marks.map(([value, height]) => draw("text", {x: LEFT - 8, y: height + 4, "text-anchor": "end"}, count(value))),
      draw("polyline", {class: "curve", points: counts.map((value, at) => `${x(at)},${y(value)}`).join(" ")}),
      ...points, ...timeMarks(publications, x)));
}

/** The first and the last publication below a chart. */
function timeMarks(publications, x) {
  const mark = (at, anchor) => draw("text", {x: x(at), y: HEIGHT - 6, "text-anchor": anchor},
    `${publications[at].publication} (${dateOf(publications[at].contentDate)})`);
  return publications.length > 1 ? [mark(0, "start"), mark(publications.length - 1, "end")] : [mark(0, "middle")];
}

function countTable(publications) {
  const heads = ["Publication", "Records", "Relation\u00adships", "Exceptions"];
  const cell = (number) => make("td", {class: "number"}, count(number));
  const rows = publications.map(({publication, contentDate, counts, deltasFrom}) => {
    const base = deltasFrom.at(-1);
    const text = `${publication}, ${dateOf(contentDate)}`;
    return make("tr", {}, make("th", {scope: "row"}, base ? link(`changes/${base}/${publication}`, text) : text),
      cell(counts.lei), cell(counts.rr), cell(counts.repex));
  }).reverse();
  return make("table", {class: "counts"}, make("caption", {}, "The same counts as numbers"),
    make("thead", {}, make("tr", {}, ...heads.map((head, at) => make("th", at ? {scope: "col", class: "number"}
      : {scope: "col"}, head)))),
    make("tbody", {}, ...rows));
}

// ---- views

const VIEWS = {
  "": showHome,
  lei: showRecord,
  search: showSearch,
  group: showGroup,
  changes: showChanges,
  counts: showCounts,
};
const TITLE = "Register of legal entities";
const LONG_TITLE = 120;
let turns = 0;

function showTrouble(trouble) {
  return {title: trouble.status === 400 ? "Nothing to search for" : "This can't be shown now",
    nodes: [note(trouble.message), trouble.status === 400 ? null : tryAgain()]};
}

function tryAgain() {
  const button = make("button", {type: "button"}, "Try again");
  button.addEventListener("click", show);
  return make("p", {}, button);
}

/** The parts of the fragment, and no view if it can't be read. */
function partsOf(fragment) {
  try {
    return fragment.replace(/^#\/?/, "").split("/").map(decodeURIComponent);
  } catch {
    return ["unknown"];
  }
}

async function viewOf([name, ...rest]) {
  if (!Object.hasOwn(VIEWS, name)) {
    return {title: "There is no such view", nodes: [note("The address of this view is wrong.")]};
  }
  try {
    return await VIEWS[name](...rest);
  } catch (trouble) {
    if (trouble instanceof Trouble) {
      return showTrouble(trouble);
    }
    console.error(trouble);
    return showTrouble(new Trouble(0, "What came from the register isn't in the form that this page reads."));
  }
}

/** Shows the view that the fragment names, unless another one is asked for before it is ready. */
async function show() {
  const turn = ++turns, main = document.getElementById("main");
  main.setAttribute("aria-busy", "true");
  const parts = partsOf(location.hash);
  const view = await viewOf(parts);
  if (turn !== turns) {
    return;
  }
  const heading = document.getElementById("heading");
  heading.className = view.title.length > LONG_TITLE ? "long" : "";
  heading.replaceChildren(view.heading ?? view.title);
  document.getElementById("view").replaceChildren(...view.nodes.filter((node) => node !== null));
  document.getElementById("status").textContent = view.told ?? "";
  document.title = parts[0] ? `${view.title} - ${TITLE}` : TITLE;
  markPlace(parts);
  main.setAttribute("aria-busy", "false");
  if (turn > 1) {
    scrollTo(0, 0);
    heading.focus();
  }
  performance.mark("shown");
}

/** Puts what was asked for into the field, and marks the place in the navigation. */
function markPlace([name, text]) {
  const field = document.getElementById("words");
  field.value = ["lei", "search", "group"].includes(name) ? text ?? "" : "";
  for (const each of document.querySelectorAll("nav[aria-label=Main] a")) {
    if (each.hash.split("/")[1] === name) {
      each.setAttribute("aria-current", "page");
    } else {
      each.removeAttribute("aria-current");
    }
  }
}

function announceTrouble(trouble) {
  document.getElementById("status").textContent = trouble.message;
}

/** Goes to a view, and shows it anew if it is there already. */
function go(fragment) {
  if (location.hash === `#/${fragment}`) {
    show();
  } else {
    location.hash = `#/${fragment}`;
  }
}

function find(event) {
  event.preventDefault();
  const text = document.getElementById("words").value.trim().toWellFormed();
  if (text !== "") {
    go(`${isMeantAsCode(text) ? "lei" : "search"}/${encodeURIComponent(text)}`);
  }
}

document.getElementById("finder").addEventListener("submit", find);
document.getElementById("skip").addEventListener("click", (event) => {
  event.preventDefault();
  document.getElementById("main").focus();
});
addEventListener("hashchange", show);
show();
