//! Sheets: the bytes that carry a flow, plain or with labels.

use crate::labels::{self, Kind, LabelledLts, LABEL};
use crate::lts::{Lts, Transition};
use crate::refusal::Refusal;
use std::iter::successors;

/// Bytes of the header.
pub const HEADER: usize = 6;
/// Bytes of a page record.
pub const PAGE_RECORD: usize = 4;
/// Bytes of a move record.
pub const MOVE_RECORD: usize = 6;
/// The largest n.
pub const MOST_PAGES: usize = 256;
/// The largest m.
pub const MOST_ACTIONS: usize = 64;
/// The largest k.
pub const MOST_MOVES: usize = 1024;

/// What a named sheet has added to its first number.
pub const NAMED: u16 = 0x8000;

/// The length of a plain sheet with `n` pages and `k` move records.
pub fn length(n: usize, k: usize) -> usize {
    HEADER + PAGE_RECORD * n + MOVE_RECORD * k
}

/// The length of a named sheet with `n` pages, `m` labels and `k` move records.
pub fn named_length(n: usize, m: usize, k: usize) -> usize {
    length(n, k) + LABEL * m
}

/// The kind and the counts that a header gives.
struct Header {
    kind: Kind,
    n: usize,
    m: usize,
    k: usize,
}

impl Header {
    /// The length that the counts say.
    fn length(&self) -> usize {
        match self.kind {
            Kind::Plain => length(self.n, self.k),
            Kind::Named => named_length(self.n, self.m, self.k),
        }
    }
}

/// A page record, as it stands.
struct PageRecord {
    mark: u8,
    spare: u8,
    first: usize,
}

/// A move record, as it stands.
struct MoveRecord {
    action: usize,
    spare: u8,
    target: usize,
    next: usize,
}

/// Reads a sheet of either kind; the refusal if it is not readable.
pub fn read(bytes: &[u8]) -> Result<Lts, Refusal> {
    read_labelled(bytes).map(|labelled| labelled.lts().clone())
}

/// The labels of a sheet's actions, decimal for a plain sheet.
pub fn labels(bytes: &[u8]) -> Result<Vec<String>, Refusal> {
    read_labelled(bytes).map(|labelled| labelled.labels().to_vec())
}

/// Reads a sheet with its kind and labels.
pub fn read_labelled(bytes: &[u8]) -> Result<LabelledLts, Refusal> {
    let header = read_header(bytes)?;
    let after_header = &bytes[HEADER..];
    if header.kind == Kind::Plain {
        return Ok(LabelledLts::plain(read_flow(after_header, &header)?));
    }
    let (fields, after_labels) = after_header.split_at(LABEL * header.m);
    let labels = read_labels(fields)?;
    let lts = read_flow(after_labels, &header)?;
    Ok(LabelledLts::named(lts, labels))
}

/// The labels; refused if one is bad or comes twice.
fn read_labels(fields: &[u8]) -> Result<Vec<String>, Refusal> {
    let labels: Vec<String> = fields
        .chunks_exact(LABEL)
        .map(labels::read)
        .collect::<Result<_, _>>()?;
    if labels::all_differ(&labels) {
        Ok(labels)
    } else {
        Err(Refusal::LABEL)
    }
}

/// The flow that the page and move records carry.
fn read_flow(bytes: &[u8], header: &Header) -> Result<Lts, Refusal> {
    let pages = read_pages(bytes, header)?;
    let records = read_records(bytes, header)?;
    let chains: Vec<Vec<usize>> = pages
        .iter()
        .map(|page| chain_from(page.first, &records))
        .collect();
    refuse_unreached(&chains, &records)?;
    refuse_reached_twice(&pages, &records)?;
    refuse_repeats(&chains, &records)?;
    let end_marks = pages.iter().map(|page| page.mark == 1).collect();
    let mut transitions = Vec::new();
    for (source, chain) in chains.iter().enumerate() {
        for &index in chain {
            let record = &records[index - 1];
            transitions.push(Transition {
                source,
                action: record.action,
                target: record.target,
            });
        }
    }
    Ok(Lts::new(header.m, end_marks, transitions))
}

/// Writes the plain normal form of a flow.
pub fn write(lts: &Lts) -> Vec<u8> {
    let mut bytes = Vec::new();
    for count in [lts.states(), lts.actions(), lts.transitions().len()] {
        push_number(&mut bytes, count);
    }
    let mut index = 1;
    for p in 0..lts.states() {
        let moves = lts.moves_of(p).len();
        bytes.extend([u8::from(lts.has_end_mark(p)), 0]);
        push_number(&mut bytes, if moves > 0 { index } else { 0 });
        index += moves;
    }
    let mut index = 1;
    for p in 0..lts.states() {
        let moves = lts.moves_of(p);
        for (place, t) in moves.iter().enumerate() {
            let last = place + 1 == moves.len();
            bytes.extend([t.action as u8, 0]);
            push_number(&mut bytes, t.target);
            push_number(&mut bytes, if last { 0 } else { index + 1 });
            index += 1;
        }
    }
    bytes
}

/// Writes the normal form of a flow, of its own kind.
pub fn write_labelled(labelled: &LabelledLts) -> Vec<u8> {
    let plain = write(labelled.lts());
    match labelled.kind() {
        Kind::Plain => plain,
        Kind::Named => with_labels(&plain, labelled.labels()),
    }
}

/// The named sheet with the records of a plain one, as they stand.
pub fn with_labels(plain: &[u8], labels: &[String]) -> Vec<u8> {
    let fields: Vec<[u8; LABEL]> = labels
        .iter()
        .map(|label| labels::field(label.as_bytes()))
        .collect();
    with_fields(plain, &fields)
}

/// The same with any fields in the labels' place; the sheet need not be readable.
pub fn with_fields(plain: &[u8], fields: &[[u8; LABEL]]) -> Vec<u8> {
    let (header, records) = plain.split_at(HEADER);
    let mut bytes = [header, &fields.concat(), records].concat();
    bytes[1] |= (NAMED >> 8) as u8;
    bytes
}

/// Normalise: writes the normal form of the sheet, of its own kind, into a
/// buffer of the sheet's own length. A refusal leaves the buffer as it is.
pub fn normalise(sheet: &[u8], out: &mut [u8]) -> Result<(), Refusal> {
    let labelled = read_labelled(sheet)?;
    if out.len() != sheet.len() {
        return Err(Refusal::BUFFER);
    }
    out.copy_from_slice(&write_labelled(&labelled));
    Ok(())
}

/// Adds a 16-bit number, low byte first.
fn push_number(bytes: &mut Vec<u8>, number: usize) {
    bytes.extend((number as u16).to_le_bytes());
}

/// The 16-bit number at a place.
fn number_at(bytes: &[u8], at: usize) -> usize {
    usize::from(bytes[at]) + 256 * usize::from(bytes[at + 1])
}

/// The header; also checks that the length is the one that its counts say.
fn read_header(bytes: &[u8]) -> Result<Header, Refusal> {
    if bytes.len() < HEADER {
        return Err(Refusal::LENGTH);
    }
    let [first, m, k] = [0, 2, 4].map(|at| number_at(bytes, at));
    let named = usize::from(NAMED);
    let (kind, n) = if first >= named {
        (Kind::Named, first - named)
    } else {
        (Kind::Plain, first)
    };
    if !(1..=MOST_PAGES).contains(&n) || m > MOST_ACTIONS || k > MOST_MOVES {
        return Err(Refusal::RANGE);
    }
    let header = Header { kind, n, m, k };
    if bytes.len() != header.length() {
        return Err(Refusal::LENGTH);
    }
    Ok(header)
}

/// The page records at the beginning; refused if one breaks a rule.
fn read_pages(bytes: &[u8], header: &Header) -> Result<Vec<PageRecord>, Refusal> {
    let mut pages = Vec::new();
    for p in 0..header.n {
        let at = PAGE_RECORD * p;
        let page = PageRecord {
            mark: bytes[at],
            spare: bytes[at + 1],
            first: number_at(bytes, at + 2),
        };
        if page.mark > 1 || page.spare != 0 || page.first > header.k {
            return Err(Refusal::PAGE_RECORD);
        }
        pages.push(page);
    }
    Ok(pages)
}

/// The move records after them; refused if one breaks a rule.
fn read_records(bytes: &[u8], header: &Header) -> Result<Vec<MoveRecord>, Refusal> {
    let mut records = Vec::new();
    for i in 0..header.k {
        let at = PAGE_RECORD * header.n + MOVE_RECORD * i;
        let record = MoveRecord {
            action: usize::from(bytes[at]),
            spare: bytes[at + 1],
            target: number_at(bytes, at + 2),
            next: number_at(bytes, at + 4),
        };
        let action_fits = 1 <= record.action && record.action <= header.m;
        if !action_fits || record.spare != 0 || record.target >= header.n || record.next > header.k
        {
            return Err(Refusal::MOVE_RECORD);
        }
        records.push(record);
    }
    Ok(records)
}

/// The records of the chain that begins at an index, by number. A chain that
/// goes round has, after as many steps as there are records, been at each
/// record that it ever comes to, and is cut there.
fn chain_from(first: usize, records: &[MoveRecord]) -> Vec<usize> {
    let named = |index: usize| if index == 0 { None } else { Some(index) };
    successors(named(first), |&index| named(records[index - 1].next))
        .take(records.len())
        .collect()
}

/// Refuses the lowest record that no chain holds.
fn refuse_unreached(chains: &[Vec<usize>], records: &[MoveRecord]) -> Result<(), Refusal> {
    let mut held = vec![false; records.len() + 1];
    for &index in chains.iter().flatten() {
        held[index] = true;
    }
    match (1..=records.len()).find(|&index| !held[index]) {
        Some(index) => Err(Refusal::unreached(index as u16)),
        None => Ok(()),
    }
}

/// Refuses the lowest record that two or more indices name, out of the first
/// indices of all pages and the next indices of all records.
fn refuse_reached_twice(pages: &[PageRecord], records: &[MoveRecord]) -> Result<(), Refusal> {
    let firsts = pages.iter().map(|page| page.first);
    let nexts = records.iter().map(|record| record.next);
    let mut times_named = vec![0; records.len() + 1];
    for index in firsts.chain(nexts) {
        times_named[index] += 1;
    }
    match (1..=records.len()).find(|&index| times_named[index] > 1) {
        Some(index) => Err(Refusal::reached_twice(index as u16)),
        None => Ok(()),
    }
}

/// Refuses a chain that holds the same action and target twice.
fn refuse_repeats(chains: &[Vec<usize>], records: &[MoveRecord]) -> Result<(), Refusal> {
    for chain in chains {
        let mut seen: Vec<(usize, usize)> = Vec::new();
        for &index in chain {
            let record = &records[index - 1];
            let step = (record.action, record.target);
            if seen.contains(&step) {
                return Err(Refusal::TWICE);
            }
            seen.push(step);
        }
    }
    Ok(())
}
