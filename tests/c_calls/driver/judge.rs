//! A judge of soundness that knows nothing of the library: document 01's "A sound state", clause by clause, and request T-08's.

use crate::fields::{list_number, Fields, Record, FRESH, LISTS, NEVER, NONE, RECORDS, REST, VERSION};
use crate::lent::IMAGE_BYTES;

/// The clauses, in the order in which the judge looks at them.
#[derive(Clone, Copy, PartialEq, Eq, Debug)]
pub enum Clause {
    /// version 3, length of the rest 6442, enabled bytes 0 or 1
    Layout,
    /// first, heads and links are none or 0 to 255
    LinkNumber,
    /// start <= end < 2^63
    Range,
    /// an unused record equals the fresh one
    Unused,
    /// `next` meets exactly the enabled records, once, and ends
    Chain,
    /// `previous` is the reverse
    Previous,
    /// by address, no two overlapping or touching
    Address,
    /// `list_next` meets exactly the enabled records of the list's number, once, and ends
    List,
    /// sizes never fall
    Sizes,
    /// `list_prev` is the reverse
    ListPrev,
    /// the total is the sum of sizes
    Total,
    /// the lowest figure is not above the total, or nothing is free and it is 2^64-1
    Lowest,
}

/// The first clause that the image breaks; none for a sound image.
pub fn broken_clause(image: &[u8; IMAGE_BYTES]) -> Option<Clause> {
    let fields = Fields::read(image);
    judge(&fields).err()
}

pub fn is_sound(image: &[u8; IMAGE_BYTES]) -> bool {
    broken_clause(image).is_none()
}

fn judge(fields: &Fields) -> Result<(), Clause> {
    judge_records(fields)?;
    judge_chain(fields)?;
    judge_lists(fields)?;
    let used = fields.records.iter().filter(|record| record.enabled == 1);
    require(fields.total as u128 == used.map(|record| record.size() as u128).sum(), Clause::Total)?;
    require(fields.lowest <= fields.total || (fields.first == NONE && fields.lowest == NEVER), Clause::Lowest)
}

fn judge_records(fields: &Fields) -> Result<(), Clause> {
    let is_link = |link: u16| link == NONE || (link as usize) < RECORDS;
    let links_of = |record: &Record| [record.previous, record.next, record.list_prev, record.list_next];
    let laid_out = fields.version == VERSION && fields.rest == REST;
    require(laid_out && fields.records.iter().all(|record| record.enabled <= 1), Clause::Layout)?;
    require(is_link(fields.first) && fields.heads.into_iter().all(is_link), Clause::LinkNumber)?;
    require(fields.records.iter().flat_map(links_of).all(is_link), Clause::LinkNumber)?;
    for record in &fields.records {
        if record.enabled == 1 {
            require(record.start <= record.end && record.end < 1 << 63, Clause::Range)?;
        } else {
            require(*record == FRESH, Clause::Unused)?;
        }
    }
    Ok(())
}

fn judge_chain(fields: &Fields) -> Result<(), Clause> {
    let records = &fields.records;
    let met = walk(fields.first, |at| records[at].next).ok_or(Clause::Chain)?;
    require(are_members(&met, |at| records[at].enabled == 1), Clause::Chain)?;
    require(is_reverse(&met, |at| records[at].previous), Clause::Previous)?;
    let apart = met.windows(2).all(|pair| records[pair[0]].end + 1 < records[pair[1]].start);
    require(apart, Clause::Address)
}

fn judge_lists(fields: &Fields) -> Result<(), Clause> {
    let records = &fields.records;
    for list in 0..LISTS {
        let is_member = |at: usize| records[at].enabled == 1 && list_number(records[at].size()) == list;
        let met = walk(fields.heads[list], |at| records[at].list_next).ok_or(Clause::List)?;
        require(are_members(&met, is_member), Clause::List)?;
        let rising = met.windows(2).all(|pair| records[pair[0]].size() <= records[pair[1]].size());
        require(rising, Clause::Sizes)?;
        require(is_reverse(&met, |at| records[at].list_prev), Clause::ListPrev)?;
    }
    Ok(())
}

/// The records met from `first` to the end, in order; none if there is no end.
fn walk(first: u16, next: impl Fn(usize) -> u16) -> Option<Vec<usize>> {
    let mut met = Vec::with_capacity(RECORDS);
    let mut at = first;
    while at != NONE {
        if met.len() == RECORDS {
            return None;
        }
        met.push(at as usize);
        at = next(at as usize);
    }
    Some(met)
}

/// A walk that ended met no record twice, so counting tells whether it met all members.
fn are_members(met: &[usize], is_member: impl Fn(usize) -> bool) -> bool {
    met.iter().all(|&at| is_member(at)) && met.len() == (0..RECORDS).filter(|&at| is_member(at)).count()
}

fn is_reverse(met: &[usize], back: impl Fn(usize) -> u16) -> bool {
    let mut before = NONE;
    met.iter().all(|&at| back(at) == std::mem::replace(&mut before, at as u16))
}

fn require(holds: bool, clause: Clause) -> Result<(), Clause> {
    holds.then_some(()).ok_or(clause)
}
