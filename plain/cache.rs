// The bridge with a translation cache: 256 slots of last words, shared by all PEs, in the place of
// the walk; edits of memory words, which drop what was found through them; and invalidates.
//
// `handle` follows `Right`. A rule that differs from it in one method is a wrong cached bridge: the
// tests have some. The file that includes this one has `bridge`.

use super::bridge::{
    allows, done, half_and_offset, refuse, Answer, Begun, Bridge, Found, Name, Page, Pages, Record,
    Request, Stopped, Wanted,
};

/// The slots, and the words of each: PE + 1, half, page number, last word. A slot whose first word is
/// 0 is empty, whatever its other words are.
pub const SLOTS: usize = 256;
pub const SLOT_WORDS: usize = 4;
pub const CACHE_WORDS: usize = SLOTS * SLOT_WORDS;

/// A request of the bridge without a cache, a write of one memory word by its number, or an
/// invalidate.
#[derive(Clone, Copy, Debug, PartialEq, Eq)]
pub enum Operation {
    Request(Request),
    Edit { number: u64, value: u64 },
    Invalidate(Scope),
}

/// What an invalidate drops: all, what is of a PE, or the page of a PE around an address.
#[derive(Clone, Copy, Debug, PartialEq, Eq)]
pub enum Scope {
    All,
    Pe(u64),
    Address { pe: u64, address: u64 },
}

/// What an invalidate names on given tables.
#[derive(Clone, Copy, Debug, PartialEq, Eq)]
pub enum Named {
    All,
    Pe(u64),
    Page(Page),
    Nothing,
}

/// How the cache is used.
pub trait Rule {
    /// The slot of a page.
    fn slot_of(&self, page: &Page) -> usize {
        ((page.number + 37 * (2 * page.pe + page.half)) % SLOTS as u64) as usize
    }

    fn is_full(&self, slot: &[u64]) -> bool {
        slot[0] != 0
    }

    fn holds(&self, slot: &[u64], page: &Page) -> bool {
        slot[0] == page.pe + 1 && slot[1] == page.half && slot[2] == page.number
    }

    /// The word that the cache holds for a page, in the slot of the page alone.
    fn held(&self, cache: &[u64], page: &Page) -> Option<u64> {
        let slot = slot(cache, self.slot_of(page));
        self.holds(slot, page).then_some(slot[3])
    }

    /// What a hit gives in the place of a walk; none if the word does not allow the direction: the
    /// page is then walked.
    fn hit(&self, word: u64, wanted: &Wanted) -> Option<Result<Found, Stopped>> {
        allows(word, wanted.write).then_some(Ok((word, wanted.pages.levels)))
    }

    /// The word that the slot of a page gets after an answer: that of a pass.
    fn filling(&self, _: &Bridge, answer: &Answer, word: Option<u64>) -> Option<u64> {
        word.filter(|_| answer.name == Name::Pass)
    }

    fn fill(&self, cache: &mut [u64], page: &Page, word: u64) {
        let first = SLOT_WORDS * self.slot_of(page);
        let slot = [page.pe + 1, page.half, page.number, word];
        cache[first..first + SLOT_WORDS].copy_from_slice(&slot);
    }

    /// Whether the walk of the page that a slot holds reads a memory word. A slot without a page, by
    /// `page_in`, has no walk.
    fn reads(&self, tables: &Bridge, slot: &[u64], number: u64) -> bool {
        let Some((pages, page)) = page_in(tables, slot) else { return false };
        let mut reads = false;
        let _ = tables.walk(&pages, page.number, |read| reads |= read == number);
        reads
    }

    /// An edit drops by the walks in memory as it was before.
    fn edit(&self, bridge: &mut Cached, number: u64, value: u64) {
        let Cached { tables, cache } = bridge;
        drop_slots(cache, |_, slot| self.is_full(slot) && self.reads(tables, slot, number));
        tables.memory[number as usize] = value;
    }

    /// By address: bit 59 and the low 59 bits count, aligned or not, in the record's window or not.
    fn named(&self, tables: &Bridge, scope: Scope) -> Named {
        match scope {
            Scope::All => Named::All,
            Scope::Pe(pe) => Named::Pe(pe),
            Scope::Address { pe, address } => {
                page_at(tables, pe, address).map_or(Named::Nothing, |(_, page)| Named::Page(page))
            }
        }
    }

    /// Whether a full slot is named, in whatever place it is.
    fn names(&self, named: Named, _place: usize, slot: &[u64]) -> bool {
        match named {
            Named::All => true,
            Named::Pe(pe) => slot[0] == pe + 1,
            Named::Page(page) => self.holds(slot, &page),
            Named::Nothing => false,
        }
    }

    /// What else an operation does: nothing.
    fn after(&self, _: &mut Cached, _: Operation, _: &Answer) {}
}

/// The rule as it is stated.
pub struct Right;

impl Rule for Right {}

pub fn slot(cache: &[u64], place: usize) -> &[u64] {
    &cache[SLOT_WORDS * place..SLOT_WORDS * (place + 1)]
}

/// The record of a PE below n, if it has page tables.
fn pages_of(tables: &Bridge, pe: u64, half: u64) -> Option<Pages> {
    match tables.record(pe, half)? {
        Record::Pages(pages) => Some(pages),
        Record::Bypass { .. } => None,
    }
}

/// The page of a PE below n around an address, with its record.
pub fn page_at(tables: &Bridge, pe: u64, address: u64) -> Option<(Pages, Page)> {
    let (half, offset) = half_and_offset(address);
    let pages = pages_of(tables, pe, half)?;
    Some((pages, Page { pe, half, number: offset >> pages.page_bits }))
}

/// The page that a slot holds, with its record. None if the PE is not below n, if there is no such
/// half, or if the record has no page tables.
pub fn page_in(tables: &Bridge, slot: &[u64]) -> Option<(Pages, Page)> {
    let page = Page { pe: slot[0].checked_sub(1)?, half: slot[1], number: slot[2] };
    if page.pe >= tables.n || page.half > 1 {
        return None;
    }
    Some((pages_of(tables, page.pe, page.half)?, page))
}

/// Each slot that is dropped becomes zeros. The others stay.
pub fn drop_slots(cache: &mut [u64], dropped: impl Fn(usize, &[u64]) -> bool) {
    for (place, slot) in cache.chunks_mut(SLOT_WORDS).enumerate() {
        if dropped(place, slot) {
            slot.fill(0);
        }
    }
}

/// The refusal of an edit or an invalidate, if it is refused. Stop bits and the fence do not matter.
fn refusal(tables: &Bridge, operation: Operation) -> Option<Answer> {
    let reason = match operation {
        _ if !tables.sizes_agree() => 1,
        Operation::Edit { number, .. } if number >= tables.memory.len() as u64 => 2,
        Operation::Invalidate(Scope::Pe(pe) | Scope::Address { pe, .. }) if pe >= tables.n => 14,
        _ => return None,
    };
    Some(refuse(reason, 0))
}

/// The bridge without a cache on the same operations: an edit writes its word, an invalidate is
/// answered, and there is nothing to drop.
pub fn handle_without(tables: &mut Bridge, operation: Operation) -> Answer {
    if let Operation::Request(request) = operation {
        return tables.handle(request);
    }
    if let Some(refused) = refusal(tables, operation) {
        return refused;
    }
    if let Operation::Edit { number, value } = operation {
        tables.memory[number as usize] = value;
    }
    done()
}

/// The bridge and its cache, with any contents.
#[derive(Clone, Debug, Default, PartialEq, Eq)]
pub struct Cached {
    pub tables: Bridge,
    pub cache: Vec<u64>,
}

impl Cached {
    /// Answers one operation and writes what it changes to `state`, `interrupts`, `memory` and the
    /// cache.
    pub fn handle(&mut self, operation: Operation) -> Answer {
        self.handle_by(&Right, operation)
    }

    /// The same by a rule.
    pub fn handle_by(&mut self, rule: &(impl Rule + ?Sized), operation: Operation) -> Answer {
        if self.cache.len() != CACHE_WORDS {
            return refuse(1, 0);
        }
        let refused = match operation {
            Operation::Request(_) => None,
            _ => refusal(&self.tables, operation),
        };
        let answer = match (refused, operation) {
            (Some(refused), _) => refused,
            (None, Operation::Request(request)) => self.request(rule, request),
            (None, Operation::Edit { number, value }) => {
                rule.edit(self, number, value);
                done()
            }
            (None, Operation::Invalidate(scope)) => {
                self.invalidate(rule, scope);
                done()
            }
        };
        rule.after(self, operation, &answer);
        answer
    }

    /// Every check before the walk comes before the cache, and so does a bypass.
    fn request(&mut self, rule: &(impl Rule + ?Sized), request: Request) -> Answer {
        let Cached { tables, cache } = self;
        let (requester, write, address, length, data) = match request {
            Request::Dma { requester, write, address, length, data } if tables.sizes_agree() => {
                (requester, write, address, length, data)
            }
            _ => return tables.handle(request),
        };
        let wanted = match tables.dma(requester, write, address, length, data) {
            Begun::Answered(answer) => return answer,
            Begun::Asks(wanted) => wanted,
        };
        let held = rule.held(cache, &wanted.page);
        let hit = held.and_then(|word| rule.hit(word, &wanted));
        let found = hit.unwrap_or_else(|| tables.find(&wanted));
        let answer = tables.finish(&wanted, found);
        let word = found.ok().map(|(word, _)| word);
        if let Some(word) = rule.filling(tables, &answer, word) {
            rule.fill(cache, &wanted.page, word);
        }
        answer
    }

    fn invalidate(&mut self, rule: &(impl Rule + ?Sized), scope: Scope) {
        let named = rule.named(&self.tables, scope);
        drop_slots(&mut self.cache, |place, slot| {
            rule.is_full(slot) && rule.names(named, place, slot)
        });
    }
}
