// What the lists of operations on a bridge with a cache came to.
// The file that includes this one has `bridge`, `cache`, `celltimber`, `seeded` and `wrong_caches`.

use super::bridge::{allows, half_and_offset, Page, Request};
use super::cache::{page_at, page_in, slot, Cached, Operation, Right, Rule, Scope, SLOTS};
use super::celltimber::*;
use super::seeded::{fence_word, pe_of, stop_word};
use super::wrong_caches::{in_window, last_of};
use std::collections::BTreeMap;

/// What has to come, each a hundred times or more.
pub const WANTED: &[&str] = &[
    "hit that passes, 1 level",
    "hit that passes, 2 levels",
    "hit that passes, 3 levels",
    "hit that passes, 4 or 5 levels",
    "hit that is 17",
    "hit that forbids, walked to 8",
    "hit that forbids, walked to a pass",
    "hit that forbids, walked to 15",
    "hit with another word than the walk's",
    "miss that fills, 1 level",
    "miss that fills, 2 levels",
    "miss that fills, 3 levels",
    "miss that fills, 4 or 5 levels",
    "miss that fills an empty slot with other words",
    "miss that evicts a page of another PE",
    "miss that evicts a page of the other half",
    "miss that evicts a page of the same record",
    "miss that is 8",
    "miss that is 15",
    "miss that is 17",
    "miss where another slot holds the page",
    "miss where the PE alone differs",
    "miss where the half alone differs",
    "miss where the page alone differs",
    "bypass that passes",
    "4 where the page is held",
    "5 where the page is held",
    "18 where the page is held",
    "edit that drops by a last word",
    "edit that drops by an upper word",
    "edit that drops several slots",
    "edit that drops slots of several PEs",
    "edit that drops nothing, with full slots",
    "edit that drops with the value that was there",
    "edit that drops and changes what the walk gives",
    "edit that drops on a fenced bridge",
    "edit that drops of a stopped PE",
    "edit that drops a page above its window",
    "edit that drops a page that is not in its slot",
    "edit that leaves a slot without a walk",
    "edit that is 2",
    "invalidate for all that drops",
    "invalidate for all with nothing to drop",
    "invalidate for all that leaves words in an empty slot",
    "invalidate by PE that drops",
    "invalidate by PE with nothing to drop",
    "invalidate by PE that drops both halves",
    "invalidate by PE that is 14",
    "invalidate by PE that is 14, and a slot has the PE",
    "invalidate by address that drops",
    "invalidate by address with nothing to drop",
    "invalidate by address that is 14",
    "invalidate by address that is 14, and a slot has the PE",
    "invalidate by address with bits above 59 that drops",
    "invalidate by address above the window that drops",
    "invalidate by address of an MSI that drops",
    "invalidate by address that drops a page that is not in its slot",
    "invalidate by address without a page table, and a slot has PE and half",
    "invalidate that drops on a fenced bridge",
    "words of no operation",
    "1 to a request, wrong length of the cache",
    "1 to an edit, wrong length of the cache",
    "1 to an invalidate, wrong length of the cache",
    "1 to a request, other wrong length",
    "1 to an edit, other wrong length",
    "1 to an invalidate, other wrong length",
    "request answered alike without a cache",
    "edit without a cache",
    "stretch between edits and invalidates",
    "edit that is 2 without a cache",
    "invalidate that is 2 without a cache",
];

/// How often each thing came.
pub struct Counts {
    pub lists: u64,
    pub operations: u64,
    pub names: [u64; 7],
    pub reasons: [u64; 19],
    /// By the slot.
    pub filled: [u64; SLOTS],
    pub hit: [u64; SLOTS],
    pub came: BTreeMap<&'static str, u64>,
}

impl Counts {
    pub fn new() -> Counts {
        let came = WANTED.iter().map(|&name| (name, 0)).collect();
        let (filled, hit) = ([0; SLOTS], [0; SLOTS]);
        Counts { lists: 0, operations: 0, names: [0; 7], reasons: [0; 19], filled, hit, came }
    }

    pub fn came(&mut self, name: &str) {
        *self.came.get_mut(name).unwrap_or_else(|| panic!("'{}' is not among WANTED", name)) += 1;
    }

    pub fn came_if(&mut self, name: &str, condition: bool) {
        if condition {
            self.came(name);
        }
    }

    fn with_levels(&mut self, name: &str, levels: u64) {
        let levels =
            ["1 level", "2 levels", "3 levels", "4 or 5 levels"][levels.min(4) as usize - 1];
        self.came(&format!("{}, {}", name, levels));
    }

    /// The least of these counts; 12 and 13 are in records only, and no answer has 16.
    pub fn least(&self) -> u64 {
        let refused = (1..=11).chain([14, 15, 17, 18]).map(|reason| self.reasons[reason]);
        let slots = self.filled.into_iter().chain(self.hit);
        let came = self.came.values().copied();
        self.names.into_iter().chain(refused).chain(slots).chain(came).min().unwrap_or(0)
    }

    /// An operation that was answered. `before` is the bridge with its cache before it.
    pub fn add(
        &mut self,
        before: &Before,
        after: &Cached,
        operation: Operation,
        answer: &AnswerWords,
    ) {
        self.operations += 1;
        self.names[answer[AT_NAME] as usize] += 1;
        self.reasons[answer[AT_REASON] as usize] += 1;
        if answer[AT_REASON] == REASON_TABLE_LENGTH {
            let of = match operation {
                Operation::Request(_) => "a request",
                Operation::Edit { .. } => "an edit",
                Operation::Invalidate(_) => "an invalidate",
            };
            let cache = after.cache.len() != CACHE_WORDS;
            let wrong = if cache { "wrong length of the cache" } else { "other wrong length" };
            return self.came(&format!("1 to {}, {}", of, wrong));
        }
        let dropped = before.dropped(&after.cache);
        match operation {
            Operation::Request(Request::Dma { requester, write, address, .. }) => {
                let pe = pe_of(&after.tables, requester);
                if pe < after.tables.n {
                    self.add_dma(before, after, (pe, write, address), answer);
                }
            }
            Operation::Request(_) => {}
            Operation::Edit { number, value } => {
                self.add_edit(before, after, (number, value), answer, &dropped)
            }
            Operation::Invalidate(scope) => {
                self.add_invalidate(before, after, scope, answer, &dropped);
            }
        }
    }

    fn add_dma(
        &mut self,
        before: &Before,
        after: &Cached,
        (pe, write, address): (u64, bool, u64),
        answer: &AnswerWords,
    ) {
        let (name, reason, levels) = (answer[AT_NAME], answer[AT_REASON], answer[AT_WORDS]);
        let Some((_, page)) = page_at(&after.tables, pe, address) else {
            return self.came_if("bypass that passes", name == PASS);
        };
        let place = Right.slot_of(&page);
        let slot = slot(&before.cache, place);
        let holds = Right.holds(slot, &page);
        let reached = matches!(
            (name, reason),
            (PASS, _) | (_, REASON_TABLE_WORD | REASON_OUTSIDE_MEMORY | REASON_ABOVE_INSTALLED)
        );
        if !reached {
            let stopped = holds && reason == REASON_DMA_STOPPED;
            self.came_if("4 where the page is held", stopped);
            self.came_if("5 where the page is held", holds && reason == REASON_ADDRESS_CLASS);
            return self.came_if("18 where the page is held", holds && reason == REASON_FENCED);
        }
        let allowed = holds && allows(slot[3], write);
        let walked = last_of(&after.tables, &[pe + 1, page.half, page.number, 0]);
        match (holds, allowed, name, reason) {
            (_, true, PASS, _) => {
                self.with_levels("hit that passes", levels);
                self.hit[place] += 1;
            }
            (_, true, ..) => self.came("hit that is 17"),
            (true, _, PASS, _) => self.came("hit that forbids, walked to a pass"),
            (true, _, _, REASON_TABLE_WORD) => self.came("hit that forbids, walked to 8"),
            (true, _, _, REASON_OUTSIDE_MEMORY) => self.came("hit that forbids, walked to 15"),
            (true, ..) => {}
            (_, _, PASS, _) => {
                self.with_levels("miss that fills", levels);
                self.filled[place] += 1;
                self.add_eviction(slot, &page);
            }
            (_, _, _, reason) => self.came(&format!("miss that is {}", reason)),
        }
        let of_walk = walked.map(|number| after.tables.memory[number as usize]);
        self.came_if("hit with another word than the walk's", allowed && of_walk != Some(slot[3]));
        if !holds {
            let mut slots = before.cache.chunks(SLOT_WORDS);
            let elsewhere = slots.any(|slot| Right.holds(slot, &page));
            self.came_if("miss where another slot holds the page", elsewhere);
            let same = [slot[0] == pe + 1, slot[1] == page.half, slot[2] == page.number];
            let full = slot[0] != 0;
            self.came_if("miss where the PE alone differs", full && same == [false, true, true]);
            self.came_if("miss where the half alone differs", same == [true, false, true]);
            self.came_if("miss where the page alone differs", same == [true, true, false]);
        }
    }

    /// A miss that fills a slot which had these words.
    fn add_eviction(&mut self, slot: &[u64], page: &Page) {
        let [pe, half] = [slot[0], slot[1]];
        if pe == 0 {
            let others = slot[1..].iter().any(|&word| word != 0);
            return self.came_if("miss that fills an empty slot with other words", others);
        }
        self.came(match (pe == page.pe + 1, half == page.half) {
            (false, _) => "miss that evicts a page of another PE",
            (_, false) => "miss that evicts a page of the other half",
            _ => "miss that evicts a page of the same record",
        });
    }

    fn add_edit(
        &mut self,
        before: &Before,
        after: &Cached,
        (number, value): (u64, u64),
        answer: &AnswerWords,
        dropped: &[usize],
    ) {
        if answer[AT_REASON] == REASON_BAD_REQUEST {
            return self.came("edit that is 2");
        }
        let full = before.cache.chunks(SLOT_WORDS).filter(|slot| slot[0] != 0);
        let without_walk = full.clone().any(|slot| page_in(&after.tables, slot).is_none());
        self.came_if("edit that leaves a slot without a walk", without_walk);
        if dropped.is_empty() {
            return self.came_if("edit that drops nothing, with full slots", full.count() > 0);
        }
        // What the dropped slots held, with the number of the last word before and after the edit.
        let held: Vec<_> = dropped.iter().map(|&place| slot(&before.cache, place)).collect();
        let last: Vec<_> = before.last.iter().filter(|last| dropped.contains(&last.0)).collect();
        let by_last = last.iter().any(|last| last.1 == Some(number));
        let by_upper = last.iter().any(|last| last.1 != Some(number));
        let other_walk = last.iter().zip(&held).any(|(last, slot)| {
            last.1 != last_of(&after.tables, slot) || last.1 == Some(number) && value != before.word
        });
        let pages = || held.iter().filter_map(|slot| page_in(&after.tables, slot));
        let stopped = |pe: u64| stop_word(&after.tables, pe) & DMA_STOP != 0;
        self.came_if("edit that drops by a last word", by_last);
        self.came_if("edit that drops by an upper word", by_upper);
        self.came_if("edit that drops several slots", held.len() > 1);
        let several = held.iter().any(|slot| slot[0] != held[0][0]);
        self.came_if("edit that drops slots of several PEs", several);
        self.came_if("edit that drops with the value that was there", value == before.word);
        self.came_if("edit that drops and changes what the walk gives", other_walk);
        let fenced = fence_word(&after.tables) & FENCE != 0;
        self.came_if("edit that drops on a fenced bridge", fenced);
        let of_stopped = pages().any(|(_, page)| stopped(page.pe));
        self.came_if("edit that drops of a stopped PE", of_stopped);
        let above = pages().any(|(pages, page)| !in_window(&pages, &page));
        self.came_if("edit that drops a page above its window", above);
        let misplaced = misplaced(&before.cache, dropped);
        self.came_if("edit that drops a page that is not in its slot", misplaced);
    }

    fn add_invalidate(
        &mut self,
        before: &Before,
        after: &Cached,
        scope: Scope,
        answer: &AnswerWords,
        dropped: &[usize],
    ) {
        let has =
            |pe: u64| before.cache.chunks(SLOT_WORDS).any(|slot| slot[0] != 0 && slot[0] - 1 == pe);
        let (how, pe) = match scope {
            Scope::All => ("for all", 0),
            Scope::Pe(pe) => ("by PE", pe),
            Scope::Address { pe, .. } => ("by address", pe),
        };
        let name = |rest: &str| format!("invalidate {} {}", how, rest);
        if answer[AT_REASON] == REASON_BAD_FIRMWARE {
            self.came(&name("that is 14"));
            return self.came_if(&name("that is 14, and a slot has the PE"), has(pe));
        }
        let drops = !dropped.is_empty();
        self.came(&name(if drops { "that drops" } else { "with nothing to drop" }));
        let fenced = fence_word(&after.tables) & FENCE != 0;
        self.came_if("invalidate that drops on a fenced bridge", drops && fenced);
        match scope {
            Scope::All => {
                let left = after.cache.iter().any(|&word| word != 0);
                self.came_if("invalidate for all that leaves words in an empty slot", left);
            }
            Scope::Pe(_) => {
                let half = |place: &usize| slot(&before.cache, *place)[1];
                let both = [0, 1].iter().all(|&of| dropped.iter().any(|place| half(place) == of));
                self.came_if("invalidate by PE that drops both halves", both);
            }
            Scope::Address { address, .. } => {
                let Some((pages, page)) = page_at(&after.tables, pe, address) else {
                    let (half, _) = half_and_offset(address);
                    let mut slots = before.cache.chunks(SLOT_WORDS);
                    let has = slots.any(|slot| slot[..2] == [pe + 1, half]);
                    let name =
                        "invalidate by address without a page table, and a slot has PE and half";
                    return self.came_if(name, has);
                };
                let high = drops && address >> 60 != 0;
                self.came_if("invalidate by address with bits above 59 that drops", high);
                let above = drops && !in_window(&pages, &page);
                self.came_if("invalidate by address above the window that drops", above);
                let msi = drops && address >> 16 == 0xFFFF;
                self.came_if("invalidate by address of an MSI that drops", msi);
                let misplaced = misplaced(&before.cache, dropped);
                let name = "invalidate by address that drops a page that is not in its slot";
                self.came_if(name, misplaced);
            }
        }
    }
}

/// Whether a dropped slot held a page that the rule puts elsewhere.
fn misplaced(cache: &[u64], dropped: &[usize]) -> bool {
    dropped.iter().any(|&place| {
        let slot = slot(cache, place);
        let number = slot[2] % SLOTS as u64;
        Right.slot_of(&Page { pe: slot[0] - 1, half: slot[1], number }) != place
    })
}

/// What an operation may change, as it was.
pub struct Before {
    cache: Vec<u64>,
    /// Of an edit: the word that it writes, and the slots that have a walk, each with the number of
    /// the last word of that walk.
    word: u64,
    last: Vec<(usize, Option<u64>)>,
}

impl Before {
    pub fn of(bridge: &Cached, operation: Operation) -> Before {
        let Cached { tables, cache } = bridge;
        let mut before = Before { cache: cache.clone(), word: 0, last: Vec::new() };
        let good = tables.sizes_agree() && cache.len() == CACHE_WORDS;
        if let (Operation::Edit { number, .. }, true) = (operation, good) {
            before.word = *tables.memory.get(number as usize).unwrap_or(&0);
            let slots = cache.chunks(SLOT_WORDS).enumerate();
            let walked = slots.filter(|(_, slot)| page_in(tables, slot).is_some());
            before.last = walked.map(|(place, slot)| (place, last_of(tables, slot))).collect();
        }
        before
    }

    /// The slots that were full and are empty.
    fn dropped(&self, cache: &[u64]) -> Vec<usize> {
        (0..SLOTS).filter(|&k| slot(&self.cache, k)[0] != 0 && slot(cache, k)[0] == 0).collect()
    }
}
