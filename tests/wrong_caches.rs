// Plain cached bridges that are wrong, each in one way.
// The file that includes this one has `bridge`, `cache`, `celltimber` and `seeded`.

use super::bridge::{allows, half_and_offset, Answer, Bridge, Found, Name, Page, Pages, Request};
use super::bridge::{Stopped, Wanted};
use super::cache::{drop_slots, page_at, page_in, slot, Cached, Named, Operation, Right, Rule};
use super::cache::{Scope, SLOTS};
use super::celltimber::*;
use super::seeded::{pe_of, stop_word};

/// Each is wrong in one way.
macro_rules! wrong {
    ($($(#[$about:meta])* $name:ident { $($methods:tt)* })*) => {
        $($(#[$about])* struct $name;
        impl Rule for $name { $($methods)* })*
        pub const WRONG: &[(&str, &dyn Rule)] = &[$((stringify!($name), &$name)),*];
    };
}

wrong! {
    HitOfAnotherPe {
        fn held(&self, cache: &[u64], page: &Page) -> Option<u64> {
            held_by(cache, page, |slot| slot[0] != 0 && slot[1..3] == [page.half, page.number])
        }
    }
    HitOfTheOtherHalf {
        fn held(&self, cache: &[u64], page: &Page) -> Option<u64> {
            held_by(cache, page, |slot| slot[0] == page.pe + 1 && slot[2] == page.number)
        }
    }
    HitOfAnotherPage {
        fn held(&self, cache: &[u64], page: &Page) -> Option<u64> {
            held_by(cache, page, |slot| slot[..2] == [page.pe + 1, page.half])
        }
    }
    /// The page numbers are compared in 32 bits.
    HitOfAPageIn32Bits {
        fn held(&self, cache: &[u64], page: &Page) -> Option<u64> {
            let same = |slot: &[u64]| slot[2] as u32 == page.number as u32;
            held_by(cache, page, |slot| slot[..2] == [page.pe + 1, page.half] && same(slot))
        }
    }
    HitOfAnEmptySlot {
        fn held(&self, cache: &[u64], page: &Page) -> Option<u64> {
            let pes = [0, page.pe + 1];
            let same = |slot: &[u64]| slot[1..3] == [page.half, page.number];
            held_by(cache, page, |slot| pes.contains(&slot[0]) && same(slot))
        }
    }
    HitInAnySlot {
        fn held(&self, cache: &[u64], page: &Page) -> Option<u64> {
            cache.chunks(SLOT_WORDS).find(|slot| self.holds(slot, page)).map(|slot| slot[3])
        }
    }
    ForbiddingHitIsRefused {
        fn hit(&self, word: u64, wanted: &Wanted) -> Option<Result<Found, Stopped>> {
            let refused = Err((REASON_TABLE_WORD, wanted.pages.levels, 0));
            Right.hit(word, wanted).or(Some(refused))
        }
    }
    ForbiddingHitPasses {
        fn hit(&self, word: u64, wanted: &Wanted) -> Option<Result<Found, Stopped>> {
            Some(Ok((word, wanted.pages.levels)))
        }
    }
    ForbiddingHitDrops {
        fn after(&self, bridge: &mut Cached, operation: Operation, answer: &Answer) {
            drop_page_under(REASON_TABLE_WORD, bridge, operation, answer);
        }
    }
    HitAboveInstalledDrops {
        fn after(&self, bridge: &mut Cached, operation: Operation, answer: &Answer) {
            drop_page_under(REASON_ABOVE_INSTALLED, bridge, operation, answer);
        }
    }
    CountOfOneOnAHit {
        fn hit(&self, word: u64, wanted: &Wanted) -> Option<Result<Found, Stopped>> {
            allows(word, wanted.write).then_some(Ok((word, 1)))
        }
    }
    CountOfNoneOnAHit {
        fn hit(&self, word: u64, wanted: &Wanted) -> Option<Result<Found, Stopped>> {
            allows(word, wanted.write).then_some(Ok((word, 0)))
        }
    }
    NoFill {
        fn filling(&self, _: &Bridge, _: &Answer, _: Option<u64>) -> Option<u64> {
            None
        }
    }
    FillUnder17 {
        fn filling(&self, _: &Bridge, _: &Answer, word: Option<u64>) -> Option<u64> {
            word
        }
    }
    FillUnder8 {
        fn filling(&self, tables: &Bridge, answer: &Answer, word: Option<u64>) -> Option<u64> {
            let refused = answer.reason == REASON_TABLE_WORD;
            let last = refused.then(|| tables.memory[answer.word as usize / 8]);
            Right.filling(tables, answer, word).or(last)
        }
    }
    /// A full slot stays.
    NoEviction {
        fn fill(&self, cache: &mut [u64], page: &Page, word: u64) {
            if slot(cache, Right.slot_of(page))[0] == 0 {
                Right.fill(cache, page, word);
            }
        }
    }
    FillOfAWrongSlot {
        fn fill(&self, cache: &mut [u64], page: &Page, word: u64) {
            let first = SLOT_WORDS * ((Right.slot_of(page) + 1) % SLOTS);
            let words = [page.pe + 1, page.half, page.number, word];
            cache[first..][..SLOT_WORDS].copy_from_slice(&words);
        }
    }
    /// Bits 11..2, which no answer shows, are left out.
    FillOfPartOfTheWord {
        fn fill(&self, cache: &mut [u64], page: &Page, word: u64) {
            Right.fill(cache, page, word & !0xFFC);
        }
    }
    BypassFills {
        fn after(&self, bridge: &mut Cached, operation: Operation, answer: &Answer) {
            let Operation::Request(Request::Dma { address, .. }) = operation else { return };
            if let (0, Some(pe)) = (answer.words, answer.pe) {
                let (half, offset) = half_and_offset(address);
                let page = Page { pe, half, number: offset >> 24 };
                Right.fill(&mut bridge.cache, &page, offset | 3);
            }
        }
    }
    SlotWithout37 {
        fn slot_of(&self, page: &Page) -> usize {
            (page.number + 2 * page.pe + page.half) as usize % SLOTS
        }
    }
    SlotWithoutTheHalf {
        fn slot_of(&self, page: &Page) -> usize {
            Right.slot_of(&Page { half: 0, ..*page })
        }
    }
    SlotOfThePageAlone {
        fn slot_of(&self, page: &Page) -> usize {
            page.number as usize % SLOTS
        }
    }
    EditKeepsTheCache {
        fn reads(&self, _: &Bridge, _: &[u64], _: u64) -> bool {
            false
        }
    }
    EditForgetsUpperWords {
        fn reads(&self, tables: &Bridge, slot: &[u64], number: u64) -> bool {
            last_of(tables, slot) == Some(number)
        }
    }
    EditForgetsLastWords {
        fn reads(&self, tables: &Bridge, slot: &[u64], number: u64) -> bool {
            Right.reads(tables, slot, number) && last_of(tables, slot) != Some(number)
        }
    }
    EditTakesAByteAddress {
        fn edit(&self, bridge: &mut Cached, number: u64, value: u64) {
            Right.edit(bridge, number / 8, value);
        }
    }
    EditSparesStoppedPes {
        fn reads(&self, tables: &Bridge, slot: &[u64], number: u64) -> bool {
            let stopped = |page: Page| stop_word(tables, page.pe) & DMA_STOP != 0;
            let spared = page_in(tables, slot).is_some_and(|(_, page)| stopped(page));
            !spared && Right.reads(tables, slot, number)
        }
    }
    EditOfTheSameValueKeeps {
        fn edit(&self, bridge: &mut Cached, number: u64, value: u64) {
            if bridge.tables.memory[number as usize] != value {
                Right.edit(bridge, number, value);
            }
        }
    }
    EditDropsOneSlot {
        fn edit(&self, bridge: &mut Cached, number: u64, value: u64) {
            let Cached { tables, cache } = bridge;
            let reads = |slot: &[u64]| slot[0] != 0 && Right.reads(tables, slot, number);
            if let Some(slot) = cache.chunks_mut(SLOT_WORDS).find(|slot| reads(slot)) {
                slot.fill(0);
            }
            tables.memory[number as usize] = value;
        }
    }
    EditDropsAll {
        fn reads(&self, _: &Bridge, _: &[u64], _: u64) -> bool {
            true
        }
    }
    /// A page number that is too large for the window has no walk.
    EditAsksTheWindow {
        fn reads(&self, tables: &Bridge, slot: &[u64], number: u64) -> bool {
            let inside = page_in(tables, slot).is_some_and(|(pages, page)| in_window(&pages, &page));
            inside && Right.reads(tables, slot, number)
        }
    }
    /// A drop leaves zeros in an empty slot too.
    EmptySlotsAreZeroed {
        fn is_full(&self, _: &[u64]) -> bool {
            true
        }
    }
    InvalidateOfOneSlot {
        fn names(&self, named: Named, place: usize, slot: &[u64]) -> bool {
            let of_page = |page: Page| Right.slot_of(&page) == place;
            let looked_at = !matches!(named, Named::Page(page) if !of_page(page));
            looked_at && Right.names(named, place, slot)
        }
    }
    InvalidateOfAPeNotBelowNDrops {
        fn after(&self, bridge: &mut Cached, operation: Operation, answer: &Answer) {
            if let (Operation::Invalidate(Scope::Pe(pe) | Scope::Address { pe, .. }), 14) =
                (operation, answer.reason)
            {
                drop_slots(&mut bridge.cache, |_, slot| slot[0] == pe.wrapping_add(1));
            }
        }
    }
    InvalidateByPeOfOneHalf {
        fn names(&self, named: Named, place: usize, slot: &[u64]) -> bool {
            let other = matches!(named, Named::Pe(_)) && slot[1] != 0;
            !other && Right.names(named, place, slot)
        }
    }
    InvalidateByAddressOfBothHalves {
        fn names(&self, named: Named, place: usize, slot: &[u64]) -> bool {
            match named {
                Named::Page(page) => slot[0] == page.pe + 1 && slot[2] == page.number,
                _ => Right.names(named, place, slot),
            }
        }
    }
    InvalidateByAddressOfThePe {
        fn names(&self, named: Named, place: usize, slot: &[u64]) -> bool {
            match named {
                Named::Page(page) => slot[0] == page.pe + 1,
                _ => Right.names(named, place, slot),
            }
        }
    }
    InvalidateByAddressAsksTheWindow {
        fn named(&self, tables: &Bridge, scope: Scope) -> Named {
            match (Right.named(tables, scope), scope) {
                (Named::Page(page), Scope::Address { address, .. })
                    if page_at(tables, page.pe, address)
                        .is_some_and(|(pages, page)| !in_window(&pages, &page)) =>
                {
                    Named::Nothing
                }
                (named, _) => named,
            }
        }
    }
    InvalidateCountsBits63To60 {
        fn named(&self, tables: &Bridge, scope: Scope) -> Named {
            match scope {
                Scope::Address { address, .. } if address >> 60 != 0 => Named::Nothing,
                _ => Right.named(tables, scope),
            }
        }
    }
    InvalidateSparesMsi {
        fn named(&self, tables: &Bridge, scope: Scope) -> Named {
            match scope {
                Scope::Address { address, .. } if address >> 16 == 0xFFFF => Named::Nothing,
                _ => Right.named(tables, scope),
            }
        }
    }
    /// By address with pages of 4 KiB, whatever the record says.
    InvalidateOf4KiB {
        fn named(&self, tables: &Bridge, scope: Scope) -> Named {
            match (Right.named(tables, scope), scope) {
                (Named::Page(page), Scope::Address { address, .. }) => {
                    Named::Page(Page { number: half_and_offset(address).1 >> 12, ..page })
                }
                (named, _) => named,
            }
        }
    }
    ErrorMessageDrops {
        fn after(&self, bridge: &mut Cached, operation: Operation, answer: &Answer) {
            if let (Operation::Request(Request::Error { requester }), Name::Done) =
                (operation, answer.name)
            {
                let pe = pe_of(&bridge.tables, requester);
                drop_slots(&mut bridge.cache, |_, slot| slot[0] == pe + 1);
            }
        }
    }
    ClearDrops {
        fn after(&self, bridge: &mut Cached, operation: Operation, answer: &Answer) {
            if let (Operation::Request(Request::Clear { pe, .. }), Name::Done) =
                (operation, answer.name)
            {
                drop_slots(&mut bridge.cache, |_, slot| slot[0] == pe + 1);
            }
        }
    }
    FenceClearDrops {
        fn after(&self, bridge: &mut Cached, operation: Operation, answer: &Answer) {
            if (operation, answer.name) == (Operation::Request(Request::FenceClear), Name::Done) {
                drop_slots(&mut bridge.cache, |_, slot| slot[0] != 0);
            }
        }
    }
}

/// The word in the slot of a page, if the slot is like it.
fn held_by(cache: &[u64], page: &Page, like: impl Fn(&[u64]) -> bool) -> Option<u64> {
    let slot = slot(cache, Right.slot_of(page));
    like(slot).then_some(slot[3])
}

/// Drops the page of a DMA that was refused with this reason.
fn drop_page_under(reason: u64, bridge: &mut Cached, operation: Operation, answer: &Answer) {
    let Operation::Request(Request::Dma { requester, address, .. }) = operation else { return };
    if answer.reason == reason {
        let pe = pe_of(&bridge.tables, requester);
        if let Some((_, page)) = page_at(&bridge.tables, pe, address) {
            drop_slots(&mut bridge.cache, |_, slot| Right.holds(slot, &page));
        }
    }
}

/// Whether a page number is not too large for the window of its record.
pub fn in_window(pages: &Pages, page: &Page) -> bool {
    page.number >> (pages.levels * pages.index_bits) == 0
}

/// The number of the last word in the walk of what a slot holds.
pub fn last_of(tables: &Bridge, slot: &[u64]) -> Option<u64> {
    let (pages, page) = page_in(tables, slot)?;
    tables.walk(&pages, page.number, |_| {}).ok().map(|(number, _)| number)
}
