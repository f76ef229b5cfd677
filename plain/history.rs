// The history of a bridge that began with a state of zeros: what each request did, in their order,
// and the state that follows from that.
//
// What a request did is told from the request, the reason and the last word of its answer, and the
// public tables alone. No state word is kept: each is found by looking back through the history.
// The file that includes this one has `bridge`.

use super::bridge::{Part, Request};

/// The words of an answer.
pub type Answered = [u64; 8];

/// The three words of an error record: reason, value and table word. Zeros: it is empty.
pub type Record = [u64; 3];

/// The parts of a PE that firmware clears.
pub const PARTS: [Part; 3] = [Part::Mmio, Part::Dma, Part::Record];

/// The public words that say who freezes.
#[derive(Clone, Copy)]
pub struct Public<'a> {
    /// Number of PEs.
    pub n: u64,
    /// PE of each requester; n or more means none.
    pub requesters: &'a [u16],
    /// Four words to each PE; PE k is bit k mod 64 of word k div 64.
    pub peers: &'a [u64],
}

impl Public<'_> {
    /// The PE of a requester, if it has one.
    fn pe_of(&self, requester: u64) -> Option<u64> {
        let at = usize::try_from(requester).ok()?;
        let pe = u64::from(*self.requesters.get(at)?);
        (pe < self.n).then_some(pe)
    }

    fn lists(&self, pe: u64, other: u64) -> bool {
        self.peers[(4 * pe + other / 64) as usize] >> (other % 64) & 1 == 1
    }
}

/// What a request did to stop bits, error records and the fence.
#[derive(Clone, Debug, PartialEq, Eq)]
pub enum Step {
    /// The PEs that it froze, each with a record; the failing PE first. A freeze counts also where the
    /// PE is stopped already, or has a record.
    Freeze(Vec<(u64, Record)>),
    /// A part of a PE was cleared, set or not.
    Clear {
        pe: u64,
        part: Part,
    },
    /// The fence was set by a fatal message, which freezes nobody.
    Fence,
    FenceClear,
    Nothing,
}

impl Step {
    /// Of the answer its reason and its last word count. Under 8 and 15 the last word is the table word
    /// that the walk stopped at; else it is 0. An error message, a clear, a fatal message and a fence
    /// clear are done if and only if the reason is 0.
    pub fn of(public: &Public, request: Request, answer: &Answered) -> Step {
        let [_, reason, .., word] = *answer;
        match (request, reason) {
            (Request::Dma { requester, address, .. }, 5..=9 | 15 | 17) => {
                Step::alone(public, requester, [reason, address, word])
            }
            (Request::Error { requester }, 0) => Step::with_peers(public, requester),
            (Request::Clear { pe, part }, 0) => Step::Clear { pe, part },
            (Request::Fatal { .. }, 0) => Step::Fence,
            (Request::FenceClear, 0) => Step::FenceClear,
            _ => Step::Nothing,
        }
    }

    fn alone(public: &Public, requester: u64, record: Record) -> Step {
        match public.pe_of(requester) {
            Some(pe) => Step::Freeze(vec![(pe, record)]),
            None => Step::Nothing,
        }
    }

    /// An error message: a PE in its own vector is the failing one, and bits for n and above are nobody.
    fn with_peers(public: &Public, requester: u64) -> Step {
        let Some(failing) = public.pe_of(requester) else { return Step::Nothing };
        let peers = (0..public.n).filter(|&pe| pe != failing && public.lists(failing, pe));
        let mut frozen = vec![(failing, [12, requester, 0])];
        frozen.extend(peers.map(|pe| (pe, [13, failing, 0])));
        Step::Freeze(frozen)
    }

    /// The record of a PE in a freeze of it.
    pub fn freeze_of(&self, pe: u64) -> Option<Record> {
        match self {
            Step::Freeze(frozen) => frozen.iter().find(|of| of.0 == pe).map(|of| of.1),
            _ => None,
        }
    }
}

/// The steps of all requests, in their order.
#[derive(Clone, Debug, Default)]
pub struct History {
    pub steps: Vec<Step>,
}

impl History {
    /// The place of the last step that is this one.
    fn last(&self, wanted: Step) -> Option<usize> {
        self.steps.iter().rposition(|step| *step == wanted)
    }

    /// The place of the last clear of a part of a PE.
    pub fn last_clear(&self, pe: u64, part: Part) -> Option<usize> {
        self.last(Step::Clear { pe, part })
    }

    /// The first freeze of a PE at or after a place: its place, and the PE's record in it.
    pub fn freeze_from(&self, pe: u64, place: usize) -> Option<(usize, Record)> {
        let mut from = self.steps.iter().enumerate().skip(place);
        from.find_map(|(place, step)| Some((place, step.freeze_of(pe)?)))
    }

    /// The first freeze of a PE since the last clear of a part of it, or of all if there was no clear.
    pub fn frozen_since(&self, pe: u64, part: Part) -> Option<(usize, Record)> {
        self.freeze_from(pe, self.last_clear(pe, part).map_or(0, |clear| clear + 1))
    }

    /// The state words of a PE. A stop bit is set if and only if a freeze stands after its last clear;
    /// the record is that of the first freeze after its last clear.
    pub fn words_of(&self, pe: u64) -> [u64; 4] {
        let [mmio, dma, record] = PARTS.map(|part| self.frozen_since(pe, part));
        let [reason, value, word] = record.map_or([0; 3], |(_, record)| record);
        [u64::from(mmio.is_some()) | u64::from(dma.is_some()) << 1, reason, value, word]
    }

    /// 1 if and only if a fatal message stands after the last fence clear.
    pub fn fence_word(&self) -> u64 {
        // None is less than any place.
        u64::from(self.last(Step::Fence) > self.last(Step::FenceClear))
    }

    /// The whole state of n PEs: four words to each, then the fence word.
    pub fn state(&self, n: u64) -> Vec<u64> {
        let of_pes = (0..n).flat_map(|pe| self.words_of(pe));
        of_pes.chain([self.fence_word()]).collect()
    }

    /// Whether all three parts of a PE were cleared, with no freeze of it since the first of these
    /// clears. Where some three clears do, the last of each part do.
    pub fn is_released(&self, pe: u64) -> bool {
        match PARTS.map(|part| self.last_clear(pe, part)) {
            [Some(mmio), Some(dma), Some(record)] => {
                self.freeze_from(pe, mmio.min(dma).min(record)).is_none()
            }
            _ => false,
        }
    }
}
