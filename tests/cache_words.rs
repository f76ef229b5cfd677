// Operations of the plain cached bridge, and words as it takes them.
// The file that includes this one has `bridge`, `cache`, `celltimber` and `plain_words`.

use super::bridge::{Bridge, Part, Request};
use super::cache::{Operation, Scope};
use super::celltimber::*;
use super::plain_words::request_words;

pub fn operation_words(operation: Operation) -> RequestWords {
    match operation {
        Operation::Request(request) => request_words(request),
        Operation::Edit { number, value } => edit(number, value),
        Operation::Invalidate(Scope::All) => invalidate_all(),
        Operation::Invalidate(Scope::Pe(pe)) => invalidate_pe(pe),
        Operation::Invalidate(Scope::Address { pe, address }) => invalidate_address(pe, address),
    }
}

/// Words that name no request are badly formed, as a load of width 0 is.
const UNNAMED_REQUEST: Request = Request::Load { address: 0, width: 0 };

/// The request that words name to the bridge without a cache.
pub fn request_of(words: &[u64]) -> Request {
    match words[0] {
        DMA => match (words[2], u32::try_from(words[5])) {
            (READ | WRITE, Ok(data)) => Request::Dma {
                requester: words[1],
                write: words[2] == WRITE,
                address: words[3],
                length: words[4],
                data,
            },
            _ => UNNAMED_REQUEST,
        },
        LOAD => Request::Load { address: words[1], width: words[2] },
        STORE => Request::Store { address: words[1], width: words[2] },
        ERROR => Request::Error { requester: words[1] },
        CLEAR => match words[2] {
            MMIO_BIT => Request::Clear { pe: words[1], part: Part::Mmio },
            DMA_BIT => Request::Clear { pe: words[1], part: Part::Dma },
            RECORD => Request::Clear { pe: words[1], part: Part::Record },
            _ => UNNAMED_REQUEST,
        },
        END => Request::End { interrupt: words[1] },
        PRIORITY => Request::Priority { interrupt: words[1], priority: words[2] },
        FATAL => Request::Fatal { requester: words[1] },
        FENCE_CLEAR => Request::FenceClear,
        _ => UNNAMED_REQUEST,
    }
}

/// The operation that words name to the bridge with a cache.
pub fn operation_of(words: &[u64]) -> Operation {
    match (words[0], words[1]) {
        (EDIT, number) => Operation::Edit { number, value: words[2] },
        (INVALIDATE, SCOPE_ALL) => Operation::Invalidate(Scope::All),
        (INVALIDATE, SCOPE_PE) => Operation::Invalidate(Scope::Pe(words[2])),
        (INVALIDATE, SCOPE_ADDRESS) => {
            Operation::Invalidate(Scope::Address { pe: words[2], address: words[3] })
        }
        _ => Operation::Request(request_of(words)),
    }
}

/// A table without its first and its last words.
pub fn inner<T>(table: &[T], guards: usize) -> &[T] {
    &table[guards..table.len() - guards]
}

fn inner_mut<T>(table: &mut [T], guards: usize) -> &mut [T] {
    let end = table.len() - guards;
    &mut table[guards..end]
}

/// The exported function with a cache on the tables of a plain bridge. So many words at each end of
/// each table are not lent.
pub fn run_cached(
    tables: &mut Bridge,
    cache: &mut [u64],
    guards: usize,
    requests: &[u64],
    answers: &mut [u64],
) -> usize {
    cached_run(
        tables.n,
        tables.m,
        tables.r,
        tables.installed,
        inner(&tables.requesters, guards),
        inner(&tables.translation, guards),
        inner_mut(&mut tables.memory, guards),
        inner(&tables.peers, guards),
        inner_mut(&mut tables.interrupts, guards),
        inner(&tables.windows, guards),
        inner(&tables.segments, guards),
        inner_mut(&mut tables.state, guards),
        inner_mut(cache, guards),
        requests,
        answers,
    )
}
