// Requests, answers and tables of the plain program as the exported function takes them.
// The file that includes this one has `bridge` and `celltimber`.

use super::bridge::{Answer, Bridge, Name, Part, Request};
use super::celltimber::*;

pub fn request_words(request: Request) -> RequestWords {
    match request {
        Request::Dma { requester, write, address, length, data } => {
            dma(requester, if write { WRITE } else { READ }, address, length, u64::from(data))
        }
        Request::Load { address, width } => load(address, width),
        Request::Store { address, width } => store(address, width),
        Request::Error { requester } => error(requester),
        Request::Clear { pe, part: Part::Mmio } => clear(pe, MMIO_BIT),
        Request::Clear { pe, part: Part::Dma } => clear(pe, DMA_BIT),
        Request::Clear { pe, part: Part::Record } => clear(pe, RECORD),
        Request::End { interrupt } => end(interrupt),
        Request::Priority { interrupt, priority: value } => priority(interrupt, value),
        Request::Fatal { requester } => fatal(requester),
        Request::FenceClear => fence_clear(),
    }
}

pub fn answer_words(answer: Answer) -> AnswerWords {
    let name = match answer.name {
        Name::Pass => PASS,
        Name::Msi => MSI,
        Name::Held => HELD,
        Name::Ones => ONES,
        Name::Drop => DROP,
        Name::Refuse => REFUSE,
        Name::Done => DONE,
    };
    let pe = answer.pe.unwrap_or(0);
    let server = answer.server.unwrap_or(0);
    let priority = answer.priority.unwrap_or(0);
    [name, answer.reason, answer.value, answer.words, pe, server, priority, answer.word]
}

/// The exported function on the tables of a plain bridge.
pub fn run_proved(tables: &mut Bridge, requests: &[u64], answers: &mut [u64]) -> usize {
    run(
        tables.n,
        tables.m,
        tables.r,
        tables.installed,
        &tables.requesters,
        &tables.translation,
        &tables.memory,
        &tables.peers,
        &mut tables.interrupts,
        &tables.windows,
        &tables.segments,
        &mut tables.state,
        requests,
        answers,
    )
}
