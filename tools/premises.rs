// What isolation asks of two bridges before their first request, as the tools test it: by proved functions.
// The file that includes this one has `bridge`, `celltimber`, `replay` and `stop`, which says that nothing
// could be tried.

use super::bridge::{fence_place, Bridge};
use super::celltimber::*;
use super::replay::Table;
use super::stop;

/// A bit vector: PE k is bit k mod 64 of word k div 64.
pub type Group = [u64; 4];

const NO_GROUP: Group = [0; 4];

/// PE numbers in hexadecimal, parted by commas.
pub fn group(text: &str, pes: u64) -> Result<Group, String> {
    let mut group = NO_GROUP;
    for field in text.split(',') {
        let digits = field.bytes().all(|b| b.is_ascii_hexdigit());
        let pe = u64::from_str_radix(if digits { field } else { "" }, 16)
            .unwrap_or_else(|_| stop(&format!("GROUP: '{}' is no hexadecimal number", field)));
        if pe >= pes {
            return Err(format!("members are PEs: PE {:x} is not below N, which is {:x}", pe, pes));
        }
        group[pe as usize / 64] |= 1 << (pe % 64);
    }
    Ok(group)
}

/// The first PE outside the group that lists a member, and the member.
fn breach(tables: &Bridge, group: &Group) -> String {
    for pe in (0..tables.n).filter(|&pe| !member(group, pe)) {
        for k in (0..256).filter(|&k| member(group, k)) {
            if tables.peers[(4 * pe + k / 64) as usize] >> (k % 64) & 1 == 1 {
                return format!("PE {:x} is outside and lists PE {:x}", pe, k);
            }
        }
    }
    String::new()
}

const TABLES: [(Table, &str); 8] = [
    (Table::Requesters, "requesters"),
    (Table::Translation, "translation"),
    (Table::Memory, "memory"),
    (Table::Peers, "peers"),
    (Table::Interrupts, "interrupts"),
    (Table::Windows, "windows"),
    (Table::Segments, "segments"),
    (Table::State, "state"),
];

fn words_of(tables: &Bridge, table: Table) -> Vec<u64> {
    let wide = |words: &[u16]| words.iter().map(|&word| word.into()).collect();
    match table {
        Table::Requesters => wide(&tables.requesters),
        Table::Translation => tables.translation.clone(),
        Table::Memory => tables.memory.clone(),
        Table::Peers => tables.peers.clone(),
        Table::Interrupts => tables.interrupts.clone(),
        Table::Windows => tables.windows.clone(),
        Table::Segments => wide(&tables.segments),
        Table::State => tables.state.clone(),
    }
}

/// Two bridges with the names of their files.
pub type Two<'a> = [(&'a str, &'a Bridge); 2];

/// The words of both that `counts` picks have to be the same; of a stop word its two stop bits, of the
/// fence word all bits.
fn same_words(
    two: &Two,
    tables: &[(Table, &str)],
    counts: impl Fn(Table, usize) -> bool,
) -> Result<(), String> {
    let [(a, first), (b, _)] = two;
    let fence = fence_place(first.n);
    for &(table, name) in tables {
        let words = two.map(|(_, tables)| words_of(tables, table));
        for (i, (x, y)) in words[0].iter().zip(&words[1]).enumerate() {
            let is_stop_word = table == Table::State && i % STATE_WORDS == 0 && i != fence;
            let bits = if is_stop_word { MMIO_STOP | DMA_STOP } else { u64::MAX };
            if x & bits != y & bits && counts(table, i) {
                return Err(format!("{} {:x} is {:x} in {}, {:x} in {}", name, i, x, a, y, b));
            }
        }
    }
    Ok(())
}

/// The memory words that a member's walks can read.
pub fn reach(tables: &Bridge, group: &Group) -> Vec<u64> {
    marks(tables.n, &tables.translation, &tables.memory, group)
        .unwrap_or_else(|| stop("the group's table words cannot be marked"))
}

/// Two bridges of the same sizes agree in what is public and in what is the group's, and no PE outside
/// the group lists a member; or the premise that fails.
pub fn agree(two: &Two, group: &Group) -> Result<(), String> {
    let tables = two[0].1;
    let seen = |marks: &[u64], group: &Group, table: Table, i| {
        seen(tables.n, &tables.interrupts, marks, group, table as u64, i)
    };
    same_words(two, &TABLES, |table, i| seen(&[], &NO_GROUP, table, i))
        .map_err(|words| format!("the same words for what is public: {}", words))?;
    let marks = reach(tables, group);
    same_words(two, &TABLES, |table, i| seen(&marks, group, table, i))
        .map_err(|words| format!("the same words for what is the group's: {}", words))?;
    if !closed(tables.n, &tables.peers, group) {
        return Err(format!("no PE outside the group lists a member: {}", breach(tables, group)));
    }
    Ok(())
}

/// Whether the group's stop bits, error records and interrupt records are equal, and the fence word.
pub fn same_afterwards(two: &Two, group: &Group) -> bool {
    let written = [(Table::State, "state"), (Table::Interrupts, "interrupts")];
    let Bridge { n, interrupts, .. } = two[0].1;
    same_words(two, &written, |table, i| seen(*n, interrupts, &[], group, table as u64, i)).is_ok()
}
