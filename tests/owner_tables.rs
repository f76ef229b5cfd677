// The tables that tell whom a request belongs to, as the tests and tools have them.
// The file that includes this one has `bridge` and `celltimber`.

use super::bridge::Bridge;
use super::celltimber::{self, RequestWords};

/// What tells whom a request belongs to.
#[derive(Clone, Copy)]
pub struct OwnerTables<'a> {
    pub n: u64,
    pub m: u64,
    pub r: u64,
    pub requesters: &'a [u16],
    pub interrupts: &'a [u64],
    pub windows: &'a [u64],
    pub segments: &'a [u16],
}

impl OwnerTables<'_> {
    pub fn of(tables: &Bridge) -> OwnerTables<'_> {
        OwnerTables {
            n: tables.n,
            m: tables.m,
            r: tables.r,
            requesters: &tables.requesters,
            interrupts: &tables.interrupts,
            windows: &tables.windows,
            segments: &tables.segments,
        }
    }

    /// The number of the PE that a request belongs to, or `NOBODY`.
    pub fn owner(&self, request: &RequestWords) -> u64 {
        celltimber::owner(
            self.n,
            self.m,
            self.r,
            self.requesters,
            self.interrupts,
            self.windows,
            self.segments,
            request,
        )
    }
}
