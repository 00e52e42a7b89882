//! What an index has allocated, and how many nodes it has in use.

use crate::stores::{locked, Indexed, Store};
use crate::Outcome;

/// What is measured, each with its name.
pub type Figures = Vec<(&'static str, f64)>;

// What the C library tells of its memory: mallinfo2(3), in glibc from 2.33 on.
#[repr(C)]
struct Counts {
    arena: usize,
    ordblks: usize,
    smblks: usize,
    hblks: usize,
    hblkhd: usize,
    usmblks: usize,
    fsmblks: usize,
    uordblks: usize,
    fordblks: usize,
    keepcost: usize,
}

extern "C" {
    fn mallinfo2() -> Counts;
}

// Bytes that the process has allocated and not freed: those in the arenas, and those that are mapped one by one.
fn allocated() -> f64 {
    // SAFETY: the call has no conditions. It returns counts.
    let counts = unsafe { mallinfo2() };
    (counts.uordblks + counts.hblkhd) as f64
}

/// An index whose memory is counted.
pub struct Watched {
    pub store: Indexed,
    before: f64,
}

/// A reading of its memory: the bytes are those allocated since before it was opened.
pub struct Reading {
    nodes: f64,
    bytes: f64,
}

impl Watched {
    /// An empty index. What a case needs besides has to be allocated before.
    pub fn open() -> Outcome<Watched> {
        let before = allocated();
        let store = Indexed::open(0)?;
        Ok(Watched { store, before })
    }

    pub fn reading(&self) -> Outcome<Reading> {
        let bytes = allocated() - self.before;
        let nodes = locked(&self.store.index).nodes() as f64;
        Ok(Reading { nodes, bytes })
    }
}

/// The figures of two readings.
pub fn figures(first: &Reading, last: &Reading) -> Figures {
    vec![
        ("nodes first", first.nodes),
        ("nodes last", last.nodes),
        ("bytes first", first.bytes),
        ("bytes last", last.bytes),
    ]
}
