//! The two lists of the last flattening, looked at once: a font's serve all its glyphs.

use crate::rules::index::{formed, Flaw};
use crate::source::flattening::Lists;
use std::cell::RefCell;
use std::ops::Range;

pub struct Kept {
    lists: [Vec<u8>; 2],
    /// The rule's count of each list, or what is wrong with it.
    pub formed: [Result<u32, Flaw>; 2],
    /// Where the Rust's entries stand, where both are well formed.
    entries: [Vec<Range<usize>>; 2],
}

thread_local! {
    static KEPT: RefCell<Kept> = RefCell::new(Kept::of([&[], &[]]));
}

impl Kept {
    pub fn with<T>(lists: [&[u8]; 2], asked: impl FnOnce(&Kept) -> T) -> T {
        KEPT.with_borrow_mut(|kept| {
            if kept.lists != lists {
                *kept = Kept::of(lists);
            }
            asked(kept)
        })
    }

    fn of(lists: [&[u8]; 2]) -> Self {
        let formed = lists.map(formed);
        let entries = match formed {
            [Ok(_), Ok(_)] => {
                let Lists { globals, locals } = Lists::read(lists[0], lists[1]);
                [(globals, lists[0]), (locals, lists[1])]
                    .map(|(entries, list)| entries.iter().map(|entry| place(entry, list)).collect())
            }
            _ => Default::default(),
        };
        Kept { lists: lists.map(<[u8]>::to_vec), formed, entries }
    }

    /// The Rust's lists, which have to be well formed.
    pub fn source(&self) -> Lists<'_> {
        let [globals, locals] = [0, 1]
            .map(|i| self.entries[i].iter().map(|place| &self.lists[i][place.clone()]).collect());
        Lists { globals, locals }
    }
}

/// Where an entry that the Rust lends from a list stands in it.
fn place(entry: &[u8], list: &[u8]) -> Range<usize> {
    let start = entry.as_ptr() as usize - list.as_ptr() as usize;
    start..start + entry.len()
}
