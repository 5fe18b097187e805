//! The library's record as it lies in memory: `Card` of `crates/model`, field by field. Rattle lays a struct out as C does.
//! No value of these types is ever made; only their size is asked.

#![allow(dead_code)]

/// How many bytes the library's `Card` has in memory.
pub const CARD_BYTES: usize = size_of::<Card>();

pub const ROWS: usize = 5;
pub const PINS: usize = 13;
pub const PIN_BYTES: usize = 32;

#[repr(C)]
pub struct Tsn(pub u32);

#[repr(C)]
pub struct Hsn(pub u32);

#[repr(C)]
pub struct Row {
    pub start: u64,
    pub length: u64,
    pub read_enabled: bool,
    pub write_enabled: bool,
    pub read_locked: bool,
    pub write_locked: bool,
    pub lock_on_program: bool,
}

#[repr(C)]
pub struct Mbr {
    pub enable: bool,
    pub done: bool,
    pub done_on_program: bool,
}

#[repr(C)]
pub struct Tables {
    pub active: bool,
    pub rows: [Row; ROWS],
    pub mbr: Mbr,
    pub enabled: [bool; PINS],
    pub resettable: bool,
}

#[repr(C)]
pub struct PinRow {
    pub tries: u8,
}

#[repr(C)]
pub struct Session {
    pub live: bool,
    pub locking: bool,
    pub tsn: Tsn,
    pub hsn: Hsn,
    pub proved: [bool; PINS],
}

#[repr(C)]
pub struct Undo {
    pub live: bool,
    pub was: Tables,
}

#[repr(C)]
pub struct Cells {
    pub n: u64,
    pub msid: [u8; PIN_BYTES],
    pub tables: Tables,
    pub pins: [PinRow; PINS],
    pub session: Session,
    pub next: Tsn,
    pub undo: Undo,
}

#[repr(C)]
pub struct Secret {
    pub bytes: [u8; PIN_BYTES],
    pub len: u8,
}

#[repr(C)]
pub struct Vault {
    pub live: [Secret; PINS],
    pub kept: [Secret; PINS],
}

#[repr(C)]
pub struct Card {
    pub cells: Cells,
    pub vault: Vault,
}

#[cfg(test)]
mod tests {
    use super::*;

    const HERE: &str = include_str!("layout.rs");
    /// The crates of the record, each with what it says of it.
    const RECORD: [(&str, &[&str]); 3] = [
        (
            include_str!("../../../crates/model/src/lib.rt"),
            &[
                "const PINS:",
                "const PIN_BYTES:",
                "struct Tables ",
                "struct PinRow ",
                "struct Session ",
                "struct Undo ",
                "struct Cells ",
                "struct Secret ",
                "struct Vault ",
                "struct Card ",
            ],
        ),
        (include_str!("../../../crates/ranges/src/lib.rt"), &["const ROWS:", "struct Row ", "struct Mbr "]),
        (include_str!("../../../crates/packet/src/lib.rt"), &["struct Tsn(", "struct Hsn("]),
    ];

    /// The lines of a public item, up to its end, without comments.
    fn item<'s>(source: &'s str, head: &str) -> Vec<&'s str> {
        let mut lines = source.lines().skip_while(|line| !line.starts_with(&format!("pub {head}")));
        let first = lines.next().unwrap_or_else(|| panic!("no {head}"));
        let rest = lines.take_while(|line| first.ends_with('{') && *line != "}");
        [first].into_iter().chain(rest.map(str::trim).filter(|line| !line.starts_with("//"))).collect()
    }

    #[test]
    fn fields_are_those_of_the_record() {
        for (source, heads) in RECORD {
            for head in heads {
                assert_eq!(item(HERE, head), item(source, head));
            }
        }
    }

    #[test]
    fn sizes() {
        assert_eq!((size_of::<Cells>(), size_of::<Vault>()), (400, 858));
        assert_eq!(CARD_BYTES, 1264);
    }
}
