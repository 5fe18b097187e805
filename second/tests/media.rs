//! The media's rulings against the words of document 01, sector by sector.

mod common;

use common::{Host, MSID, N};
use second::uid;
use second::Ruling::{self, Disk, Refused, Shadow};

const RANGES: [(u64, u64); 4] = [(262_140, 3), (262_143, 4), (999_995, 5), (10, 0)];

/// Owner of a sector: a range that holds it, or the global one.
fn owner(sector: u64) -> usize {
    RANGES.iter().position(|(start, length)| sector >= *start && sector < start + length).map_or(0, |at| at + 1)
}

fn expected(write: bool, start: u64, count: u64, locked: &[bool; 5], shadow: bool) -> Ruling {
    let end = u128::from(start) + u128::from(count);
    if end > u128::from(N) {
        return Refused;
    }
    let sectors = || start..start + count;
    if count == 0 {
        return Disk;
    }
    if shadow {
        let below = sectors().filter(|sector| *sector < 262_144).count() as u64;
        if !write && below == count {
            return Shadow;
        }
        if below > 0 {
            return Refused;
        }
    }
    if sectors().any(|sector| locked[owner(sector)]) {
        Refused
    } else {
        Disk
    }
}

#[test]
fn sector_by_sector() {
    let mut host = Host::admin1();
    for (row, (start, length)) in (1..).zip(RANGES) {
        assert_eq!(host.set(&uid::range(row), &[(3, start), (4, length)]), 0);
    }
    let rows = [uid::GLOBAL_RANGE, uid::range(1), uid::range(2), uid::range(3), uid::range(4)];
    for choice in 0..64u32 {
        let write = choice & 32 != 0;
        let locked: [bool; 5] = std::array::from_fn(|row| choice & 1 << row != 0);
        let (read, write_columns) = ([5, 7], [6, 8]);
        let ([enable, lock], [other_enable, other_lock]) =
            if write { (write_columns, read) } else { (read, write_columns) };
        for (row, uid) in rows.iter().enumerate() {
            // A row that is not locked lacks one half of it: even rows the lock, odd rows its being enabled.
            let held = u64::from(locked[row]);
            let own = if row % 2 == 0 { [(enable, 1), (lock, held)] } else { [(enable, held), (lock, 1)] };
            // The other direction is locked exactly where this one is not.
            let cells = [own[0], own[1], (other_enable, 1), (other_lock, 1 - held)];
            assert_eq!(host.set(uid, &cells), 0);
        }
        for shadow in [false, true] {
            assert_eq!(host.set(&uid::MBR_CONTROL, &[(1, u64::from(shadow))]), 0);
            for start in (262_136..262_150).chain(999_990..1_000_002).chain([0, 9, 10, 11]) {
                for count in 0..14 {
                    let found = host.card.media(write, start, count);
                    assert_eq!(
                        found,
                        expected(write, start, count, &locked, shadow),
                        "{choice} {shadow} {start} {count}"
                    );
                }
            }
        }
    }
    assert_eq!(host.card.media(false, u64::MAX, 2), Refused);
    assert_eq!(host.card.media(false, u64::MAX, 0), Refused);
    assert_eq!(host.card.media(false, N, 0), Disk);
}

#[test]
fn inactive_is_disk() {
    let mut host = Host::new();
    assert_eq!(host.card.media(true, 0, N), Disk);
    assert_eq!(host.card.media(true, 0, N + 1), Refused);
    assert_eq!(host.card.power_cycle(), 0);
    assert_eq!(host.card.media(true, 0, N), Disk);
    assert_eq!(host.start(&uid::ADMIN_SP, Some(&MSID), Some(&uid::SID)), 0);
}
