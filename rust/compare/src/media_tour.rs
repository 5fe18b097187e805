//! Reads and writes from every border to every other, one sector more and less, with each range locked in turn.

use crate::coverage::Coverage;
use crate::event::Event;
use crate::generator::objects::{Object, ADMIN1};
use crate::generator::values::{integer_tokens, named_tokens};
use crate::generator::Step;
use crate::run::{Difference, Run};
use crate::state::SHADOW;
use crate::tour::{enter, send, Done, Host, SECTORS};
use second::requests;
use second::uid;

/// Start and length of ranges 1 to 4: two side by side, one across the shadow's end, one at the disk's.
const PLACES: [(u64, u64); 4] = [(1_000, 100), (1_100, 1), (SHADOW - 50, 100), (SECTORS - 1, 1)];

/// Each range in turn enabled and locked for both, one for reading only, one for writing only, or none.
const LOCKS: [Option<(usize, u64, u64)>; 8] = [
    None,
    Some((0, 1, 1)),
    Some((1, 1, 1)),
    Some((2, 1, 1)),
    Some((3, 1, 1)),
    Some((4, 1, 1)),
    Some((3, 1, 0)),
    Some((0, 0, 1)),
];

pub fn media_tour(coverage: &mut Coverage) -> Result<(), Box<Difference>> {
    for lock in LOCKS {
        for shadow in [0, 1] {
            let mut run = Run::new(coverage);
            enter(&mut run, Host { sp: uid::LOCKING_SP, row: Some(ADMIN1) })?;
            set_up(&mut run, lock, shadow)?;
            ask(&mut run)?;
        }
    }
    Ok(())
}

fn set_up(run: &mut Run<'_>, lock: Option<(usize, u64, u64)>, shadow: u64) -> Done {
    for (row, (start, length)) in (1..).zip(PLACES) {
        set(run, Object::Range(row), &[(3, start), (4, length)])?;
    }
    if let Some((row, read, write)) = lock {
        set(run, Object::Range(row), &[(5, read), (6, write), (7, 1), (8, 1)])?;
    }
    set(run, Object::MbrControl, &[(1, shadow)])
}

fn set(run: &mut Run<'_>, object: Object, columns: &[(u64, u64)]) -> Done {
    let columns: Vec<u8> =
        columns.iter().flat_map(|(column, value)| named_tokens(*column, &integer_tokens(*value))).collect();
    send(run, "Set", requests::set(&object.uid(), &columns))
}

fn ask(run: &mut Run<'_>) -> Done {
    let ends = PLACES.iter().flat_map(|(start, length)| [*start, start + length]);
    let borders = ends.chain([0, SHADOW, SECTORS, u64::MAX]);
    let mut points: Vec<u64> = borders.flat_map(|at| [at.saturating_sub(1), at, at.saturating_add(1)]).collect();
    points.sort_unstable();
    points.dedup();
    for start in &points {
        let to_points = points.iter().filter(|end| *end >= start).map(|end| end - start);
        for count in to_points.chain([2, u64::MAX, (u64::MAX - start).saturating_add(1)]) {
            for (name, write) in [("read", false), ("write", true)] {
                run.step(Step { name, event: Event::Media { write, start: *start, count } })?;
            }
        }
    }
    Ok(())
}
