//! The four rules of Check.
use super::image::{CELLS, event_cell, event_counts, in_range, row_cell};

/// The first broken rule and the cell that it names.
pub fn fault(cells: &[u32; CELLS]) -> Option<(u8, u32)> {
    if let Some(c) = (0..CELLS).find(|&c| !in_range(c, cells[c])) {
        return Some((1, c as u32));
    }
    for row in 1..=32 {
        let at = row_cell(row);
        let zeros = cells[at..at + 4].iter().filter(|&&v| v == 0).count();
        if zeros != 0 && zeros != 4 {
            return Some((2, at as u32));
        }
    }
    for row in 1..=32 {
        let at = row_cell(row);
        let plan = cells[at + 3] as usize;
        if plan != 0 && (1..=12).all(|e| start(cells, plan, e).is_none()) {
            return Some((3, at as u32));
        }
    }
    for plan in 1..=16 {
        for event in 1..=12 {
            let Some(minute) = start(cells, plan, event) else {
                continue;
            };
            if (1..event).any(|e| start(cells, plan, e) == Some(minute)) {
                return Some((4, event_cell(plan, event) as u32));
            }
        }
    }
    None
}

/// The minute in which an event starts, if it counts.
fn start(cells: &[u32; CELLS], plan: usize, event: usize) -> Option<u32> {
    let at = event_cell(plan, event);
    let (hour, minute, tariff) = (cells[at], cells[at + 1], cells[at + 2]);
    event_counts(hour, minute, tariff).then(|| 60 * hour + minute)
}
