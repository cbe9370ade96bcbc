//! Cells, their widths and ranges, and the image.

pub const CELLS: usize = 706;
pub const IMAGE: usize = 837;

#[derive(Clone, Copy, PartialEq)]
pub enum Field {
    Zone,
    Summer,
    Months,
    Weekdays,
    Dates,
    Plan,
    Hour,
    Minute,
    Tariff,
}

pub fn field(cell: usize) -> Field {
    use Field::*;
    match cell {
        0 => Zone,
        1 => Summer,
        2..=129 => [Months, Weekdays, Dates, Plan][(cell - 2) % 4],
        _ => [Hour, Minute, Tariff][(cell - 130) % 3],
    }
}

pub fn width(cell: usize) -> usize {
    match field(cell) {
        Field::Zone | Field::Dates => 4,
        Field::Months => 2,
        _ => 1,
    }
}

pub fn in_range(cell: usize, value: u32) -> bool {
    match field(cell) {
        Field::Zone => value <= 86_400,
        Field::Summer => value <= 1,
        Field::Months => value & !8190 == 0,
        Field::Weekdays => value & !254 == 0,
        Field::Dates => value & 1 == 0,
        Field::Plan => value <= 16,
        Field::Hour => value <= 23,
        Field::Minute => value <= 59,
        Field::Tariff => value <= 255,
    }
}

/// The first byte of a cell.
pub fn place(cell: usize) -> usize {
    match cell {
        0 => 0,
        1 => 4,
        2..=129 => 5 + (cell - 2) / 4 * 8 + [0, 2, 3, 7][(cell - 2) % 4],
        _ => 261 + (cell - 130),
    }
}

/// The number of whole cells in so many bytes.
pub fn size(bytes: usize) -> usize {
    if bytes >= IMAGE {
        return CELLS;
    }
    (0..CELLS)
        .take_while(|&c| place(c) + width(c) <= bytes)
        .count()
}

pub fn get(image: &[u8], cell: usize) -> u32 {
    let at = place(cell);
    image[at..at + width(cell)]
        .iter()
        .fold(0, |v, &b| v << 8 | u32::from(b))
}

pub fn put(image: &mut [u8], cell: usize, value: u32) {
    let (at, w) = (place(cell), width(cell));
    image[at..at + w].copy_from_slice(&value.to_be_bytes()[4 - w..]);
}

/// All cells; those that the image does not have are 0.
pub fn cells(image: &[u8]) -> [u32; CELLS] {
    let mut cells = [0; CELLS];
    for c in 0..size(image.len()) {
        cells[c] = get(image, c);
    }
    cells
}

/// An event's hour, minute and tariff count.
pub fn event_counts(hour: u32, minute: u32, tariff: u32) -> bool {
    hour <= 23 && minute <= 59 && (1..=255).contains(&tariff)
}

pub fn row_cell(row: usize) -> usize {
    2 + 4 * (row - 1)
}

pub fn event_cell(plan: usize, event: usize) -> usize {
    130 + 36 * (plan - 1) + 3 * (event - 1)
}
