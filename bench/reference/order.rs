//! Work orders and their form.

#[derive(Clone, Copy, PartialEq, Debug)]
pub enum Command {
    Open,
    Put(u32, u32),
    Check,
    Commit,
    Discard,
}

/// The commands with their places, or the place of the first fault in the form.
pub fn commands(order: &[u8]) -> Result<Vec<(usize, Command)>, usize> {
    let mut commands = Vec::new();
    let mut at = 0;
    loop {
        let Some(&first) = order.get(at) else {
            return Err(order.len());
        };
        let behind = &order[at + 1..];
        let (command, length) = match first {
            0x01 if at == 0 => (Command::Open, 1),
            _ if at == 0 => return Err(0),
            0x10 if behind.len() >= 6 => {
                let cell = u32::from(behind[0]) << 8 | u32::from(behind[1]);
                let value = u32::from_be_bytes(behind[2..6].try_into().unwrap());
                (Command::Put(cell, value), 7)
            }
            0x20 => (Command::Check, 1),
            0x30 if behind.is_empty() => (Command::Commit, 1),
            0x40 if behind.is_empty() => (Command::Discard, 1),
            _ => return Err(at),
        };
        commands.push((at, command));
        if matches!(command, Command::Commit | Command::Discard) {
            return Ok(commands);
        }
        at += length;
    }
}
