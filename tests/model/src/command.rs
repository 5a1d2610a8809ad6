//! A session's bytes: the header, and one command at a time.

pub const MOST_NODES: usize = 8;
pub const MOST_SHEETS: usize = 64;
pub const MOST_SAVES: usize = 32;
pub const MOST_BYTES: usize = 16_384;

#[derive(Clone, Debug, PartialEq, Eq)]
pub struct Header {
    pub nodes: usize,
    /// The owning node of each sheet.
    pub owner: Vec<usize>,
}

impl Header {
    /// The header with these counts and owners, or nothing where they are not those of a session.
    pub fn new(nodes: usize, sheets: usize, owners: &[u8]) -> Option<Header> {
        let counts_fit = (1..=MOST_NODES).contains(&nodes) && (1..=MOST_SHEETS).contains(&sheets);
        let owner: Vec<usize> = owners.iter().map(|&node| node as usize).collect();
        let owners_fit = owner.len() == sheets && owner.iter().all(|&node| node < nodes);
        (counts_fit && owners_fit).then_some(Header { nodes, owner })
    }

    pub fn sheets(&self) -> usize {
        self.owner.len()
    }

    /// The bytes of the header in a session.
    pub fn bytes(&self) -> Vec<u8> {
        let mut bytes = vec![self.nodes as u8, self.owner.len() as u8];
        bytes.extend(self.owner.iter().map(|&node| node as u8));
        bytes
    }
}

#[derive(Clone, Copy, Debug, PartialEq, Eq)]
pub enum Command {
    Begin { save: usize },
    Read { save: usize, sheet: usize },
    Write { save: usize, sheet: usize, content: u32 },
    Submit { save: usize },
    Take { node: usize },
    Decide { save: usize },
    Apply { node: usize, save: usize },
    GiveUp { save: usize },
}

impl Command {
    /// The save that the command is on; TAKE is on none.
    pub fn save(self) -> Option<usize> {
        match self {
            Command::Begin { save }
            | Command::Read { save, .. }
            | Command::Write { save, .. }
            | Command::Submit { save }
            | Command::Decide { save }
            | Command::Apply { save, .. }
            | Command::GiveUp { save } => Some(save),
            Command::Take { .. } => None,
        }
    }

    /// The bytes of the command in a session.
    pub fn bytes(self) -> Vec<u8> {
        match self {
            Command::Begin { save } => vec![1, save as u8],
            Command::Read { save, sheet } => vec![2, save as u8, sheet as u8],
            Command::Write { save, sheet, content } => {
                let mut bytes = vec![3, save as u8, sheet as u8];
                bytes.extend(content.to_be_bytes());
                bytes
            }
            Command::Submit { save } => vec![4, save as u8],
            Command::Take { node } => vec![5, node as u8],
            Command::Decide { save } => vec![6, save as u8],
            Command::Apply { node, save } => vec![7, node as u8, save as u8],
            Command::GiveUp { save } => vec![8, save as u8],
        }
    }
}

/// The header, or nothing where the session earns refusal 1.
pub fn read_header(session: &[u8]) -> Option<Header> {
    if session.len() > MOST_BYTES || session.len() < 2 {
        return None;
    }
    let (nodes, sheets) = (session[0] as usize, session[1] as usize);
    Header::new(nodes, sheets, session.get(2..2 + sheets)?)
}

/// A command that could not be read: its refusal, and how many bytes are shown of it.
#[derive(Clone, Copy, Debug, PartialEq, Eq)]
pub struct Unreadable {
    pub number: u8,
    pub shown: usize,
}

/// The first command of `rest`, which is not empty, with its length in bytes.
pub fn read_command(header: &Header, rest: &[u8]) -> Result<(Command, usize), Unreadable> {
    let length = match rest[0] {
        1 | 4 | 5 | 6 | 8 => 2,
        2 | 7 => 3,
        3 => 7,
        _ => return Err(Unreadable { number: 2, shown: 1 }),
    };
    if rest.len() < length {
        return Err(Unreadable { number: 3, shown: rest.len() });
    }
    let operand = |place: usize| rest[place] as usize;
    let command = match rest[0] {
        1 => Command::Begin { save: operand(1) },
        2 => Command::Read { save: operand(1), sheet: operand(2) },
        3 => Command::Write {
            save: operand(1),
            sheet: operand(2),
            content: u32::from_be_bytes([rest[3], rest[4], rest[5], rest[6]]),
        },
        4 => Command::Submit { save: operand(1) },
        5 => Command::Take { node: operand(1) },
        6 => Command::Decide { save: operand(1) },
        7 => Command::Apply { node: operand(1), save: operand(2) },
        _ => Command::GiveUp { save: operand(1) },
    };
    if !in_range(header, command) {
        return Err(Unreadable { number: 4, shown: length });
    }
    Ok((command, length))
}

/// Are the command's operands in the header's ranges?
pub fn in_range(header: &Header, command: Command) -> bool {
    let save_ok = |save: usize| save < MOST_SAVES;
    let sheet_ok = |sheet: usize| sheet < header.sheets();
    let node_ok = |node: usize| node < header.nodes;
    match command {
        Command::Begin { save }
        | Command::Submit { save }
        | Command::Decide { save }
        | Command::GiveUp { save } => save_ok(save),
        Command::Read { save, sheet } | Command::Write { save, sheet, .. } => {
            save_ok(save) && sheet_ok(sheet)
        }
        Command::Take { node } => node_ok(node),
        Command::Apply { node, save } => node_ok(node) && save_ok(save),
    }
}
