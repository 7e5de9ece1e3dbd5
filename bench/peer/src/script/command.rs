//! The commands of a script.
use super::json::{Json, Members};

/// A command.
pub enum Command {
    Ring { bits: u64, copies: u64, nodes: Vec<u64>, limit: Option<u64>, format: Option<u64> },
    Put { node: u64, key: Vec<u8>, context: Vec<(u64, u64)>, value: Option<Vec<u8>>, lose: Vec<u64> },
    Get { node: u64, key: Vec<u8> },
    Row { node: u64, key: Vec<u8> },
    SetUp { node: u64, is_up: bool },
    Deliver { node: u64 },
    Rehash { node: u64, range: u64 },
    Node { node: u64, range: u64, depth: u64, index: u64 },
    Sync { node: u64, from: u64, range: u64 },
    Slot(SlotCommand),
    Sample { at: u64, micros: u32 },
}

/// A command on slots.
pub enum SlotCommand {
    Lend,
    Back,
    Target(u64),
    Adjust(u64),
}

impl Command {
    /// Reads a line. Returns `None` if it isn't a command.
    pub fn read(line: &[u8]) -> Option<Command> {
        let Json::Object(line) = serde_json::from_slice(line).ok()? else { return None };
        let (name, members) = line.only()?;
        let Json::Object(mut members) = members else { return None };
        let command = command_of(&name, &mut members)?;
        members.is_empty().then_some(command)
    }
}

fn command_of(name: &str, members: &mut Members) -> Option<Command> {
    let node = |members: &mut Members| number(members.take("node")?);
    Some(match name {
        "ring" => Command::Ring {
            bits: number(members.take("bits")?)?,
            copies: number(members.take("copies")?)?,
            nodes: numbers(members.take("nodes")?)?,
            limit: optional(members.take("limit"), number)?,
            format: optional(members.take("format"), number)?,
        },
        "put" => Command::Put {
            node: node(members)?,
            key: bytes(members.take("key")?)?,
            context: pairs(members.take("context")?)?,
            value: value(members.take("value")?)?,
            lose: optional(members.take("lose"), numbers)?.unwrap_or_default(),
        },
        "get" => Command::Get { node: node(members)?, key: bytes(members.take("key")?)? },
        "row" => Command::Row { node: node(members)?, key: bytes(members.take("key")?)? },
        "down" => Command::SetUp { node: node(members)?, is_up: false },
        "up" => Command::SetUp { node: node(members)?, is_up: true },
        "deliver" => Command::Deliver { node: node(members)? },
        "rehash" => Command::Rehash { node: node(members)?, range: number(members.take("range")?)? },
        "node" => Command::Node {
            node: node(members)?,
            range: number(members.take("range")?)?,
            depth: number(members.take("depth")?)?,
            index: number(members.take("index")?)?,
        },
        "sync" => Command::Sync {
            node: node(members)?,
            from: number(members.take("from")?)?,
            range: number(members.take("range")?)?,
        },
        "slot" => Command::Slot(slot_command(members)?),
        "sample" => Command::Sample {
            at: number(members.take("at")?)?,
            micros: u32::try_from(number(members.take("micros")?)?).ok()?,
        },
        _ => return None,
    })
}

fn slot_command(members: &mut Members) -> Option<SlotCommand> {
    let Json::Text(name) = members.take("do")? else { return None };
    let target = optional(members.take("n"), number)?;
    match (&*name, target) {
        ("lend", None) => Some(SlotCommand::Lend),
        ("back", None) => Some(SlotCommand::Back),
        ("target", Some(target)) => Some(SlotCommand::Target(target)),
        ("adjust", Some(moment)) => Some(SlotCommand::Adjust(moment)),
        _ => None,
    }
}

/// Reads a member that may be left out. Returns `None` if it is wrong.
fn optional<'a, T>(member: Option<Json<'a>>, read: impl FnOnce(Json<'a>) -> Option<T>) -> Option<Option<T>> {
    match member {
        None => Some(None),
        Some(member) => read(member).map(Some),
    }
}

fn number(json: Json) -> Option<u64> {
    match json {
        Json::Number(number) => Some(number),
        _ => None,
    }
}

fn list(json: Json) -> Option<Vec<Json>> {
    match json {
        Json::List(list) => Some(list),
        _ => None,
    }
}

fn numbers(json: Json) -> Option<Vec<u64>> {
    list(json)?.into_iter().map(number).collect()
}

fn pairs(json: Json) -> Option<Vec<(u64, u64)>> {
    let pair = |json| match *numbers(json)? {
        [node, counter] => Some((node, counter)),
        _ => None,
    };
    list(json)?.into_iter().map(pair).collect()
}

fn value(json: Json) -> Option<Option<Vec<u8>>> {
    match json {
        Json::Null => Some(None),
        json => bytes(json).map(Some),
    }
}

fn bytes(json: Json) -> Option<Vec<u8>> {
    let Json::Text(text) = json else { return None };
    let digits = text.as_bytes();
    if digits.len() % 2 != 0 {
        return None;
    }
    digits.chunks_exact(2).map(|two| Some(digit(two[0])? << 4 | digit(two[1])?)).collect()
}

fn digit(digit: u8) -> Option<u8> {
    match digit {
        b'0'..=b'9' => Some(digit - b'0'),
        b'a'..=b'f' => Some(digit - b'a' + 10),
        b'A'..=b'F' => Some(digit - b'A' + 10),
        _ => None,
    }
}
