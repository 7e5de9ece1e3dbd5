//! The nodes of a script, and its commands on them.
use super::command::{Command, SlotCommand};
use super::hints::{Hint, Hints};
use crate::clock::{Clock, Pairs};
use crate::format::Format;
use crate::journal::{Source, ENTRIES_MAX};
use crate::message::Offer;
use crate::place::Place;
use crate::range::{check_key, check_value, Config, New, Range};
use crate::refusal::Refusal;
use crate::slots::{Slots, CEILING};
use crate::tree::{hash, NodeAt, Tree};
use crate::version::{write_row, Version};
use std::io::Write;

/// The seat of a script.
const SEAT: u8 = 0;

const BITS_MAX: u64 = 8;

const NODES_MAX: usize = 32;

/// A node, with its replicas by the number of their range.
struct Node {
    number: u16,
    is_up: bool,
    ranges: Vec<Option<Range>>,
    hints: Hints,
}

/// The nodes of a ring, in its order.
struct Ring {
    bits: u8,
    copies: usize,
    format: Format,
    nodes: Vec<Node>,
}

/// A ring, and the slots for its background work.
pub struct Cluster {
    ring: Ring,
    slots: Slots,
}

impl Ring {
    /// Returns a ring whose nodes have accepted nothing. Refused: BadRing.
    fn new(bits: u64, copies: u64, numbers: &[u64], limit: u64, format: u64) -> Result<Ring, Refusal> {
        let format = Format::of_number(format).ok_or(Refusal::BadRing)?;
        let distinct = numbers.iter().enumerate().all(|(at, number)| !numbers[..at].contains(number));
        let is_valid = bits <= BITS_MAX
            && (1..=NODES_MAX).contains(&numbers.len())
            && distinct
            && (1..=numbers.len() as u64).contains(&copies)
            && (1..=ENTRIES_MAX).contains(&limit);
        if !is_valid {
            return Err(Refusal::BadRing);
        }
        let mut ring = Ring { bits: bits as u8, copies: copies as usize, format, nodes: Vec::new() };
        for &number in numbers {
            let number = u16::try_from(number).ok().filter(|&number| number > 0).ok_or(Refusal::BadRing)?;
            ring.nodes.push(Node { number, is_up: true, ranges: Vec::new(), hints: Hints::default() });
        }
        for range in 0..1 << bits {
            let replicas: Vec<usize> = ring.preference(range).take(ring.copies).collect();
            let config = Config { format, bits: ring.bits, number: range, limit };
            for (at, node) in ring.nodes.iter_mut().enumerate() {
                node.ranges.push(replicas.contains(&at).then(|| Range::new(config)));
            }
        }
        Ok(ring)
    }

    /// Returns the indices of the nodes in the order of a range's preference list.
    fn preference(&self, range: u16) -> impl Iterator<Item = usize> {
        let count = self.nodes.len();
        (0..count).map(move |place| (place + usize::from(range)) % count)
    }

    /// Returns the index of a node. Refused: BadRing.
    fn find(&self, number: u64) -> Result<usize, Refusal> {
        self.nodes.iter().position(|node| u64::from(node.number) == number).ok_or(Refusal::BadRing)
    }

    /// Returns the index of a node that is up. Refused: BadRing, Down.
    fn find_up(&self, number: u64) -> Result<usize, Refusal> {
        let at = self.find(number)?;
        if self.nodes[at].is_up {
            Ok(at)
        } else {
            Err(Refusal::Down)
        }
    }

    /// Returns a node's replica of a range. Refused: OtherRange.
    fn replica(&mut self, at: usize, range: u64) -> Result<&mut Range, Refusal> {
        let range = usize::try_from(range).map_err(|_| Refusal::OtherRange)?;
        self.nodes[at].ranges.get_mut(range).and_then(Option::as_mut).ok_or(Refusal::OtherRange)
    }

    fn place(&self, key: &[u8]) -> Place {
        Place::of(key, self.bits, self.format)
    }

    /// Returns the replica of a key's range at a node, and the key's place. Refused: BadRing, Down, BadKey, OtherRange.
    fn replica_of(&mut self, node: u64, key: &[u8]) -> Result<(&mut Range, Place), Refusal> {
        let at = self.find_up(node)?;
        check_key(key)?;
        let place = self.place(key);
        Ok((self.replica(at, u64::from(place.range))?, place))
    }

    /// Has each other replica accept a copy of a version, except the nodes to `lose`, or a carrier keep a hint for it.
    /// Returns the numbers of copies and of hints.
    fn send(&mut self, at: usize, new: &New, lose: &[usize]) -> (u64, u64) {
        let (mut copied, mut hinted) = (0, 0);
        let list: Vec<usize> = self.preference(new.place.range).collect();
        let (replicas, carriers) = list.split_at(self.copies);
        for &owner in replicas.iter().filter(|&&owner| owner != at && !lose.contains(&owner)) {
            let version = new.version.clone();
            if !self.nodes[owner].is_up {
                let carrier = carriers.iter().find(|&&carrier| self.nodes[carrier].is_up);
                let kept = carrier.map(|&carrier| self.nodes[carrier].hints.keep(Hint { owner, version }));
                hinted += u64::from(kept == Some(Ok(())));
            } else if let Ok(range) = self.replica(owner, u64::from(new.place.range)) {
                let new = New { place: new.place, version };
                copied += u64::from(range.accept(SEAT, Source::Copy, new).is_ok());
            }
        }
        (copied, hinted)
    }

    /// Offers a hint to its owner. Returns true if the version is new to the owner, and `None` if the owner is down or
    /// refuses it.
    fn offer(&mut self, hint: &Hint) -> Option<bool> {
        if !self.nodes[hint.owner].is_up {
            return None;
        }
        let place = self.place(hint.version.key());
        let new = New { place, version: hint.version.clone() };
        let range = self.replica(hint.owner, u64::from(place.range)).ok()?;
        range.accept(SEAT, Source::Hint, new).ok().map(|receipt| receipt.is_some())
    }
}

/// The result of a whole session: its counts, and the refusal that stopped it.
struct Walk {
    asked: u64,
    accepted: u64,
    known: u64,
    stopped: Option<Refusal>,
}

/// Has a replica accept the versions of a partner's snapshot, wherever the two trees differ. Refused: SessionsFull,
/// Dirty.
fn sync(range: &mut Range, snapshot: &Tree) -> Result<Walk, Refusal> {
    let Config { format, number, .. } = range.config();
    let root = snapshot.root().ok_or(Refusal::Dirty)?;
    let id = range.open_session(&Offer { number: 1, format: format.number(), range: number as u8, root })?;
    let mut walk = Walk { asked: 0, accepted: 0, known: 0, stopped: None };
    let mut text = Vec::new();
    while let Some(at) = range.session(id)?.next() {
        text.clear();
        snapshot.write_text_at(at, format, &mut text).ok_or(Refusal::Dirty)?;
        match range.take_answer(SEAT, id, at, &text, hash(&text)) {
            Ok(taken) => {
                walk.accepted += taken.receipts.len() as u64;
                walk.known += taken.known;
            }
            Err(refusal) => {
                walk.stopped = Some(refusal);
                break;
            }
        }
    }
    walk.asked = range.session(id)?.asked;
    Ok(walk)
}

impl Cluster {
    /// Returns the cluster at the beginning of a script: node 1 with one range.
    pub fn new() -> Cluster {
        let mut ring = Ring { bits: 0, copies: 1, format: Format::One, nodes: Vec::new() };
        let config = Config { format: Format::One, bits: 0, number: 0, limit: ENTRIES_MAX };
        let ranges = vec![Some(Range::new(config))];
        ring.nodes.push(Node { number: 1, is_up: true, ranges, hints: Hints::default() });
        Cluster { ring, slots: Slots::new() }
    }

    /// Runs a command, and appends its answer. A refused command has no answer here, except a stale put. BadLine: the
    /// command isn't one in the ring's format.
    pub fn run(&mut self, command: Command, out: &mut Vec<u8>) -> Result<(), Refusal> {
        match command {
            Command::Ring { bits, copies, nodes, limit, format } => {
                let ring = Ring::new(bits, copies, &nodes, limit.unwrap_or(ENTRIES_MAX), format.unwrap_or(1))?;
                *self = Cluster { ring, slots: Slots::new() };
                say(out, format_args!("{{\"nodes\":{},\"ranges\":{}}}\n", nodes.len(), 1 << bits));
                Ok(())
            }
            Command::Put { node, key, context, value, lose } => self.put(node, &key, &context, value, &lose, out),
            Command::Get { node, key } => self.get(node, &key, out),
            Command::Row { node, key } => self.row(node, &key, out),
            Command::SetUp { node, is_up } => self.set_up(node, is_up, out),
            Command::Deliver { node } => self.deliver(node, out),
            Command::Rehash { node, range } => self.rehash(node, range, out),
            Command::Node { node, range, depth, index } => self.node(node, range, depth, index, out),
            Command::Sync { node, from, range } => self.sync(node, from, range, out),
            Command::Slot(command) => self.slot(&command, out),
            Command::Sample { at, micros } => {
                let samples = self.slots.sample(at, micros)?;
                say(out, format_args!("{{\"samples\":{samples}}}\n"));
                Ok(())
            }
        }
    }

    fn put(
        &mut self,
        node: u64,
        key: &[u8],
        context: &[(u64, u64)],
        value: Option<Vec<u8>>,
        lose: &[u64],
        out: &mut Vec<u8>,
    ) -> Result<(), Refusal> {
        let ring = &mut self.ring;
        if value.is_none() && ring.format == Format::One {
            return Err(Refusal::BadLine);
        }
        ring.find(node)?;
        let lose = lose.iter().map(|&number| ring.find(number)).collect::<Result<Vec<usize>, Refusal>>()?;
        let at = ring.find_up(node)?;
        let context = Clock::from_pairs(context)?;
        check_key(key)?;
        check_value(ring.format, value.as_deref())?;
        let place = ring.place(key);
        let number = ring.nodes[at].number;
        let range = ring.replica(at, u64::from(place.range))?;
        let clock = context.raise(number)?;
        let version = Version::new(key, &clock, value.as_deref());
        let receipt = match range.put(SEAT, New { place, version: version.clone() }) {
            Err(Refusal::StaleContext) => {
                let held = range.get(key, place);
                write_stale(held.versions(), out);
                return Ok(());
            }
            other => other?,
        };
        let (copied, hinted) = ring.send(at, &New { place, version }, &lose);
        out.extend_from_slice(b"{\"clock\":");
        write_clock(clock.pairs(), out);
        let number = receipt.number;
        say(out, format_args!(",\"copied\":{copied},\"hinted\":{hinted},\"number\":{number}}}\n"));
        Ok(())
    }

    fn get(&mut self, node: u64, key: &[u8], out: &mut Vec<u8>) -> Result<(), Refusal> {
        let (range, place) = self.ring.replica_of(node, key)?;
        let held = range.get(key, place);
        out.extend_from_slice(b"{\"versions\":");
        write_list(held.versions(), out, |version, out| {
            out.extend_from_slice(b"{\"clock\":");
            write_clock(version.clock(), out);
            out.extend_from_slice(b",\"value\":");
            match version.value() {
                Some(value) => write_hex(value, out),
                None => out.extend_from_slice(b"null"),
            }
            out.push(b'}');
        });
        out.extend_from_slice(b"}\n");
        Ok(())
    }

    fn row(&mut self, node: u64, key: &[u8], out: &mut Vec<u8>) -> Result<(), Refusal> {
        let format = self.ring.format;
        let (range, place) = self.ring.replica_of(node, key)?;
        let held = range.get(key, place);
        let mut text = Vec::new();
        if !held.versions().is_empty() {
            write_row(held.versions(), format, &mut text);
        }
        out.extend_from_slice(b"{\"row\":");
        write_hex(&text, out);
        out.extend_from_slice(b"}\n");
        Ok(())
    }

    fn set_up(&mut self, node: u64, is_up: bool, out: &mut Vec<u8>) -> Result<(), Refusal> {
        let at = self.ring.find(node)?;
        self.ring.nodes[at].is_up = is_up;
        say(out, format_args!("{{\"node\":{node},\"up\":{is_up}}}\n"));
        Ok(())
    }

    fn deliver(&mut self, node: u64, out: &mut Vec<u8>) -> Result<(), Refusal> {
        let at = self.ring.find_up(node)?;
        self.slots.lend()?;
        let (mut delivered, mut known) = (0, 0);
        let mut hints = std::mem::take(&mut self.ring.nodes[at].hints);
        hints.deliver(|hint| {
            let offered = self.ring.offer(hint);
            delivered += u64::from(offered == Some(true));
            known += u64::from(offered == Some(false));
            offered.is_some()
        });
        let pending = hints.pending();
        self.ring.nodes[at].hints = hints;
        self.slots.give_back();
        say(out, format_args!("{{\"delivered\":{delivered},\"known\":{known},\"pending\":{pending}}}\n"));
        Ok(())
    }

    fn rehash(&mut self, node: u64, range: u64, out: &mut Vec<u8>) -> Result<(), Refusal> {
        let at = self.ring.find_up(node)?;
        let range = self.ring.replica(at, range)?;
        self.slots.lend()?;
        let hashed = range.rehash();
        self.slots.give_back();
        say(out, format_args!("{{\"hashed\":{hashed}}}\n"));
        Ok(())
    }

    fn node(&mut self, node: u64, range: u64, depth: u64, index: u64, out: &mut Vec<u8>) -> Result<(), Refusal> {
        let place = NodeAt::new(self.ring.format, depth, index).ok_or(Refusal::BadLine)?;
        let at = self.ring.find_up(node)?;
        let digest = self.ring.replica(at, range)?.digest_at(place);
        out.extend_from_slice(b"{\"digest\":");
        match digest {
            Some(digest) => write_hex(&digest, out),
            None => out.extend_from_slice(b"null"),
        }
        out.extend_from_slice(b"}\n");
        Ok(())
    }

    fn sync(&mut self, node: u64, from: u64, range: u64, out: &mut Vec<u8>) -> Result<(), Refusal> {
        let ring = &mut self.ring;
        ring.find(node)?;
        ring.find(from)?;
        let (at, from) = (ring.find_up(node)?, ring.find_up(from)?);
        ring.replica(at, range)?;
        ring.replica(from, range)?;
        self.slots.lend()?;
        let walked = ring.replica(from, range).and_then(|partner| partner.snapshot());
        let walked = walked.and_then(|snapshot| sync(ring.replica(at, range)?, &snapshot));
        self.slots.give_back();
        let Walk { asked, accepted, known, stopped } = walked?;
        say(out, format_args!("{{\"accepted\":{accepted},\"asked\":{asked},"));
        match stopped {
            None => say(out, format_args!("\"known\":{known},\"state\":\"Finished\"}}\n")),
            Some(refusal) => say(
                out,
                format_args!(
                    "\"cause\":\"{refusal:?}\",\"known\":{known},\"refused\":{},\"state\":\"Open\"}}\n",
                    refusal as u8
                ),
            ),
        }
        Ok(())
    }

    fn slot(&mut self, command: &SlotCommand, out: &mut Vec<u8>) -> Result<(), Refusal> {
        let slots = &mut self.slots;
        let mut p99 = None;
        match *command {
            SlotCommand::Lend => slots.lend()?,
            SlotCommand::Back => slots.give_back(),
            SlotCommand::Target(target) if (1..=CEILING).contains(&target) => slots.target = target,
            SlotCommand::Target(_) => return Err(Refusal::BadLine),
            SlotCommand::Adjust(moment) => p99 = Some(slots.adjust(moment)?),
        }
        let (free, lent, target) = (slots.free(), slots.lent, slots.target);
        say(out, format_args!("{{\"allowance\":{},\"free\":{free},\"lent\":{lent},", free + lent));
        match p99 {
            Some(Some(p99)) => say(out, format_args!("\"p99\":{p99},")),
            Some(None) => say(out, format_args!("\"p99\":null,")),
            None => {}
        }
        say(out, format_args!("\"target\":{target}}}\n"));
        Ok(())
    }
}

/// Appends a text. A vector takes all of it.
fn say(out: &mut Vec<u8>, text: std::fmt::Arguments) {
    let _ = out.write_fmt(text);
}

fn write_list<T>(items: impl IntoIterator<Item = T>, out: &mut Vec<u8>, write: impl Fn(T, &mut Vec<u8>)) {
    out.push(b'[');
    for (at, item) in items.into_iter().enumerate() {
        if at > 0 {
            out.push(b',');
        }
        write(item, out);
    }
    out.push(b']');
}

fn write_clock(pairs: Pairs, out: &mut Vec<u8>) {
    write_list(pairs.iter(), out, |(node, counter), out| say(out, format_args!("[{node},{counter}]")));
}

fn write_stale(held: &[Version], out: &mut Vec<u8>) {
    let stale = Refusal::StaleContext;
    say(out, format_args!("{{\"cause\":\"{stale:?}\",\"held\":"));
    write_list(held, out, |version, out| write_clock(version.clock(), out));
    say(out, format_args!(",\"refused\":{}}}\n", stale as u8));
}

/// Appends bytes as a JSON text of hexadecimal digits.
fn write_hex(bytes: &[u8], out: &mut Vec<u8>) {
    out.push(b'"');
    for byte in bytes {
        let digit = |number: u8| b"0123456789abcdef"[usize::from(number)];
        out.extend_from_slice(&[digit(byte >> 4), digit(byte & 15)]);
    }
    out.push(b'"');
}
