//! A whole host: two processes with a replica each of one range. One of them is killed, and both end with equal roots.
//!
//! ```sh
//! cargo run --example host -- FOLDER    # with the variables of README.md
//! ```
//!
//! The program starts the nodes 1 and 2, and is their client. A node acknowledges a put once it is in its synced log.
//! It sends the other node a copy, and keeps a hint if that fails. In the background each node delivers hints and
//! syncs, in rounds with a deadline: the next round continues the exchange. A restart detects damage of the synced log;
//! `docs/EMBEDDING_C.md`, "Restarts", has the rules that are left out (a lock of the folder, a manifest, a log of
//! hints).

use std::collections::{BTreeMap, BTreeSet};
use std::error::Error;
use std::fs::{self, File, OpenOptions};
use std::io::{self, BufReader, BufWriter, ErrorKind, Read, Write};
use std::os::unix::fs::FileExt;
use std::os::unix::net::{UnixListener, UnixStream};
use std::path::Path;
use std::process::{self, Child, Command, Stdio};
use std::sync::{Mutex, MutexGuard};
use std::time::{Duration, Instant};
use std::{env, thread};

use antientropy::{exchange_beside, merge, renew_if_due, snapshot_beside};
use antientropy::{Bounds, Config, Exchange, Hint, Hints, Refusal, Replica, Snapshot, Version};

type Outcome<T> = Result<T, Box<dyn Error + Send + Sync>>;

const LINK_TIMEOUT: Duration = Duration::from_millis(200);
const CLIENT_TIMEOUT: Duration = Duration::from_secs(60);
const ROUND_TIME: Duration = Duration::from_millis(5);
const PAUSE: Duration = Duration::from_millis(10);
const MAX_MESSAGE: u32 = 64 << 20;
const MAX_HINTS: u64 = 10; // so few that an outage needs a sync, too

/// Returns the text of a row with one version (`docs/FORMATS.md`).
fn row_of(key: &[u8], version: &Version) -> Vec<u8> {
    let value = version.value.as_deref().unwrap_or_default();
    let mut row = (key.len() as u16).to_be_bytes().to_vec();
    row.extend_from_slice(key);
    row.extend_from_slice(&[0, 1, u8::from(version.value.is_none()), version.clock.pairs().len() as u8]);
    for pair in version.clock.pairs() {
        row.extend_from_slice(&(pair.node as u16).to_be_bytes());
        row.extend_from_slice(&pair.counter.to_be_bytes());
    }
    row.extend_from_slice(&(value.len() as u32).to_be_bytes());
    row.extend_from_slice(value);
    row
}

// ---- messages: a byte for the kind, the length of the body (4 bytes), and the body

/// The body of a response, or the cause of a refusal.
type Response = Result<Vec<u8>, String>;

fn send(link: &mut UnixStream, kind: u8, body: &[u8]) -> io::Result<()> {
    link.write_all(&[&[kind], &(body.len() as u32).to_be_bytes()[..], body].concat())
}

fn receive(link: &mut UnixStream) -> io::Result<(u8, Vec<u8>)> {
    let mut head = [0; 5];
    link.read_exact(&mut head)?;
    let [kind, length @ ..] = head;
    let mut body = vec![0; u32::from_be_bytes(length).min(MAX_MESSAGE) as usize];
    link.read_exact(&mut body)?;
    Ok((kind, body))
}

/// Sends a request, and returns the response. Fails if the node is down, or sends nothing for a time.
fn request(node: u16, kind: u8, body: &[u8], timeout: Duration) -> io::Result<Response> {
    let mut link = UnixStream::connect(format!("../{}/socket", node))?;
    link.set_read_timeout(Some(timeout))?;
    link.set_write_timeout(Some(timeout))?;
    send(&mut link, kind, body)?;
    let (kind, body) = receive(&mut link)?;
    Ok(if kind == b'+' { Ok(body) } else { Err(String::from_utf8_lossy(&body).into_owned()) })
}

// ---- a node

/// The log of a node. A record is a length (4 bytes), a checksum (8 bytes) and rows. The file `synced` has the length
/// of the synced log.
struct Disk {
    log: File,
    synced: File,
    length: u64,
}

impl Disk {
    /// Returns the disk, and the replica of the checkpoint and the log. Cuts off an incomplete record, which wasn't
    /// acknowledged.
    fn open() -> Outcome<(Disk, Replica)> {
        let mut replica = match File::open("checkpoint") {
            Ok(file) => Replica::load(BufReader::new(file), 1_000_000)?,
            Err(error) if error.kind() == ErrorKind::NotFound => Replica::new(Config::default())?,
            Err(error) => return Err(error.into()),
        };
        let mut log = OpenOptions::new().create(true).read(true).append(true).open("log")?;
        let synced = OpenOptions::new().create(true).read(true).write(true).truncate(false).open("synced")?;
        let mut bytes = Vec::new();
        log.read_to_end(&mut bytes)?;
        let mut length = 0;
        while let Some(rows) = rows_at(&bytes[length..]) {
            replica.load_format(2, rows)?;
            length += 12 + rows.len();
        }
        let mut disk = Disk { log, synced, length: length as u64 };
        let mut noted = [0; 8];
        disk.synced.read_at(&mut noted, 0)?;
        if disk.length < u64::from_be_bytes(noted) {
            return Err("the log is damaged: put under a new number".into());
        }
        disk.log.set_len(disk.length)?;
        disk.sync()?; // a killed process can leave records that aren't on the disk
        File::open(".")?.sync_all()?;
        Ok((disk, replica))
    }

    fn append(&mut self, rows: &[u8]) -> io::Result<()> {
        let record = [&head_of(rows), rows].concat();
        self.log.write_all(&record)?;
        self.length += record.len() as u64;
        self.sync()
    }

    /// Saves a checkpoint that includes all records, and empties the log.
    fn save(&mut self, replica: &mut Replica) -> Outcome<()> {
        let mut file = BufWriter::new(File::create("checkpoint.new")?);
        replica.save(&mut file)?;
        file.into_inner()?.sync_all()?;
        fs::rename("checkpoint.new", "checkpoint")?;
        File::open(".")?.sync_all()?;
        self.length = 0;
        self.note()?;
        self.synced.sync_all()?;
        self.log.set_len(0)?;
        self.sync()?;
        Ok(())
    }

    fn sync(&mut self) -> io::Result<()> {
        self.log.sync_data()?;
        self.note()
    }

    fn note(&self) -> io::Result<()> {
        self.synced.write_all_at(&self.length.to_be_bytes(), 0)
    }
}

/// Returns the rows of the first record, if it is complete.
fn rows_at(log: &[u8]) -> Option<&[u8]> {
    let length = u32::from_be_bytes(log.get(..4)?.try_into().ok()?);
    let rows = log.get(12..)?.get(..length as usize)?;
    (log[..12] == head_of(rows)).then_some(rows)
}

fn head_of(rows: &[u8]) -> [u8; 12] {
    let sum = rows.iter().fold(0xcbf2_9ce4_8422_2325, |sum: u64, &byte| {
        (sum ^ u64::from(byte)).wrapping_mul(0x100_0000_01b3) // FNV-1a
    });
    let mut head = [0; 12];
    head[..4].copy_from_slice(&(rows.len() as u32).to_be_bytes());
    head[4..].copy_from_slice(&sum.to_be_bytes());
    head
}

/// The state of a node that its threads share.
struct State {
    disk: Disk,
    replica: Replica,
    logged: u64,
    hints: Hints, // in memory: no hint counts as a second copy
    offered: Snapshot,
    offer: u32,
    late_rounds: u64, // rounds that ended at the deadline, or without an offer
}

impl AsMut<Replica> for State {
    fn as_mut(&mut self) -> &mut Replica {
        &mut self.replica
    }
}

impl State {
    /// Logs the entries since the last call. A failure ends the process before anything is sent.
    fn log_entries(&mut self) {
        self.try_log().unwrap_or_else(|error| stop(error));
    }

    fn try_log(&mut self) -> Outcome<()> {
        let entries = self.replica.entries(self.logged)?;
        let keys = entries.map(|entry| Ok(entry?.key)).collect::<Result<BTreeSet<_>, Refusal>>()?;
        let mut rows = Vec::new();
        for key in keys {
            rows.extend(self.replica.row(&key)?.expect("the row of an entry"));
        }
        if !rows.is_empty() {
            self.disk.append(&rows)?;
        }
        self.logged = self.replica.about()?.entries;
        Ok(())
    }
}

/// Ends the process.
fn stop(error: impl std::fmt::Display) -> ! {
    eprintln!("host: {}", error);
    process::abort()
}

/// An exchange, and its asks that aren't sent yet.
struct Round {
    exchange: Exchange,
    asks: Vec<Vec<u8>>,
}

struct Node {
    number: u16,
    other: u16,
    state: Mutex<State>,
}

impl Node {
    fn start(number: u16) -> Outcome<Node> {
        let (disk, mut replica) = Disk::open()?;
        let (logged, offered) = (replica.about()?.entries, replica.snapshot()?);
        let state = State { disk, replica, logged, hints: Hints::new()?, offered, offer: 0, late_rounds: 0 };
        Ok(Node { number, other: 3 - number, state: Mutex::new(state) })
    }

    fn state(&self) -> MutexGuard<'_, State> {
        self.state.lock().unwrap_or_else(|error| stop(error))
    }

    /// Returns the response to a request: p puts, c accepts a copy, g gets, o offers, a serves an ask, s saves a
    /// checkpoint, and i returns the number of late rounds (8 bytes) and the root.
    fn serve(&self, kind: u8, body: &[u8]) -> Outcome<Vec<u8>> {
        match kind {
            b'p' => return self.put(body),
            b'o' => return self.offer(),
            _ => {}
        }
        let state = &mut *self.state();
        match kind {
            b'a' => Ok(state.offered.serve(state.offer, body)?),
            b'c' => {
                state.replica.load_rows(body)?;
                state.log_entries();
                Ok(Vec::new())
            }
            b'g' => Ok(state.replica.get(body)?.into_iter().filter_map(|version| version.value).flatten().collect()),
            b'i' => Ok([&state.late_rounds.to_be_bytes()[..], &state.replica.root()?].concat()),
            b's' => {
                state.disk.save(&mut state.replica).unwrap_or_else(|error| stop(error));
                Ok(Vec::new())
            }
            _ => Err("unknown kind".into()),
        }
    }

    /// Puts a value, or a tombstone if the value is empty, in place of the versions that are held. The body is the
    /// length of the key (1 byte), the key and the value.
    fn put(&self, body: &[u8]) -> Outcome<Vec<u8>> {
        let (&length, rest) = body.split_first().ok_or("incomplete")?;
        let (key, value) = (rest.get(..length.into()).ok_or("incomplete")?, &rest[length.into()..]);
        let mut state = self.state();
        let context = merge(state.replica.get(key)?.iter().map(|version| &version.clock))?;
        let receipt = match value {
            [] => state.replica.delete(self.number, key, &context)?,
            _ => state.replica.put(self.number, key, value, &context)?,
        };
        state.log_entries();
        let version = state.replica.entry(receipt.number)?.expect("the entry of the put").version;
        drop(state);
        if request(self.other, b'c', &row_of(key, &version), LINK_TIMEOUT).is_err() {
            let hints = &mut self.state().hints;
            if hints.count()?.pending < MAX_HINTS {
                hints.keep(self.other, key, &version)?;
            }
        }
        Ok(Vec::new())
    }

    fn offer(&self) -> Outcome<Vec<u8>> {
        let snapshot = snapshot_beside(&self.state)?;
        let mut state = self.state();
        state.offered = snapshot;
        state.offer += 1;
        Ok(state.offered.offer(state.offer)?)
    }

    /// Delivers hints, syncs and renews, as long as the process runs.
    fn work(&self) -> Outcome<()> {
        let mut round = None;
        loop {
            self.deliver()?;
            round = self.sync(round)?;
            renew_if_due(&self.state)?;
            thread::sleep(PAUSE);
        }
    }

    fn deliver(&self) -> Outcome<()> {
        while let Some(hint) = self.next_hint()? {
            if request(self.other, b'c', &row_of(&hint.key, &hint.version), LINK_TIMEOUT).is_err() {
                return Ok(());
            }
            self.state().hints.confirm(hint.number, false)?; // it is on the other node's disk, or is refused there
        }
        Ok(self.state().hints.renew()?)
    }

    fn next_hint(&self) -> Result<Option<Hint>, Refusal> {
        self.state().hints.next_pending(self.other, 0)
    }

    /// Syncs until the deadline. Returns the exchange that the next round continues, if any.
    fn sync(&self, round: Option<Round>) -> Outcome<Option<Round>> {
        let deadline = Instant::now() + ROUND_TIME;
        let mut round = match round.or_else(|| self.open_exchange()) {
            Some(round) => round,
            None => return Ok(None),
        };
        loop {
            let mut state = self.state();
            if round.asks.is_empty() {
                round.asks = round.exchange.asks(&state.replica)?;
            }
            let ask = match round.asks.last() {
                Some(ask) => ask,
                None => break, // the exchange is over
            };
            let left = deadline.saturating_duration_since(Instant::now());
            if left.is_zero() {
                state.late_rounds += 1;
                return Ok(Some(round));
            }
            drop(state);
            let response = request(self.other, b'a', ask, left);
            let mut state = self.state();
            match response {
                Ok(Ok(answer)) => {
                    round.exchange.take(&mut state.replica, &answer)?;
                }
                Ok(Err(_)) => break, // the offer is gone
                Err(_) => round.exchange.lose(ask)?,
            }
            round.asks.pop();
            state.log_entries();
        }
        round.exchange.close(&mut self.state().replica)?;
        Ok(None)
    }

    fn open_exchange(&self) -> Option<Round> {
        let response = request(self.other, b'o', &[], LINK_TIMEOUT);
        if response.is_err() {
            self.state().late_rounds += 1;
        }
        let exchange = exchange_beside(&self.state, self.other, &response.ok()?.ok()?, Bounds::default()).ok()?;
        Some(Round { exchange, asks: Vec::new() })
    }
}

/// Runs a node until it is killed, or until the client ends.
fn run(number: u16) -> Outcome<()> {
    thread::spawn(|| {
        let _ = io::stdin().read_to_end(&mut Vec::new()); // a pipe from the client
        process::exit(0)
    });
    let node = &Node::start(number)?;
    let _ = fs::remove_file("socket");
    let listener = UnixListener::bind("socket")?;
    thread::scope(|scope| {
        scope.spawn(|| stop(node.work().unwrap_err()));
        for link in listener.incoming() {
            let mut link = link?;
            scope.spawn(move || {
                let (kind, body) = receive(&mut link)?;
                match node.serve(kind, &body) {
                    Ok(body) => send(&mut link, b'+', &body),
                    Err(refusal) => send(&mut link, b'-', refusal.to_string().as_bytes()),
                }
            });
        }
        Ok(())
    })
}

// ---- the client

fn ask(node: u16, kind: u8, body: &[u8]) -> Outcome<Vec<u8>> {
    Ok(request(node, kind, body, CLIENT_TIMEOUT)??)
}

/// Waits until a condition holds, for at most ten minutes.
fn wait_until(mut condition: impl FnMut() -> Outcome<bool>) -> Outcome<()> {
    let end = Instant::now() + Duration::from_secs(600);
    while !condition()? {
        if Instant::now() > end {
            return Err("nothing has changed for ten minutes".into());
        }
        thread::sleep(PAUSE);
    }
    Ok(())
}

/// Starts the process of a node, and waits until it serves requests.
fn start(node: u16) -> Outcome<Child> {
    let mut child = Command::new(env::current_exe()?).args([".", &node.to_string()]).stdin(Stdio::piped()).spawn()?;
    wait_until(|| match child.try_wait()? {
        Some(status) => Err(format!("node {}: {}", node, status).into()),
        None => Ok(request(node, b'i', &[], CLIENT_TIMEOUT).is_ok()),
    })?;
    Ok(child)
}

/// Sends a signal to a process.
fn signal(process: &Child, name: &str) -> Outcome<()> {
    Command::new("sh").args(["-c", &format!("kill -{} {}", name, process.id())]).status()?;
    Ok(())
}

fn put_of(key: &str, value: &str) -> Vec<u8> {
    [&[key.len() as u8], key.as_bytes(), value.as_bytes()].concat()
}

fn client() -> Outcome<()> {
    let mut acknowledged = BTreeMap::new(); // keys and their values, which are empty after a delete
    let mut put = |node, key: String, value: &'static str| -> Outcome<()> {
        ask(node, b'p', &put_of(&key, value))?;
        acknowledged.insert(key, value);
        Ok(())
    };
    let (one, mut two) = (start(1)?, start(2)?);
    for i in 0..20 {
        put(1 + i % 2, format!("cart {}", i), "milk")?;
    }
    ask(2, b's', &[])?;
    for i in 0..10 {
        put(2, format!("order {}", i), "eggs")?;
    }
    let _ = request(2, b'p', &put_of("last order", "eggs"), Duration::from_micros(1)); // it may be lost
    two.kill()?;
    two.wait()?;

    for i in 0..30 {
        put(1, format!("list {}", i), "tea")?;
    }
    for i in 0..10 {
        put(1, format!("cart {}", i), "")?;
    }
    let _two = start(2)?;
    signal(&one, "STOP")?; // a round of node 2 ends without an answer
    wait_until(|| Ok(ask(2, b'i', &[])?[..8] != [0; 8]))?;
    signal(&one, "CONT")?;
    wait_until(|| Ok(ask(1, b'i', &[])?[8..] == ask(2, b'i', &[])?[8..]))?;

    for (key, value) in &acknowledged {
        for node in [1, 2] {
            if ask(node, b'g', key.as_bytes())? != value.as_bytes() {
                return Err(format!("node {} has lost a put of {}", node, key).into());
            }
        }
    }
    println!("equal roots, {} keys with acknowledged puts", acknowledged.len());
    Ok(())
}

fn main() -> Outcome<()> {
    let arguments: Vec<String> = env::args().skip(1).collect();
    let enter = |folder: &Path| fs::create_dir_all(folder).and_then(|()| env::set_current_dir(folder));
    match arguments.as_slice() {
        [folder] => {
            enter(&Path::new(folder).join("client"))?;
            client()
        }
        [_, number] => {
            enter(&Path::new("..").join(number))?;
            run(number.parse()?)
        }
        _ => Err("usage: host FOLDER".into()),
    }
}
