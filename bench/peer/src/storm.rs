//! `storm`: two nodes that write, rehash, and sync with each other, with a thread for each of these.
use crate::clock::Clock;
use crate::format::Format;
use crate::journal::ENTRIES_MAX;
use crate::line::Line;
use crate::offers::{lock, Link, MemoryLink, OfferPool};
use crate::pass::Pass;
use crate::process::processor_ms;
use crate::range::Config;
use crate::refusal::Refusal;
use crate::session::State;
use crate::shared::SharedRange;
use crate::slots::Slots;
use crate::words::{Words, Wrong};
use std::sync::mpsc::{sync_channel, Receiver, SyncSender};
use std::sync::Mutex;
use std::thread::{self, Scope, ScopedJoinHandle};
use std::time::{Duration, Instant};

/// The maximum number of puts of a writer.
const PUTS_MAX: u64 = 10_000;

/// The maximum number of rounds of a worker.
const ROUNDS_MAX: u64 = 100;

/// The turns of a rehash worker: enough for the 273 nodes of a tree, and for finding it clean.
const REHASH_TURNS: u64 = 300;

/// The turns of a sync worker: enough to ask for each node twice.
const SYNC_TURNS: u64 = 600;

/// The number of messages in a channel.
const MESSAGES_MAX: usize = 16;

const CONFIG: Config = Config { format: Format::One, bits: 0, number: 0, limit: ENTRIES_MAX };

/// A node, with the offers of its snapshots, and the slots of both nodes.
struct Node<'a> {
    range: SharedRange,
    pool: OfferPool,
    slots: &'a Mutex<Slots>,
}

/// The passes of a node: one for its writer, and one for its sync worker.
struct Passes {
    writer: Pass,
    syncer: Pass,
}

/// The counts of workers.
#[derive(Clone, Copy, Default)]
struct Counts {
    rehash_rounds: u64,
    rehash_passed: u64,
    installed: u64,
    stale: u64,
    published: u64,
    sync_rounds: u64,
    sync_passed: u64,
    syncs: u64,
    asked: u64,
    accepted: u64,
    known: u64,
    bad: u64,
}

impl Counts {
    fn members(&self) -> [(&'static str, u64); 12] {
        [
            ("rehash_rounds", self.rehash_rounds),
            ("rehash_passed", self.rehash_passed),
            ("installed", self.installed),
            ("stale", self.stale),
            ("published", self.published),
            ("sync_rounds", self.sync_rounds),
            ("sync_passed", self.sync_passed),
            ("syncs", self.syncs),
            ("asked", self.asked),
            ("accepted", self.accepted),
            ("known", self.known),
            ("bad", self.bad),
        ]
    }

    /// Returns the sums of several workers' counts, as a line of JSON.
    fn sums(all: &[Counts]) -> String {
        let mut line = Line::default();
        for (at, (name, _)) in Counts::default().members().into_iter().enumerate() {
            line.add(name, all.iter().map(|counts| counts.members()[at].1).sum::<u64>());
        }
        line.text()
    }
}

/// Returns true if the worker's round did its work, and false if it is passed over. Refused as the round was otherwise.
fn is_done(round: Result<(), Refusal>) -> Result<bool, Refusal> {
    match round {
        Ok(()) => Ok(true),
        Err(Refusal::NoSlot | Refusal::Dirty | Refusal::Gone | Refusal::LinkLost) => Ok(false),
        Err(refusal) => Err(refusal),
    }
}

impl<'a> Node<'a> {
    fn new(number: u16, slots: &'a Mutex<Slots>) -> Node<'a> {
        Node { range: SharedRange::new(number, CONFIG), pool: OfferPool::default(), slots }
    }

    /// Does background work with a slot. Refused: NoSlot.
    fn with_slot<T>(&self, work: impl FnOnce() -> T) -> Result<T, Refusal> {
        lock(self.slots).lend()?;
        let done = work();
        lock(self.slots).give_back();
        Ok(done)
    }

    /// Rehashes the tree, and publishes a snapshot if it is clean then. Refused: NoSlot, Dirty, SessionsFull.
    fn rehash(&self, counts: &mut Counts) -> Result<(), Refusal> {
        let report = self.with_slot(|| self.range.rehash_jobs(0, REHASH_TURNS))?;
        counts.installed += report.installed;
        counts.stale += report.stale;
        if report.is_clean {
            self.pool.publish(CONFIG.format, CONFIG.number, self.range.snapshot()?)?;
            counts.published += 1;
        }
        Ok(())
    }

    /// Fetches the versions of the partner at the other end of a link. Refused: NoSlot, or as [`SharedRange::sync`] is.
    fn sync(&self, link: &mut impl Link, pass: &mut Pass, counts: &mut Counts) -> Result<(), Refusal> {
        let seat = pass.seat;
        let synced = self.with_slot(|| self.range.sync(link, seat, SYNC_TURNS, |receipt| pass.keep(receipt)))??;
        counts.syncs += u64::from(synced.state == State::Finished);
        counts.asked += synced.asked;
        counts.accepted += synced.accepted;
        counts.known += synced.known;
        counts.bad += synced.bad;
        Ok(())
    }

    /// Puts keys of the node's number, each with its number as the value. Returns the time of each put.
    fn write(&self, puts: u64, pass: &mut Pass) -> Result<Vec<Duration>, Refusal> {
        let context = Clock::default();
        let mut latencies = Vec::with_capacity(puts as usize);
        for number in 0..puts {
            let (key, value) = (format!("{}-{number}", self.range.node()), number.to_string());
            let from = Instant::now();
            self.range.put_kept(pass, key.as_bytes(), &context, value.as_bytes())?;
            latencies.push(from.elapsed());
        }
        Ok(latencies)
    }

    fn rehash_rounds(&self, rounds: u64) -> Result<Counts, Refusal> {
        let mut counts = Counts::default();
        for _ in 0..rounds {
            let round = self.rehash(&mut counts);
            counts.rehash_rounds += 1;
            counts.rehash_passed += u64::from(!is_done(round)?);
        }
        Ok(counts)
    }

    fn sync_rounds(&self, rounds: u64, mut link: ChannelLink, pass: &mut Pass) -> Result<Counts, Refusal> {
        let mut counts = Counts::default();
        for _ in 0..rounds {
            let round = self.sync(&mut link, pass, &mut counts);
            counts.sync_rounds += 1;
            counts.sync_passed += u64::from(!is_done(round)?);
        }
        Ok(counts)
    }

    fn close(self, passes: Passes) -> bool {
        self.range.close(&[passes.writer, passes.syncer])
    }
}

/// A link to a node's server over channels. A request without bytes is for the latest offer. A reply without bytes: the
/// node doesn't have the offer.
struct ChannelLink {
    requests: SyncSender<Vec<u8>>,
    replies: Receiver<Vec<u8>>,
}

impl ChannelLink {
    fn request(&mut self, request: &[u8]) -> Result<Vec<u8>, Refusal> {
        self.requests.send(request.to_vec()).map_err(|_| Refusal::LinkLost)?;
        let reply = self.replies.recv().map_err(|_| Refusal::LinkLost)?;
        if reply.is_empty() {
            Err(Refusal::Gone)
        } else {
            Ok(reply)
        }
    }
}

impl Link for ChannelLink {
    fn offer(&mut self) -> Result<Vec<u8>, Refusal> {
        self.request(&[])
    }

    fn ask(&mut self, ask: &[u8]) -> Result<Vec<u8>, Refusal> {
        self.request(ask)
    }
}

/// The server's ends of a link.
struct Server {
    requests: Receiver<Vec<u8>>,
    replies: SyncSender<Vec<u8>>,
}

impl Server {
    /// Serves the offers of a pool until the link has ended.
    fn run(self, pool: &OfferPool) {
        for request in self.requests {
            let reply = if request.is_empty() { MemoryLink(pool).offer() } else { pool.serve(&request) };
            if self.replies.send(reply.unwrap_or_default()).is_err() {
                break;
            }
        }
    }
}

fn link() -> (ChannelLink, Server) {
    let (requests, to_server) = sync_channel(MESSAGES_MAX);
    let (from_server, replies) = sync_channel(MESSAGES_MAX);
    (ChannelLink { requests, replies }, Server { requests: to_server, replies: from_server })
}

/// The work of a thread, and its times.
struct Work<T> {
    done: Result<T, Refusal>,
    from: Instant,
    to: Instant,
}

fn spawn<'s, T: Send + 's>(
    scope: &'s Scope<'s, '_>,
    work: impl FnOnce() -> Result<T, Refusal> + Send + 's,
) -> ScopedJoinHandle<'s, Work<T>> {
    scope.spawn(|| {
        let from = Instant::now();
        let done = work();
        Work { done, from, to: Instant::now() }
    })
}

/// The threads of a node, except its server.
struct Threads<'s> {
    writer: ScopedJoinHandle<'s, Work<Vec<Duration>>>,
    rehasher: ScopedJoinHandle<'s, Work<Counts>>,
    syncer: ScopedJoinHandle<'s, Work<Counts>>,
}

/// The times of a storm.
struct Times {
    start: Instant,
    latencies: Vec<Duration>,
    counts: Vec<Counts>,
    writers: Vec<(Instant, Instant)>,
    rehashers: Vec<(Instant, Instant)>,
    syncers: Vec<(Instant, Instant)>,
}

impl Times {
    fn new() -> Times {
        Times {
            start: Instant::now(),
            latencies: Vec::new(),
            counts: Vec::new(),
            writers: Vec::new(),
            rehashers: Vec::new(),
            syncers: Vec::new(),
        }
    }

    /// Waits for the threads of a node, and adds their times.
    fn join(&mut self, threads: Threads) -> Result<(), Refusal> {
        let (writer, rehasher, syncer) = (threads.writer.join(), threads.rehasher.join(), threads.syncer.join());
        // (a thread that panics ends the program)
        if let (Ok(writer), Ok(rehasher), Ok(syncer)) = (writer, rehasher, syncer) {
            self.writers.push((writer.from, writer.to));
            self.rehashers.push((rehasher.from, rehasher.to));
            self.syncers.push((syncer.from, syncer.to));
            self.counts.push(rehasher.done?);
            self.latencies.extend(writer.done?);
            self.counts.push(syncer.done?);
        }
        Ok(())
    }

    /// Returns the milliseconds from the start of the storm to the last of these ends.
    fn ms_to_last(&self, spans: &[(Instant, Instant)]) -> f64 {
        let last = spans.iter().map(|span| span.1).max().unwrap_or(self.start);
        (last - self.start).as_secs_f64() * 1e3
    }

    /// Returns the milliseconds from the first writer's start to the last one's end.
    fn writers_ms(&self) -> f64 {
        let first = self.writers.iter().map(|span| span.0).min().unwrap_or(self.start);
        self.ms_to_last(&self.writers) - (first - self.start).as_secs_f64() * 1e3
    }

    /// Adds the percentiles of the latencies.
    fn add_latencies(&mut self, line: &mut Line) {
        self.latencies.sort_unstable();
        let count = self.latencies.len();
        let us = |rank: usize| self.latencies.get(rank.saturating_sub(1)).map_or(0.0, |took| took.as_secs_f64() * 1e6);
        line.add("put_p50_us", us(count.div_ceil(2)));
        line.add("put_p99_us", us((99 * count).div_ceil(100)));
        line.add("put_max_us", us(count));
    }
}

/// Starts the threads of a node.
fn start<'s>(
    scope: &'s Scope<'s, '_>,
    node: &'s Node<'s>,
    passes: &'s mut Passes,
    (link, server): (ChannelLink, Server),
    puts: u64,
) -> Threads<'s> {
    let rounds = puts.min(ROUNDS_MAX);
    let Passes { writer, syncer } = passes;
    scope.spawn(|| server.run(&node.pool));
    Threads {
        syncer: spawn(scope, move || node.sync_rounds(rounds, link, syncer)),
        rehasher: spawn(scope, move || node.rehash_rounds(rounds)),
        writer: spawn(scope, move || node.write(puts, writer)),
    }
}

/// Runs the threads of both nodes until all have ended.
fn run_threads(nodes: &[Node; 2], passes: &mut [Passes; 2], puts: u64, times: &mut Times) -> Result<(), Refusal> {
    let ((to_first, first_server), (to_second, second_server)) = (link(), link());
    let [first, second] = passes;
    thread::scope(|scope| {
        let threads = [
            start(scope, &nodes[0], first, (to_second, first_server), puts),
            start(scope, &nodes[1], second, (to_first, second_server), puts),
        ];
        let joined = threads.map(|threads| times.join(threads));
        joined.into_iter().collect()
    })
}

/// Puts both nodes in one state: rehashes them, syncs them both ways, and rehashes them.
fn bring_together(nodes: &[Node; 2], passes: &mut [Passes; 2], counts: &mut Counts) -> Result<(), Refusal> {
    nodes.iter().try_for_each(|node| node.rehash(counts))?;
    for (at, passes) in passes.iter_mut().enumerate() {
        nodes[at].sync(&mut MemoryLink(&nodes[1 - at].pool), &mut passes.syncer, counts)?;
    }
    nodes.iter().try_for_each(|node| node.rehash(counts))
}

/// The end of a storm.
struct End {
    is_equal: bool,
    is_settled: bool,
}

/// Runs a storm, and adds its times to a line.
fn run_storm(puts: u64, line: &mut Line) -> Result<End, Refusal> {
    let slots = Mutex::new(Slots::new());
    let nodes = [Node::new(1, &slots), Node::new(2, &slots)];
    let mut passes = [0, 1].map(|_| Passes { writer: Pass::new(0), syncer: Pass::new(1) });
    let mut times = Times::new();
    run_threads(&nodes, &mut passes, puts, &mut times)?;
    line.add("joined_ms", times.start.elapsed().as_secs_f64() * 1e3);
    let mut after = Counts::default();
    bring_together(&nodes, &mut passes, &mut after)?;
    let is_equal = nodes[0].range.snapshot()?.root() == nodes[1].range.snapshot()?.root();
    let is_settled = nodes.into_iter().zip(passes).all(|(node, passes)| node.close(passes));
    line.add("wall_ms", times.start.elapsed().as_secs_f64() * 1e3);
    line.add("cpu_ms", processor_ms());
    line.add("puts", 2 * puts);
    line.add("writers_ms", times.writers_ms());
    line.add("rehashers_ms", times.ms_to_last(&times.rehashers));
    line.add("syncers_ms", times.ms_to_last(&times.syncers));
    line.add("threads", Counts::sums(&times.counts));
    line.add("after", Counts::sums(&[after]));
    times.add_latencies(line);
    Ok(End { is_equal, is_settled })
}

/// Runs the command. Returns true if both nodes have one state and their passes agree with their journals.
pub fn run(words: &[String]) -> Result<Result<bool, Refusal>, Wrong> {
    let (mut puts, mut has_times) = (100, false);
    let mut words = Words::new(words);
    while let Some(option) = words.option() {
        match option {
            "--puts" => puts = words.number()?,
            "--times" => has_times = true,
            _ => return Err(Wrong),
        }
    }
    if !(1..=PUTS_MAX).contains(&puts) {
        return Err(Wrong);
    }
    let mut line = Line::default();
    Ok(run_storm(puts, &mut line).map(|end| {
        let roots = if end.is_equal { "equal" } else { "differ" };
        let passes = if end.is_settled { "settled" } else { "unsettled" };
        println!("puts {}, roots {roots}, {passes}", 2 * puts);
        if has_times {
            eprintln!("{}", line.text());
        }
        end.is_equal && end.is_settled
    }))
}
