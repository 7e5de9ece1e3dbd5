//! `calls`: the number of calls that threads make in a second on ranges that they share.
use crate::clock::Clock;
use crate::format::Format;
use crate::journal::ENTRIES_MAX;
use crate::line::Line;
use crate::offers::{MemoryLink, OfferPool};
use crate::pass::Pass;
use crate::process::resident;
use crate::range::Config;
use crate::refusal::Refusal;
use crate::session::State;
use crate::shape::Shape;
use crate::shared::{Rehashed, SharedRange};
use crate::version::Version;
use crate::words::{Words, Wrong};
use std::sync::Barrier;
use std::thread;
use std::time::{Duration, Instant};

/// The number of turns. Each puts one more key.
const TURNS: u64 = 200;

const THREADS_MAX: u64 = 8;

/// The configuration of the ranges.
const CONFIG: Config = Config { format: Format::One, bits: 0, number: 0, limit: ENTRIES_MAX };

/// The words of the command.
struct Plan {
    keys: u64,
    threads: u64,
    is_one_range: bool,
    is_told: bool,
    shape: Shape,
}

impl Plan {
    fn read(words: &[String]) -> Result<Plan, Wrong> {
        let mut plan = Plan { keys: 10_000, threads: 1, is_one_range: false, is_told: false, shape: Shape::default() };
        let mut words = Words::new(words);
        while let Some(option) = words.option() {
            match option {
                "--keys" => plan.keys = words.number()?,
                "--threads" => plan.threads = words.number()?,
                "--one" => plan.is_one_range = true,
                "--told" => plan.is_told = true,
                "--key-bytes" => plan.shape.key_bytes = words.number()?,
                "--value-bytes" => plan.shape.value_bytes = words.number()?,
                _ => return Err(Wrong),
            }
        }
        let is_valid = (1..=THREADS_MAX).contains(&plan.threads) && plan.shape.is_valid(CONFIG.format.value_max());
        if is_valid {
            Ok(plan)
        } else {
            Err(Wrong)
        }
    }

    fn ranges(&self) -> u64 {
        if self.is_one_range {
            1
        } else {
            self.threads
        }
    }

    /// Returns true if a journal has room for two versions of each key.
    fn puts_twice(&self) -> bool {
        self.keys.div_ceil(self.ranges()) <= (ENTRIES_MAX - TURNS) / 2
    }

    fn new_ranges(&self, node: u16) -> Vec<SharedRange> {
        (0..self.ranges()).map(|_| SharedRange::new(node, CONFIG)).collect()
    }

    /// Returns the parts of the keys, one for each thread.
    fn parts<'a>(&self, ranges: &'a [SharedRange]) -> Vec<Part<'a>> {
        let part = |thread| Part {
            range: &ranges[(thread % self.ranges()) as usize],
            thread,
            from: self.keys * thread / self.threads,
            to: self.keys * (thread + 1) / self.threads,
        };
        (0..self.threads).map(part).collect()
    }
}

/// The part of the keys that a thread has, and the range that it uses.
struct Part<'a> {
    range: &'a SharedRange,
    thread: u64,
    from: u64,
    to: u64,
}

/// Runs a function on each item, each in a thread of its own. Returns the results, and the time from the first start to
/// the last end.
fn at_once<I: Send, T: Send>(items: Vec<I>, run: impl Fn(I) -> T + Sync) -> (Vec<T>, Duration) {
    let line = Barrier::new(items.len());
    let timed = |item| {
        line.wait();
        let from = Instant::now();
        let result = run(item);
        (result, from, Instant::now())
    };
    let done: Vec<(T, Instant, Instant)> = thread::scope(|scope| {
        let timed = &timed;
        let threads: Vec<_> = items.into_iter().map(|item| scope.spawn(move || timed(item))).collect();
        threads.into_iter().filter_map(|thread| thread.join().ok()).collect()
    });
    let first = done.iter().map(|&(_, from, _)| from).min();
    let last = done.iter().map(|&(_, _, to)| to).max();
    let took = first.zip(last).map_or(Duration::ZERO, |(first, last)| last - first);
    (done.into_iter().map(|(result, ..)| result).collect(), took)
}

/// Runs a phase in which each thread makes its calls. Returns the time that it took.
fn phase<I: Send>(items: Vec<I>, run: impl Fn(I) -> Result<(), Refusal> + Sync) -> Result<Duration, Refusal> {
    let (results, took) = at_once(items, run);
    results.into_iter().collect::<Result<(), Refusal>>()?;
    Ok(took)
}

fn per_second(calls: u64, took: Duration) -> f64 {
    (calls as f64 / took.as_secs_f64().max(1e-9)).round()
}

/// Runs the command. Returns true.
pub fn run(words: &[String]) -> Result<Result<bool, Refusal>, Wrong> {
    let plan = Plan::read(words)?;
    let mut line = Line::default();
    line.add("keys", plan.keys);
    line.add("threads", plan.threads);
    line.add("ranges", plan.ranges());
    let done = if plan.is_told { make_told_calls(&plan, &mut line) } else { make_calls(&plan, &mut line) };
    Ok(done.map(|()| {
        println!("{}", line.text());
        true
    }))
}

/// Makes the calls of callers who keep nothing.
fn make_calls(plan: &Plan, line: &mut Line) -> Result<(), Refusal> {
    let (ranges, copies) = (plan.new_ranges(1), plan.new_ranges(2));
    let before = resident();
    time_puts(plan, &ranges, line)?;
    line.add("bytes_per_key", resident().saturating_sub(before) / plan.keys.max(1));
    time_gets(plan, &ranges, line)?;
    time_rewrites(plan, &ranges, line)?;
    line.add("bytes_per_key_rewritten", resident().saturating_sub(before) / plan.keys.max(1));
    time_accepts(plan, &copies, line)?;
    time_rehashes(plan, &ranges, &copies, line);
    Turns::default().run(plan, &ranges[0], &copies[0], line)
}

fn time_puts(plan: &Plan, ranges: &[SharedRange], line: &mut Line) -> Result<(), Refusal> {
    let (context, shape) = (Clock::default(), plan.shape);
    let took = phase(plan.parts(ranges), |part| {
        (part.from..part.to)
            .try_for_each(|number| part.range.put(0, &shape.key(number), &context, &shape.value(number)).map(drop))
    })?;
    line.add("puts_per_s", per_second(plan.keys, took));
    Ok(())
}

fn time_gets(plan: &Plan, ranges: &[SharedRange], line: &mut Line) -> Result<(), Refusal> {
    let took = phase(plan.parts(ranges), |part| {
        (part.from..part.to).try_for_each(|number| part.range.get(&plan.shape.key(number)).map(drop))
    })?;
    line.add("gets_per_s", per_second(plan.keys, took));
    Ok(())
}

/// Puts the keys again with the context of the first put, if the journals have room for that.
fn time_rewrites(plan: &Plan, ranges: &[SharedRange], line: &mut Line) -> Result<(), Refusal> {
    if !plan.puts_twice() {
        line.add("rewrites_per_s", 0);
        return Ok(());
    }
    let (context, shape) = (Clock::from_pairs(&[(1, 1)])?, plan.shape);
    let took = phase(plan.parts(ranges), |part| {
        (part.from..part.to).try_for_each(|number| {
            let value = shape.value(plan.keys + number);
            part.range.put(0, &shape.key(number), &context, &value).map(drop)
        })
    })?;
    line.add("rewrites_per_s", per_second(plan.keys, took));
    Ok(())
}

/// Accepts the last version of each key at another node.
fn time_accepts(plan: &Plan, copies: &[SharedRange], line: &mut Line) -> Result<(), Refusal> {
    let (counter, offset) = if plan.puts_twice() { (2, plan.keys) } else { (1, 0) };
    let (clock, shape) = (Clock::from_pairs(&[(1, counter)])?, plan.shape);
    let took = phase(plan.parts(copies), |part| {
        (part.from..part.to).try_for_each(|number| {
            let value = shape.value(offset + number);
            part.range.copy(0, Version::new(&shape.key(number), &clock, Some(&value))).map(drop)
        })
    })?;
    line.add("accepts_per_s", per_second(plan.keys, took));
    Ok(())
}

/// Hashes the first ranges job by job, one worker a thread, and the copies on all processors.
fn time_rehashes(plan: &Plan, ranges: &[SharedRange], copies: &[SharedRange], line: &mut Line) {
    let (reports, took) =
        at_once(plan.parts(ranges), |part| part.range.rehash_jobs(37 * part.thread as usize, u64::MAX));
    let sum = |count: fn(&Rehashed) -> u64| reports.iter().map(count).sum::<u64>();
    let (installed, stale) = (sum(|report| report.installed), sum(|report| report.stale));
    line.add("rehash_installed", installed);
    line.add("rehash_stale", stale);
    line.add("rehash_nodes_per_s", per_second(installed, took));
    let from = Instant::now();
    let hashed = copies.iter().map(SharedRange::rehash).sum();
    line.add("rehash_rayon_nodes_per_s", per_second(hashed, from.elapsed()));
}

/// The times of the parts of all turns.
#[derive(Default)]
struct Turns {
    puts: Duration,
    rehashes: Duration,
    snapshots: Duration,
    syncs: Duration,
}

/// Calls a function, and adds the time that it took.
fn timed<T>(sum: &mut Duration, call: impl FnOnce() -> T) -> T {
    let from = Instant::now();
    let result = call();
    *sum += from.elapsed();
    result
}

impl Turns {
    /// Runs the turns. In each, one more key goes from a range to its copy.
    fn run(&mut self, plan: &Plan, range: &SharedRange, copy: &SharedRange, line: &mut Line) -> Result<(), Refusal> {
        let mut latest = range.snapshot()?;
        for turn in 0..TURNS {
            let number = 2 * plan.keys + turn;
            let (shape, context) = (plan.shape, Clock::default());
            timed(&mut self.puts, || range.put(0, &shape.key(number), &context, &shape.value(number)))?;
            timed(&mut self.rehashes, || range.rehash());
            latest = {
                let snapshot = timed(&mut self.snapshots, || range.snapshot())?;
                drop(latest);
                snapshot
            };
            let pool = OfferPool::default();
            pool.publish(CONFIG.format, CONFIG.number, latest.clone())?;
            let synced = timed(&mut self.syncs, || copy.sync(&mut MemoryLink(&pool), 1, u64::MAX, drop))?;
            let is_one_key = synced.state == State::Finished && synced.asked == 3 && synced.accepted == 1;
            assert!(is_one_key, "a turn's sync takes one key");
            copy.rehash();
        }
        line.add("put_after_snapshot_per_s", per_second(TURNS, self.puts));
        line.add("rehash_after_put_per_s", per_second(TURNS, self.rehashes));
        line.add("snapshots_per_s", per_second(TURNS, self.snapshots));
        line.add("sync_one_key_per_s", per_second(TURNS, self.syncs));
        Ok(())
    }
}

/// Makes the calls of callers who keep their receipts and readings, and closes the ranges.
fn make_told_calls(plan: &Plan, line: &mut Line) -> Result<(), Refusal> {
    let ranges = plan.new_ranges(1);
    let shape = plan.shape;
    let mut passes: Vec<Pass> = (0..plan.threads).map(|thread| Pass::new(thread as u8)).collect();
    let context = Clock::default();
    let took = phase(plan.parts(&ranges).into_iter().zip(&mut passes).collect(), |(part, pass)| {
        (part.from..part.to)
            .try_for_each(|number| part.range.put_kept(pass, &shape.key(number), &context, &shape.value(number)))
    })?;
    line.add("puts_per_s", per_second(plan.keys, took));
    for name in ["gets_per_s", "gets_again_per_s"] {
        let took = phase(plan.parts(&ranges).into_iter().zip(&mut passes).collect(), |(part, pass)| {
            (part.from..part.to).try_for_each(|number| part.range.get_kept(pass, &shape.key(number)).map(drop))
        })?;
        line.add(name, per_second(plan.keys, took));
    }
    close(plan, ranges, passes, line);
    Ok(())
}

/// Closes each range with its passes.
fn close(plan: &Plan, ranges: Vec<SharedRange>, passes: Vec<Pass>, line: &mut Line) {
    let mut by_range: Vec<Vec<Pass>> = ranges.iter().map(|_| Vec::new()).collect();
    for (thread, pass) in passes.into_iter().enumerate() {
        by_range[thread % plan.ranges() as usize].push(pass);
    }
    let from = Instant::now();
    let settled = ranges.into_iter().zip(&by_range).all(|(range, passes)| range.close(passes));
    line.add("close_ms", from.elapsed().as_secs_f64() * 1e3);
    line.add("settled", settled);
}
