//! The work that every peer in Rust does, over parking_lot's mutex and condition, or std's. See docs/BENCH.md for what each command means.

use std::cell::UnsafeCell;
use std::sync::atomic::{AtomicU64, Ordering};
use std::time::{Duration, Instant};

/// A lock that guards a number, and a condition.
trait Peer: Sync {
    const NAME: &'static str;
    type Lock: Sync + Default;
    type Condition: Sync + Default;

    /// Whether it has an unlock that hands the lock over.
    const HANDS_OVER: bool = false;

    fn with<X>(lock: &Self::Lock, f: impl FnOnce(&mut u64) -> X) -> X;

    /// The same, and the lock is handed to who waits for it, where the lock has an unlock that does.
    fn with_fairly<X>(lock: &Self::Lock, f: impl FnOnce(&mut u64) -> X) -> X {
        Self::with(lock, f)
    }

    /// Waits while `has_to_wait` says so, and changes the number then.
    fn wait(lock: &Self::Lock, condition: &Self::Condition, has_to_wait: impl Fn(u64) -> bool, change: impl FnOnce(&mut u64));

    fn notify_one(condition: &Self::Condition);
}

struct ParkingLot;

impl Peer for ParkingLot {
    const NAME: &'static str = "parking_lot";
    const HANDS_OVER: bool = true;
    type Lock = parking_lot::Mutex<u64>;
    type Condition = parking_lot::Condvar;

    #[inline(always)]
    fn with<X>(lock: &Self::Lock, f: impl FnOnce(&mut u64) -> X) -> X {
        f(&mut lock.lock())
    }

    #[inline(always)]
    fn with_fairly<X>(lock: &Self::Lock, f: impl FnOnce(&mut u64) -> X) -> X {
        let mut held = lock.lock();
        let made = f(&mut held);
        parking_lot::MutexGuard::unlock_fair(held);
        made
    }

    fn wait(lock: &Self::Lock, condition: &Self::Condition, has_to_wait: impl Fn(u64) -> bool, change: impl FnOnce(&mut u64)) {
        let mut held = lock.lock();
        while has_to_wait(*held) {
            condition.wait(&mut held);
        }
        change(&mut held);
    }

    fn notify_one(condition: &Self::Condition) {
        condition.notify_one();
    }
}

struct Std;

impl Peer for Std {
    const NAME: &'static str = "rust_std";
    type Lock = std::sync::Mutex<u64>;
    type Condition = std::sync::Condvar;

    #[inline(always)]
    fn with<X>(lock: &Self::Lock, f: impl FnOnce(&mut u64) -> X) -> X {
        f(&mut lock.lock().unwrap())
    }

    fn wait(lock: &Self::Lock, condition: &Self::Condition, has_to_wait: impl Fn(u64) -> bool, change: impl FnOnce(&mut u64)) {
        let mut held = lock.lock().unwrap();
        while has_to_wait(*held) {
            held = condition.wait(held).unwrap();
        }
        change(&mut held);
    }

    fn notify_one(condition: &Self::Condition) {
        condition.notify_one();
    }
}

struct Random {
    word: u64,
}

impl Random {
    fn new(worker: usize) -> Random {
        Random { word: (worker as u64).wrapping_mul(0x9e37_79b9_7f4a_7c15) }
    }

    #[inline(always)]
    fn next(&mut self) -> u64 {
        self.word = self.word.wrapping_mul(6_364_136_223_846_793_005).wrapping_add(1_442_695_040_888_963_407);
        self.word >> 32
    }
}

fn key_of(word: u64, locks: usize) -> usize {
    ((word.wrapping_mul(locks as u64) >> 32) as usize).min(locks - 1)
}

const CLASSES: usize = 992;

#[derive(Clone)]
struct Times {
    counts: Vec<u64>,
    most: u64,
}

impl Times {
    fn new() -> Times {
        Times { counts: vec![0; CLASSES], most: 0 }
    }

    fn note(&mut self, nanos: u64) {
        self.count_in(nanos, 1);
    }

    fn count_in(&mut self, nanos: u64, more: u64) {
        let (mut rest, mut doubling) = (nanos, 0);
        while rest >= 32 {
            rest /= 2;
            doubling += 1;
        }
        self.counts[16 * doubling + rest as usize] += more;
        self.most = self.most.max(nanos);
    }

    /// Counts a time as often as it has nanoseconds.
    fn weigh(&mut self, nanos: u64) {
        self.count_in(nanos, nanos);
    }

    fn add(&mut self, other: &Times) {
        for (count, more) in self.counts.iter_mut().zip(&other.counts) {
            *count += more;
        }
        self.most = self.most.max(other.most);
    }

    fn part(&self, of_thousand: u64) -> u64 {
        let wanted = (self.counts.iter().sum::<u64>() * of_thousand / 1000).max(1);
        let mut seen = 0;
        for (class, count) in self.counts.iter().enumerate() {
            seen += count;
            if seen >= wanted {
                return if class < 32 { class as u64 } else { ((class % 16 + 16) as u64) << (class / 16 - 1) };
            }
        }
        self.most
    }
}

/// A thread's share is so many parts where it made all the rounds.
const PARTS: u64 = 500_000;

/// How evenly threads share the rounds.
struct Shares {
    count: u64,
    sum: u64,
    squares: u64,
    least: u64,
    most: u64,
}

impl Shares {
    fn of(done: &[Done], all: u64) -> Shares {
        let mut shares = Shares { count: 0, sum: 0, squares: 0, least: PARTS, most: 0 };
        for one in done {
            let part = one.rounds * PARTS / all.max(1);
            shares.count += 1;
            shares.sum += part;
            shares.squares += part * part;
            shares.least = shares.least.min(part);
            shares.most = shares.most.max(part);
        }
        shares
    }

    fn of_mean(&self, part: u64) -> u64 {
        (part * self.count * 1000).checked_div(self.sum).unwrap_or(0)
    }

    fn jain(&self) -> u64 {
        (1000 * self.sum * self.sum).checked_div(self.count * self.squares).unwrap_or(0)
    }
}

/// How often a thread sleeps and is woken.
const SLEEPS: u64 = 100;

/// A thread sleeps when it has asked for a held lock so many nanoseconds ago.
const ASLEEP_AFTER: u64 = 200_000;

struct Done {
    begin: u64,
    end: u64,
    rounds: u64,
    times: Times,
}

#[derive(Clone, Copy)]
enum Job {
    Count(u64),
    Share,
    Relay(usize, u64),
    Wait(u64, u64),
    Fair(u64, u64, bool),
    Keys(u64),
    Notify(u64),
    Turns(u64),
    Permits(u64, u64),
}

struct Plan {
    threads: usize,
    locks: usize,
    millis: u64,
    job: Job,
}

const PLACES: u64 = 16;

struct Bench<P: Peer> {
    plan: Plan,
    cells: Vec<P::Lock>,
    not_full: P::Condition,
    not_empty: P::Condition,
    turns: Vec<P::Condition>,
    here: AtomicU64,
    over: AtomicU64,
    start: Instant,
}

impl<P: Peer> Bench<P> {
    fn now(&self) -> u64 {
        self.start.elapsed().as_nanos() as u64
    }

    fn spend(&self, nanos: u64) {
        let begin = self.now();
        while self.now() - begin < nanos {}
    }

    fn join(&self, threads: usize) {
        self.here.fetch_add(1, Ordering::SeqCst);
        while self.here.load(Ordering::SeqCst) < threads as u64 {
            std::thread::yield_now();
        }
    }

    fn is_over(&self) -> bool {
        self.over.load(Ordering::SeqCst) != 0
    }

    fn count(&self, worker: usize, rounds: u64) -> u64 {
        let mut random = Random::new(worker);
        let cells = self.cells.as_slice();
        for _ in 0..rounds {
            P::with(&cells[key_of(random.next(), cells.len())], |number| *number += 1);
        }
        rounds
    }

    fn share(&self) -> u64 {
        let mut made = 0;
        while !self.is_over() {
            P::with(&self.cells[0], |number| *number += 1);
            made += 1;
        }
        made
    }

    fn wait(&self, held: u64, outside: u64, times: &mut Times) -> u64 {
        let mut made = 0;
        while !self.is_over() {
            let asked = self.now();
            let owned = P::with(&self.cells[0], |number| {
                let owned = self.now();
                *number += 1;
                self.spend(held);
                owned
            });
            times.note(owned - asked);
            made += 1;
            self.spend(outside);
        }
        made
    }

    fn fair(&self, worker: usize, held: u64, outside: u64, fairly: bool, times: &mut Times) -> u64 {
        let mut random = Random::new(worker);
        let cells = self.cells.as_slice();
        let mut made = 0;
        while !self.is_over() {
            let cell = &cells[key_of(random.next(), cells.len())];
            let asked = self.now();
            let work = |number: &mut u64| {
                let owned = self.now();
                *number += 1;
                self.spend(held);
                owned
            };
            let owned = if fairly { P::with_fairly(cell, work) } else { P::with(cell, work) };
            times.weigh(owned - asked);
            made += 1;
            self.spend(outside);
        }
        made
    }

    fn relay(&self, worker: usize, producers: usize, rounds: u64) -> u64 {
        if worker < producers {
            for _ in 0..rounds {
                P::wait(&self.cells[0], &self.not_full, |n| n >= PLACES, |n| *n += 1);
                P::notify_one(&self.not_empty);
            }
            return rounds;
        }
        let consumers = (self.plan.threads - producers) as u64;
        let all = producers as u64 * rounds;
        let rest = u64::from(((worker - producers) as u64) < all % consumers);
        for _ in 0..all / consumers + rest {
            P::wait(&self.cells[0], &self.not_empty, |n| n == 0, |n| *n -= 1);
            P::notify_one(&self.not_full);
        }
        0
    }

    fn notify(&self, rounds: u64) -> u64 {
        for _ in 0..rounds {
            P::notify_one(&self.not_empty);
        }
        rounds
    }

    fn take_turns(&self, worker: usize, rounds: u64) -> u64 {
        let threads = self.turns.len();
        for _ in 0..rounds {
            P::wait(&self.cells[0], &self.turns[worker], |turn| turn % threads as u64 != worker as u64, |turn| *turn += 1);
            P::notify_one(&self.turns[(worker + 1) % threads]);
        }
        rounds
    }

    /// The number is how many permits are left.
    fn take_permits(&self, rounds: u64) -> u64 {
        for _ in 0..rounds {
            P::wait(&self.cells[0], &self.not_empty, |left| left == 0, |left| *left -= 1);
            P::with(&self.cells[0], |left| *left += 1);
            P::notify_one(&self.not_empty);
        }
        rounds
    }

    fn work(&self, worker: usize, all: usize) -> Done {
        let mut times = Times::new();
        self.join(all);
        let begin = self.now();
        let rounds = match self.plan.job {
            Job::Count(rounds) => self.count(worker, rounds),
            Job::Share => self.share(),
            Job::Relay(producers, rounds) => self.relay(worker, producers, rounds),
            Job::Wait(held, outside) => self.wait(held, outside, &mut times),
            Job::Fair(held, outside, fairly) => self.fair(worker, held, outside, fairly, &mut times),
            Job::Keys(rounds) => self.count(worker, rounds),
            Job::Notify(rounds) => self.notify(rounds),
            Job::Turns(rounds) => self.take_turns(worker, rounds),
            Job::Permits(_, rounds) => self.take_permits(rounds),
        };
        Done { begin, end: self.now(), rounds, times }
    }

    /// Waits until so many steps were made.
    fn await_made(steps: &AtomicU64, made: u64) {
        while steps.load(Ordering::SeqCst) < made {
            std::thread::yield_now();
        }
    }

    /// The time from an unlock until the thread that slept for the lock owns it, half of the times being shorter.
    fn to_sleeper(&self) -> u64 {
        let (steps, unlocked) = (AtomicU64::new(0), AtomicU64::new(0));
        let cells = self.cells.as_slice();
        std::thread::scope(|scope| {
            let sleeper = scope.spawn(|| {
                let (mut times, mut random) = (Times::new(), Random::new(1));
                for round in 0..SLEEPS {
                    let cell = &cells[key_of(random.next(), cells.len())];
                    Self::await_made(&steps, 3 * round + 1);
                    steps.fetch_add(1, Ordering::SeqCst);
                    let owned = P::with(cell, |_| self.now());
                    times.note(owned - unlocked.load(Ordering::SeqCst));
                    steps.fetch_add(1, Ordering::SeqCst);
                }
                times.part(500)
            });
            let mut random = Random::new(1);
            for round in 0..SLEEPS {
                P::with(&cells[key_of(random.next(), cells.len())], |_| {
                    steps.fetch_add(1, Ordering::SeqCst);
                    Self::await_made(&steps, 3 * round + 2);
                    self.spend(ASLEEP_AFTER);
                    unlocked.store(self.now(), Ordering::SeqCst);
                });
                Self::await_made(&steps, 3 * round + 3);
            }
            sleeper.join().unwrap()
        })
    }

    fn run(plan: Plan, words: &[String]) {
        let start = Instant::now();
        let cells = (0..plan.locks).map(|_| P::Lock::default()).collect();
        let open = start.elapsed().as_nanos() as u64;
        let bench = Bench::<P> {
            cells,
            not_full: P::Condition::default(),
            not_empty: P::Condition::default(),
            turns: (0..plan.threads).map(|_| P::Condition::default()).collect(),
            here: AtomicU64::new(0),
            over: AtomicU64::new(0),
            start,
            plan,
        };
        if let Job::Permits(permits, _) = bench.plan.job {
            P::with(&bench.cells[0], |left| *left = permits);
        }
        let all = bench.plan.threads + usize::from(bench.plan.millis > 0);
        let done: Vec<Done> = std::thread::scope(|scope| {
            let bench = &bench;
            let crew: Vec<_> = (0..bench.plan.threads).map(|worker| scope.spawn(move || bench.work(worker, all))).collect();
            if bench.plan.millis > 0 {
                bench.join(all);
                std::thread::sleep(Duration::from_millis(bench.plan.millis));
                bench.over.store(1, Ordering::SeqCst);
            }
            crew.into_iter().map(|thread| thread.join().unwrap()).collect()
        });
        let mut line = bench.line(&done, words);
        if let Job::Keys(_) = bench.plan.job {
            let sleeper = if bench.plan.threads > 1 { bench.to_sleeper() } else { 0 };
            let begin = bench.now();
            drop(bench.cells);
            line += &format!(" open={open} close={} register=0 sleeper={sleeper}", start.elapsed().as_nanos() as u64 - begin);
        }
        println!("{line}");
    }

    fn line(&self, done: &[Done], words: &[String]) -> String {
        let begin = done.iter().map(|one| one.begin).min().unwrap_or(0);
        let end = done.iter().map(|one| one.end).max().unwrap_or(0);
        let made: u64 = done.iter().map(|one| one.rounds).sum();
        let sum: u64 = self.cells.iter().map(|cell| P::with(cell, |number| *number)).sum();
        let mut line = format!("{} {} sum={sum} rounds={made} ns={}", P::NAME, words.join(" "), end - begin);
        if let Job::Share = self.plan.job {
            let least = done.iter().map(|one| one.rounds).min().unwrap_or(0);
            let most = done.iter().map(|one| one.rounds).max().unwrap_or(0);
            line += &format!(" least={least} most={most}");
        }
        if let Job::Wait(..) = self.plan.job {
            let mut times = Times::new();
            done.iter().for_each(|one| times.add(&one.times));
            line += &format!(" p50={} p99={} p999={} most={}", times.part(500), times.part(990), times.part(999), times.most);
        }
        if let Job::Fair(..) = self.plan.job {
            let (mut times, shares) = (Times::new(), Shares::of(done, made));
            done.iter().for_each(|one| times.add(&one.times));
            line += &format!(" longest={} weighed50={} weighed99={}", times.most, times.part(500), times.part(990));
            line += &format!(" least={} most={} jain={}", shares.of_mean(shares.least), shares.of_mean(shares.most), shares.jain());
        }
        line
    }
}

fn plan(words: &[String], hands_over: bool) -> Option<Plan> {
    let number = |i: usize| words.get(i)?.parse::<u64>().ok();
    let size = |i: usize| words.get(i)?.parse::<usize>().ok();
    Some(match words.first()?.as_str() {
        "count" => Plan { threads: size(1)?, locks: size(2)?, millis: 0, job: Job::Count(number(3)?) },
        "share" => Plan { threads: size(1)?, locks: 1, millis: number(2)?, job: Job::Share },
        "relay" => Plan { threads: size(1)? + size(2)?, locks: 1, millis: 0, job: Job::Relay(size(1)?, number(3)?) },
        "wait" => Plan { threads: size(1)?, locks: 1, millis: number(4)?, job: Job::Wait(number(2)?, number(3)?) },
        "fair" => {
            let fairly = words.get(6)? == "always";
            if !fairly && words[6] != "clock" || fairly && !hands_over {
                return None;
            }
            Plan { threads: size(1)?, locks: size(2)?, millis: number(5)?, job: Job::Fair(number(3)?, number(4)?, fairly) }
        }
        "keys" => Plan { threads: size(1)?, locks: size(2)?, millis: 0, job: Job::Keys(number(3)?) },
        "notify" => Plan { threads: size(1)?, locks: 1, millis: 0, job: Job::Notify(number(2)?) },
        "turns" => Plan { threads: size(1)?, locks: 1, millis: 0, job: Job::Turns(number(2)?) },
        "permits" => Plan { threads: size(1)?, locks: 1, millis: 0, job: Job::Permits(number(2)?, number(3)?) },
        _ => return None,
    })
}

fn sizes<P: Peer>() {
    println!(
        "{} lock={} condition={}",
        P::NAME,
        std::mem::size_of::<P::Lock>() - std::mem::size_of::<UnsafeCell<u64>>(),
        std::mem::size_of::<P::Condition>()
    );
}

fn main() {
    let words: Vec<String> = std::env::args().skip(1).collect();
    let Some((peer, words)) = words.split_first() else {
        std::process::exit(1);
    };
    if words.first().is_some_and(|word| word == "sizes") {
        return if peer == "std" { sizes::<Std>() } else { sizes::<ParkingLot>() };
    }
    let hands_over = if peer == "std" { Std::HANDS_OVER } else { ParkingLot::HANDS_OVER };
    let Some(plan) = plan(words, hands_over) else {
        eprintln!("bad command line");
        std::process::exit(1);
    };
    if peer == "std" {
        Bench::<Std>::run(plan, words);
    } else {
        Bench::<ParkingLot>::run(plan, words);
    }
}
