//! This library and libadb's own core side by side, in one process: see docs/PERFORMANCE.md. Also the sum of a payload alone,
//! beside the code that it was before.
//!
//!     bench [REPEATS [MS [TEXT]]]      (default 7 repeats of 32 ms each; only rows whose name has TEXT)

mod frames;
mod ours;
mod sum;
mod theirs;

use frames::*;
use ours::Ours;
use std::hint::black_box;
use theirs::Theirs;

#[repr(C)]
struct Timespec {
    seconds: i64,
    nanos: i64,
}

extern "C" {
    fn clock_gettime(clock: i32, time: *mut Timespec) -> i32;
}

/// The thread's processor time: what other processes take is not in it.
fn now_ns() -> f64 {
    const CLOCK_THREAD_CPUTIME_ID: i32 = 3;
    let mut t = Timespec { seconds: 0, nanos: 0 };
    // SAFETY: `t` is C's struct timespec on 64-bit Linux.
    let said = unsafe { clock_gettime(CLOCK_THREAD_CPUTIME_ID, &mut t) };
    assert_eq!(said, 0);
    t.seconds as f64 * 1e9 + t.nanos as f64
}

/// Nanoseconds of one call, over the repeats in order of size.
struct Times(Vec<f64>);

impl Times {
    fn best(&self) -> f64 {
        self.0[0]
    }

    fn median(&self) -> f64 {
        self.0[self.0.len() / 2]
    }

    fn worst(&self) -> f64 {
        self.0[self.0.len() - 1]
    }

    fn show(&self) -> String {
        format!("{} ({}..{})", ns(self.best()), ns(self.median()), ns(self.worst()))
    }
}

fn sorted(mut times: Vec<f64>) -> Times {
    times.sort_by(f64::total_cmp);
    Times(times)
}

fn ns(x: f64) -> String {
    if x < 9.95 {
        format!("{x:.1}")
    } else {
        let digits = format!("{x:.0}");
        let mut text = String::new();
        for (i, d) in digits.chars().enumerate() {
            if i > 0 && (digits.len() - i) % 3 == 0 {
                text.push(',');
            }
            text.push(d);
        }
        text
    }
}

fn rate(size: usize, t: &Times) -> String {
    format!("{:.2}", size as f64 / t.best())
}

const SIZES: [usize; 4] = [64, 4 << 10, 64 << 10, 1 << 20];

const KINDS: [Kind; 6] = [
    Kind::DispatchNothing, Kind::ReadNothing, Kind::FrontNothing, Kind::DispatchRead, Kind::DirectRead, Kind::Write,
];

struct Row {
    case: Case,
    ours: Times,
    copied: Times,
    theirs: Times,
    memcpy: Times,
}

impl Row {
    fn name(&self) -> String {
        name(self.case)
    }

    fn ratio(&self) -> f64 {
        self.theirs.best() / self.ours.best()
    }

    fn share(&self) -> f64 {
        self.memcpy.best() / self.ours.best()
    }
}

fn size_name(n: usize) -> String {
    match n {
        n if n >= 1 << 20 => format!("{} MiB", n >> 20),
        n if n >= 1 << 10 => format!("{} KiB", n >> 10),
        n => format!("{n} B"),
    }
}

fn mode(delayed: bool) -> &'static str {
    if delayed {
        "delayed"
    } else {
        "classic"
    }
}

fn check(sums: bool) -> &'static str {
    if sums {
        "summed"
    } else {
        "skipped"
    }
}

fn name(case: Case) -> String {
    let c = case;
    if c.size == 0 {
        return format!("{}, {} open", c.kind.name(), c.open);
    }
    format!("{}, {}, {} open, {}, {}", c.kind.name(), size_name(c.size), c.open, mode(c.delayed), check(c.sums))
}

/// Both sides on the same rounds: the same bytes handed over, the same frames written.
fn compare(case: Case, ours: &mut Ours, round: &Round) {
    let reads = matches!(case.kind, Kind::DispatchRead | Kind::DirectRead);
    let handed = |i: usize, buf: &[u8]| {
        assert!(!reads || buf[..case.size] == *round.payload(i), "{}: bytes handed over", name(case));
    };
    ours.record = Some(Vec::new());
    ours.make(case);
    ours.run(round, 2, false, handed);
    let said = ours.record.take().unwrap();
    let mut theirs = Theirs::make(case, true);
    theirs.run(round, 2, handed);
    assert!(said == theirs.record(), "{}: frames written", name(case));
}

fn timed(rounds: usize, calls: usize, run: impl FnOnce(usize)) -> f64 {
    let start = now_ns();
    run(rounds);
    (now_ns() - start) / (rounds * calls) as f64
}

/// How many rounds take about this long; by the way, all caches are warm then.
fn rounds_for(ms: f64, calls: usize, mut run: impl FnMut(usize)) -> usize {
    let mut rounds = 1;
    loop {
        let took = timed(rounds, calls, &mut run) * (rounds * calls) as f64 / 1e6;
        if took >= ms / 4.0 {
            return ((rounds as f64 * ms / took) as usize).max(1);
        }
        rounds *= 2;
    }
}

fn measure(case: Case, ours: &mut Ours, repeats: usize, ms: f64) -> Row {
    let round = Round::of(case);
    compare(case, ours, &round);
    ours.make(case);
    let mut theirs = Theirs::make(case, false);
    let n = case.open;
    let none = |_: usize, _: &[u8]| {};
    let rounds = [
        rounds_for(ms, n, |r| ours.run(&round, r, false, none)),
        rounds_for(ms, n, |r| ours.run(&round, r, true, none)),
        rounds_for(ms, n, |r| theirs.run(&round, r, none)),
        if case.size > 0 { rounds_for(ms, n, |r| ours.copies(&round, r)) } else { 1 },
    ];
    let mut times = [(); 4].map(|()| Vec::new());
    for _ in 0..repeats {
        times[0].push(timed(rounds[0], n, |r| ours.run(&round, r, false, none)));
        times[2].push(timed(rounds[2], n, |r| theirs.run(&round, r, none)));
        times[1].push(timed(rounds[1], n, |r| ours.run(&round, r, true, none)));
        times[3].push(timed(rounds[3], n, |r| ours.copies(&round, r)));
    }
    let [a, b, c, d] = times.map(sorted);
    Row { case, ours: a, copied: b, theirs: c, memcpy: d }
}

/// The sum of a payload alone, as it was before and as it is now.
struct SumRow {
    size: usize,
    before: Times,
    now: Times,
}

fn sum_name(size: usize) -> String {
    format!("sum alone, {}", size_name(size))
}

/// A loop of its own for each: a call that has gone to two places is not foreseen as fast as one that has not.
fn summing<'a>(sum: impl Fn(&[u8]) -> u32 + Copy + 'a, payload: &'a [u8]) -> impl Fn(usize) + Copy + 'a {
    move |rounds| {
        for _ in 0..rounds {
            black_box(sum(payload));
        }
    }
}

fn measure_sum(size: usize, repeats: usize, ms: f64) -> SumRow {
    let payload = Random::new(size).bytes(MAX_PAYLOAD);
    sum::compare(&payload);
    let before = summing(sum::before, &payload[..size]);
    let now = summing(sum::now, &payload[..size]);
    let rounds = [rounds_for(ms, 1, before), rounds_for(ms, 1, now)];
    let mut times = [(); 2].map(|()| Vec::new());
    for _ in 0..repeats {
        times[0].push(timed(rounds[0], 1, before));
        times[1].push(timed(rounds[1], 1, now));
    }
    let [before, now] = times.map(sorted);
    SumRow { size, before, now }
}

fn sum_table(rows: &[SumRow]) {
    if rows.is_empty() {
        return;
    }
    println!("### The sum alone\n");
    println!("| size | before ns | now ns | before / now | before GB/s | now GB/s |");
    println!("|---:|---:|---:|---:|---:|---:|");
    for r in rows {
        println!(
            "| {} | {} | {} | {:.2} | {} | {} |",
            size_name(r.size), r.before.show(), r.now.show(), r.before.best() / r.now.best(), rate(r.size, &r.before),
            rate(r.size, &r.now)
        );
    }
    println!();
}

const STRETCH: &str = "stretch of 32 frames that end in 11, 40 open";

/// The call alone: libadb has none. 32 dispatches tell the frames apart, and the runs from each of them have 32 to 1.
fn stretch_table(ours: &mut Ours, repeats: usize, ms: f64) {
    let log = ours.stretch_log();
    let spares = Ours::spares();
    let rounds = rounds_for(ms, 1, |r| ours.stretch(&log, &spares, r));
    let times = sorted((0..repeats).map(|_| timed(rounds, 1, |r| ours.stretch(&log, &spares, r))).collect());
    eprintln!("{STRETCH}: ours {}", times.show());
    println!("### The shortest stretch\n");
    println!("| frames | open | a call ns | a dispatch ns |");
    println!("|---:|---:|---:|---:|");
    println!("| 32, all of them | 40 | {} | {} |\n", times.show(), ns(times.best() / (32 + 32 * 33 / 2) as f64));
}

fn overhead_table(rows: &[Row]) {
    if rows.iter().all(|r| r.case.size > 0) {
        return;
    }
    println!("### A call's overhead\n");
    println!("| call | open | ours ns | libadb ns | libadb / ours |");
    println!("|---|---:|---:|---:|---:|");
    for r in rows.iter().filter(|r| r.case.size == 0) {
        println!(
            "| {} | {} | {} | {} | {:.2} |",
            r.case.kind.name(), r.case.open, r.ours.show(), r.theirs.show(), r.ratio()
        );
    }
    println!();
}

fn table(rows: &[Row], kind: Kind) {
    if rows.iter().all(|r| r.case.kind != kind) {
        return;
    }
    println!("### {}\n", kind.name());
    println!(
        "| size | open | acks | check | ours ns | libadb ns | libadb / ours | ours and copies ns | libadb / that | memcpy ns \
         | memcpy / ours | ours GB/s | libadb GB/s | memcpy GB/s |"
    );
    println!("|---:|---:|---|---|---:|---:|---:|---:|---:|---:|---:|---:|---:|---:|");
    for r in rows.iter().filter(|r| r.case.kind == kind) {
        println!(
            "| {} | {} | {} | {} | {} | {} | {:.2} | {} | {:.2} | {} | {:.2} | {} | {} | {} |",
            size_name(r.case.size), r.case.open, mode(r.case.delayed), check(r.case.sums),
            r.ours.show(), r.theirs.show(), r.ratio(), r.copied.show(), r.theirs.best() / r.copied.best(),
            r.memcpy.show(), r.share(), rate(r.case.size, &r.ours), rate(r.case.size, &r.theirs),
            rate(r.case.size, &r.memcpy)
        );
    }
    println!();
}

/// How many rows reach a goal, and for each kind of row the one that is farthest from it.
fn goal(title: &str, least: f64, rows: &[&Row], value: impl Fn(&Row) -> f64, show: impl Fn(f64) -> String) {
    let reached = |rows: &[&Row]| rows.iter().filter(|r| value(r) >= least).count();
    println!("- {title}: {} of {} rows.", reached(rows), rows.len());
    for kind in KINDS {
        let some: Vec<&Row> = rows.iter().copied().filter(|r| r.case.kind == kind).collect();
        if let Some(low) = some.iter().min_by(|a, b| value(a).total_cmp(&value(b))) {
            println!("  - {} of {}, farthest {}: {}", reached(&some), some.len(), show(value(low)), low.name());
        }
    }
}

fn goals(rows: &[Row]) {
    println!("### Against the goals\n");
    let all: Vec<_> = rows.iter().collect();
    let (calls, moved): (Vec<_>, Vec<_>) = rows.iter().partition(|r| r.case.size == 0);
    let large: Vec<_> = rows.iter().filter(|r| r.case.size == MAX_PAYLOAD).collect();
    let times = |x: f64| format!("{x:.2}");
    goal("1.5 times libadb's speed", 1.5, &all, Row::ratio, times);
    goal("the same with the transport's copies on both sides", 1.5, &moved, |r| r.theirs.best() / r.copied.best(), times);
    goal("a call's overhead at most 100 ns", -100.0, &calls, |r| -r.ours.best(), |x| format!("{} ns", ns(-x)));
    goal("0.8 of memcpy at 1 MiB", 0.8, &large, Row::share, times);
}

fn main() {
    let args: Vec<String> = std::env::args().collect();
    let repeats: usize = args.get(1).map_or(7, |a| a.parse().expect("REPEATS"));
    let ms: f64 = args.get(2).map_or(32.0, |a| a.parse().expect("MS"));
    let text = args.get(3).map_or("", |a| a.as_str());
    assert!(repeats > 0 && ms > 0.0);

    let mut cases = Vec::new();
    for kind in KINDS.into_iter().take(3) {
        for open in [1, 40] {
            cases.push(Case { kind, size: 0, open, delayed: false, sums: false });
        }
    }
    for kind in KINDS.into_iter().skip(3) {
        for size in SIZES {
            for open in [1, 40] {
                for delayed in [false, true] {
                    for sums in [false, true] {
                        cases.push(Case { kind, size, open, delayed, sums });
                    }
                }
            }
        }
    }
    let mut ours = Ours::new();
    let mut rows = Vec::new();
    for case in cases.into_iter().filter(|c| name(*c).contains(text)) {
        let row = measure(case, &mut ours, repeats, ms);
        eprintln!("{}: ours {}, libadb {}", row.name(), row.ours.show(), row.theirs.show());
        rows.push(row);
    }
    let mut sums = Vec::new();
    for size in SIZES.into_iter().filter(|s| sum_name(*s).contains(text)) {
        let row = measure_sum(size, repeats, ms);
        eprintln!("{}: before {}, now {}", sum_name(size), row.before.show(), row.now.show());
        sums.push(row);
    }
    overhead_table(&rows);
    for kind in KINDS.into_iter().skip(3) {
        table(&rows, kind);
    }
    sum_table(&sums);
    if STRETCH.contains(text) {
        stretch_table(&mut ours, repeats, ms);
    }
    if !rows.is_empty() {
        goals(&rows);
    }
}
