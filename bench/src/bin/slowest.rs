//! Looks for the slowest accepted job: jobs of the kinds that cost most, changed at random, the slower one kept.
//! Usage: slowest [SECONDS] [FILE]: how long to look (60), and where to write the job (none).
use bench::floors::{ATTEMPTS, BOUNDARY_GAP, GAP, PRECISION};
use bench::floors::{Zone, comb, job, pillars, rectangle, retraced, round, upright};
use bench::{ARRANGEMENTS, Bits, Lent};
use std::sync::mpsc::{self, Receiver, Sender};
use std::thread;
use std::time::{Duration, Instant};

/// The shape of which every lattice row crosses every edge.
const RETRACED: u64 = 3;
/// So many vertices fit in a job.
const MOST_VERTICES: usize = 8_160;

/// A job by its numbers.
#[derive(Clone, Copy, Debug)]
struct Kind {
    arrangement: u8,
    policy: u8,
    shape: u64,
    edges: usize,
    holes: usize,
    side: usize,
    count: u16,
    zones: usize,
    precision: u32,
    attempts: u32,
    gap: u32,
}

impl Kind {
    fn draw(bits: &mut Bits) -> Kind {
        Kind {
            arrangement: (bits.draw() % 4) as u8,
            policy: (bits.draw() % 2) as u8,
            shape: bits.draw() % 4,
            edges: 4 << (bits.draw() % 7),
            holes: (bits.draw() % 9) as usize,
            side: (bits.draw() % 9) as usize,
            count: 2_000 >> (bits.draw() % 4),
            zones: 1 << (bits.draw() % 3),
            precision: 1 << (bits.draw() % 21),
            attempts: 2_000 >> (bits.draw() % 6),
            gap: (bits.draw() % 2_048) as u32,
        }
    }

    /// One of its numbers drawn anew.
    fn changed(self, bits: &mut Bits) -> Kind {
        let other = Kind::draw(bits);
        match bits.draw() % 10 {
            0 => Kind { arrangement: other.arrangement, ..self },
            1 => Kind { policy: other.policy, ..self },
            2 => Kind { shape: other.shape, ..self },
            3 => Kind { edges: other.edges, ..self },
            4 => Kind { holes: other.holes, ..self },
            5 => Kind { side: other.side, ..self },
            6 => Kind { count: other.count, zones: other.zones, ..self },
            7 => Kind { precision: other.precision, ..self },
            8 => Kind { attempts: other.attempts, ..self },
            _ => Kind { gap: other.gap, ..self },
        }
    }

    fn bytes(self) -> Vec<u8> {
        let mut bytes = if self.shape == RETRACED { self.crossed() } else { self.open() };
        (bytes[5], bytes[6]) = (self.arrangement, self.policy);
        bytes[ATTEMPTS].copy_from_slice(&self.attempts.to_be_bytes());
        bytes
    }

    fn open(self) -> Vec<u8> {
        let outer = match self.shape {
            0 => round(self.edges, 40.0, 0.0),
            1 => round(self.edges, 40.0, 0.4),
            _ => comb(self.edges.div_ceil(5)),
        };
        let hole = |k: usize| {
            round(self.edges, 2.0, 0.2).into_iter().map(move |[x, y]| [x + 6.0 * k as f64 - 24.0, y]).collect()
        };
        let rings: Vec<_> = std::iter::once(outer).chain((0..self.holes).map(hole)).collect();
        let mut zones = vec![Zone { key: "a".into(), count: self.count, pieces: vec![rings] }];
        zones.extend((1..self.zones).map(|k| Zone {
            key: format!("z{k}"),
            count: 2_000 / self.zones as u16,
            pieces: vec![vec![rectangle(100.0 * k as f64, 0.0, 80.0, 60.0)]],
        }));
        zones[0].count = self.count / self.zones as u16;
        let mut bytes = job(&pillars(self.side, self.side, 80.0, 60.0), &zones);
        bytes[GAP].copy_from_slice(&self.gap.to_be_bytes());
        bytes[PRECISION].copy_from_slice(&self.precision.to_be_bytes());
        bytes
    }

    /// Up to 16 pieces, so wide that a walk over a lattice ends within a few rows, and those are too near the lower side
    /// for any mark. Under Rectangular the first of them lies on that side. A small room makes the ceiling 1/256.
    fn crossed(self) -> Vec<u8> {
        let mut rings = vec![retraced(self.edges, 1024.0, 2.0)];
        rings.extend((0..self.holes).map(|_| upright(self.edges - 2, 2.0)));
        let vertices: usize = rings.iter().map(Vec::len).sum();
        let pieces = (self.zones * self.zones).min(MOST_VERTICES / vertices);
        let zones = [
            Zone { key: "a".into(), count: self.count.min(1_999), pieces: vec![rings; pieces] },
            Zone { key: "b".into(), count: 1, pieces: vec![vec![rectangle(0.0, 0.0, 0.125, 0.125)]] },
        ];
        let side = self.side.min(1);
        let mut bytes = job(&pillars(side, side, 80.0, 60.0), &zones);
        bytes[GAP].fill(0);
        bytes[BOUNDARY_GAP].copy_from_slice(&(15 * 1024u32).to_be_bytes());
        bytes[PRECISION].copy_from_slice(&(1024 * 1024u32).to_be_bytes());
        bytes
    }
}

/// Seconds of one call, where the job is accepted.
fn seconds(lent: &mut Lent, kind: Kind) -> Option<f64> {
    let (bytes, start) = (kind.bytes(), Instant::now());
    lent.plan(&bytes).ok()?;
    Some(start.elapsed().as_secs_f64())
}

/// A thread that tells the seconds of each job, so that one that takes too long can be left to itself.
fn planner() -> (Sender<Kind>, Receiver<Option<f64>>) {
    let (jobs, asked) = mpsc::channel();
    let (answer, times) = mpsc::channel();
    thread::spawn(move || {
        let mut lent = Lent::new();
        asked.into_iter().try_for_each(|kind| answer.send(seconds(&mut lent, kind)))
    });
    (jobs, times)
}

fn main() {
    let mut words = std::env::args().skip(1);
    let limit = Duration::from_secs(words.next().map_or(60, |word| word.parse().expect("seconds")));
    let (mut bits, (jobs, times), start) = (Bits(0x9e37_79b9_7f4a_7c15), planner(), Instant::now());
    let mut best: Option<(f64, Kind)> = None;
    let mut tried = 0;
    while start.elapsed() < limit {
        let kind = match best {
            Some((_, kind)) if tried > 100 && bits.draw() % 4 > 0 => kind.changed(&mut bits),
            _ => Kind::draw(&mut bits),
        };
        tried += 1;
        let begun = start.elapsed();
        jobs.send(kind).expect("the planner runs");
        let (word, time) = match times.recv_timeout(limit.saturating_sub(begun)) {
            Ok(Some(time)) => ("", time),
            Ok(None) => continue,
            Err(_) => ("over ", (start.elapsed() - begun).as_secs_f64()),
        };
        if best.is_none_or(|(slowest, _)| time > slowest) {
            println!("{word}{time:.3} s: {} {kind:?}", ARRANGEMENTS[kind.arrangement as usize]);
            best = Some((time, kind));
        }
    }
    println!("{tried} jobs tried");
    if let (Some(path), Some((_, kind))) = (words.next(), best) {
        std::fs::write(path, kind.bytes()).expect("the job is written");
    }
}
