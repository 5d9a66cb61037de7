//! Times of one call, for the binaries `bench` and `turns`: the best of many rounds, in which all contenders take their turns. The whole is
//! done in several passes, since a machine may be slower for some seconds.
use std::hint::black_box;
use std::time::{Duration, Instant};

/// How often everything is timed.
const PASSES: usize = 5;

/// The lengths of the words.
pub const SIZES: [usize; 4] = [30, 60, 120, 240];

/// How often each contender takes its turn in a pass.
const ROUNDS: usize = 100;

/// A turn takes at least this long where calls can be repeated, so that reading the clock does not count.
const TURN: Duration = Duration::from_micros(40);

/// A contender's turn: the microseconds of one call.
pub type Turn<'a> = Box<dyn FnMut() -> f64 + 'a>;

/// Times of one kind of call: for each word, pattern and record, or alphabet, and each size, a time for each contender, the library's first.
/// A contender that does not read a word has no time there; it stands behind those that do.
pub struct Timed {
    pub call: &'static str,
    pub contenders: Vec<&'static str>,
    pub words: Vec<(String, Vec<Vec<f64>>)>,
}

impl Timed {
    /// The better of two passes, time by time.
    fn better(mut self, other: &Timed) -> Timed {
        for ((_, sizes), (_, others)) in self.words.iter_mut().zip(&other.words) {
            for (times, others) in sizes.iter_mut().zip(others) {
                lower(times, others);
            }
        }
        self
    }

    /// The geometric mean over the words of a contender's times at a size.
    pub fn mean(&self, size: usize, contender: usize) -> f64 {
        let times = self.words.iter().map(|(_, sizes)| sizes[size][contender]);
        mean(times)
    }

    /// The geometric mean over the words of how many times a contender's time the library takes at a size. Words that the contender has no
    /// time of do not count.
    pub fn ratio(&self, size: usize, contender: usize) -> f64 {
        let times = self.words.iter().map(|(_, sizes)| &sizes[size]);
        mean(times.filter_map(|times| Some(times[0] / times.get(contender)?)))
    }
}

/// The better of two passes, time by time, for calls in the same order.
pub fn better(all: Vec<Timed>, others: &[Timed]) -> Vec<Timed> {
    let pairs = all.into_iter().zip(others);
    pairs.map(|(timed, other)| timed.better(other)).collect()
}

/// The best of all passes.
pub fn over_passes<T>(pass: impl Fn() -> T, better: impl Fn(T, &T) -> T) -> T {
    (1..PASSES).fold(pass(), |best, _| better(best, &pass()))
}

/// Lowers each time to the other's where that is less.
pub fn lower(times: &mut [f64], others: &[f64]) {
    for (time, &other) in times.iter_mut().zip(others) {
        *time = time.min(other);
    }
}

/// The geometric mean.
pub fn mean(values: impl Iterator<Item = f64>) -> f64 {
    let logs: Vec<f64> = values.map(f64::ln).collect();
    (logs.iter().sum::<f64>() / logs.len() as f64).exp()
}

/// The best time of each contender over all rounds.
pub fn best(mut turns: Vec<Turn>) -> Vec<f64> {
    let mut best = vec![f64::INFINITY; turns.len()];
    for _ in 0..ROUNDS {
        for (least, turn) in best.iter_mut().zip(&mut turns) {
            *least = least.min(turn());
        }
    }
    best
}

/// A turn of a call that can be repeated as it is: as many calls as fill a turn.
pub fn repeated<'a, T>(mut call: impl FnMut() -> T + 'a) -> Turn<'a> {
    let began = Instant::now();
    black_box(call());
    let once = began.elapsed().max(Duration::from_nanos(20));
    let times = 1 + (TURN.as_nanos() / once.as_nanos()) as u32;
    Box::new(move || {
        let began = Instant::now();
        for _ in 0..times {
            black_box(call());
        }
        micros(began.elapsed()) / f64::from(times)
    })
}

/// A turn of a call that changes its tracker: each call gets a copy made before the clock is read. The best of some calls.
pub fn on_copies<'a, S, T>(start: S, mut call: impl FnMut(&mut S) -> T + 'a) -> Turn<'a>
where
    S: Clone + 'a,
{
    let mut copy = start.clone();
    Box::new(move || {
        let mut least = f64::INFINITY;
        for _ in 0..10 {
            copy.clone_from(&start);
            let began = Instant::now();
            black_box(call(black_box(&mut copy)));
            least = least.min(micros(began.elapsed()));
        }
        least
    })
}

fn micros(time: Duration) -> f64 {
    time.as_nanos() as f64 / 1000.0
}
