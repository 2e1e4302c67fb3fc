//! Times in nanoseconds: batches that are long for the clock, rounds that interleave all
//! contenders, and of these the quickest and the median.

use std::time::{Duration, Instant};

/// How long all contenders are run, untimed, before their first round: caches, branch predictors
/// and the processor's clock are steady by then.
const WARM_UP: Duration = Duration::from_secs(2);

/// How long a batch lasts, some thousand times what the clock costs. A step goes before each,
/// untimed: others had their turn since the last, and the caches are theirs.
const BATCH: Duration = Duration::from_micros(50);
const MOST_STEPS: usize = 2_000;

/// Nanoseconds of one step in one round, and of what was timed with it and is taken off.
#[derive(Clone, Copy)]
pub struct Sample {
    step: f64,
    off: f64,
}

/// Something that is timed, a round each time that it is called.
pub type Contender<'a> = Box<dyn FnMut() -> Sample + 'a>;

/// The step alone.
pub fn steps<'a>(mut step: impl FnMut() + 'a) -> Contender<'a> {
    let steps = steps_of_a_batch(&mut step);
    Box::new(move || {
        step();
        Sample { step: per_step(steps, &mut step), off: 0.0 }
    })
}

/// The quickest, in each round, of several ways to take a step.
pub fn quickest_way<'a>(mut ways: Vec<Contender<'a>>) -> Contender<'a> {
    Box::new(move || {
        let samples = ways.iter_mut().map(|way| way());
        samples.min_by(|one, other| one.step.total_cmp(&other.step)).expect("a way")
    })
}

/// The step, less what it takes to undo it: the time of both, and then that of undoing alone.
pub fn steps_undone<'a, State: 'a>(
    mut state: State,
    step: impl Fn(&mut State) + 'a,
    undo: impl Fn(&mut State) + 'a,
) -> Contender<'a> {
    let steps = steps_of_a_batch(|| {
        step(&mut state);
        undo(&mut state);
    });
    Box::new(move || {
        step(&mut state);
        undo(&mut state);
        let both = per_step(steps, || {
            step(&mut state);
            undo(&mut state);
        });
        Sample { step: both, off: per_step(steps, || undo(&mut state)) }
    })
}

/// One's step, less the other's. What each takes off is put with the other's step, so that of each
/// part the quickest can be told.
pub fn difference<'a>(mut one: Contender<'a>, mut other: Contender<'a>) -> Contender<'a> {
    Box::new(move || {
        let (one, other) = (one(), other());
        Sample { step: one.step + other.off, off: one.off + other.step }
    })
}

/// One of the so many that a step is.
pub fn one_of<'a>(count: usize, mut all: Contender<'a>) -> Contender<'a> {
    Box::new(move || {
        let Sample { step, off } = all();
        Sample { step: step / count as f64, off: off / count as f64 }
    })
}

/// The step alone, timed one by one because preparing it takes longer than itself; less what the
/// clock costs.
pub fn steps_prepared<'a, State: 'a>(
    mut state: State,
    prepare: impl Fn(&mut State) + 'a,
    step: impl Fn(&mut State) + 'a,
) -> Contender<'a> {
    let timed = move |state: &mut State| {
        prepare(state);
        let start = Instant::now();
        step(state);
        nanoseconds(start.elapsed())
    };
    Box::new(move || {
        let clock = |_| nanoseconds(Instant::now().elapsed());
        Sample {
            step: median((0..9).map(|_| timed(&mut state)).collect()),
            off: median((0..9).map(clock).collect()),
        }
    })
}

/// Nanoseconds, or a ratio of two times: of the quickest rounds, and the median of all.
#[derive(Clone, Copy)]
pub struct Figure {
    pub quickest: f64,
    pub median: f64,
}

/// What each contender took, round by round; a round times each once.
pub struct Rounds {
    samples: Vec<Vec<Sample>>,
}

impl Rounds {
    pub fn run(rounds: usize, mut contenders: Vec<Contender>) -> Rounds {
        let start = Instant::now();
        while start.elapsed() < WARM_UP {
            for contender in &mut contenders {
                contender();
            }
        }
        let mut samples = vec![Vec::with_capacity(rounds); contenders.len()];
        for _ in 0..rounds {
            for (contender, samples) in contenders.iter_mut().zip(&mut samples) {
                samples.push(contender());
            }
        }
        Rounds { samples }
    }

    /// The time of one contender. Of its quickest round each part is the quickest, since the
    /// difference of two times of one round is small also where what is taken off was disturbed.
    pub fn time(&self, contender: usize) -> Figure {
        let samples = &self.samples[contender];
        let least = |part: fn(&Sample) -> f64| samples.iter().map(part).fold(f64::MAX, f64::min);
        Figure {
            quickest: least(|sample| sample.step) - least(|sample| sample.off),
            median: median(self.times(contender)),
        }
    }

    /// How many times the other's time one's is. The median is that of the rounds' ratios: a
    /// machine that is slower for a while is slower for both.
    pub fn ratio(&self, one: usize, other: usize) -> Figure {
        let both = self.times(one).into_iter().zip(self.times(other));
        Figure {
            quickest: self.time(one).quickest / self.time(other).quickest,
            median: median(both.map(|(one, other)| one / other).collect()),
        }
    }

    fn times(&self, contender: usize) -> Vec<f64> {
        let samples = self.samples[contender].iter();
        samples.map(|sample| sample.step - sample.off).collect()
    }
}

fn median(mut times: Vec<f64>) -> f64 {
    times.sort_by(f64::total_cmp);
    times[times.len() / 2]
}

/// The quickest of so many single steps.
pub fn quickest(times: usize, mut step: impl FnMut()) -> f64 {
    let times = (0..times).map(|_| per_step(1, &mut step));
    times.fold(f64::MAX, f64::min)
}

fn per_step(steps: usize, mut step: impl FnMut()) -> f64 {
    let start = Instant::now();
    for _ in 0..steps {
        step();
    }
    nanoseconds(start.elapsed()) / steps as f64
}

fn steps_of_a_batch(mut step: impl FnMut()) -> usize {
    let steps = nanoseconds(BATCH) / quickest(3, &mut step).max(1.0);
    (steps as usize).clamp(1, MOST_STEPS)
}

fn nanoseconds(time: Duration) -> f64 {
    time.as_secs_f64() * 1e9
}
