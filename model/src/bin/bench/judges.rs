//! The judge beside the model's judge: the slowest log that is found, and logs of growing size.

use crate::clock::{quickest, steps, Contender, Figure, Rounds};
use koolvent_model::frames::log::{LogFrame, Shown};
use koolvent_model::judge::{judge, Verdict};
use koolvent_model::proved;
use std::hint::black_box;

/// The limits of refusal 16.
const MOST_BYTES: usize = 32_768;
const MOST_LINES: usize = 256;
const ROUNDS: usize = 15;

/// What a log is made of: so many writes of `width` items each, hand-overs above or below them, and
/// reads of `shown`. Writes that are mixed transactions read as many.
#[derive(Clone, Copy, Default)]
pub struct Shape {
    pub writes: usize,
    pub width: usize,
    pub are_mixed: bool,
    pub hand_overs: HandOvers,
    pub shown: usize,
}

/// So many hand-overs from client to client, and where they stand.
#[derive(Clone, Copy, Default)]
pub struct HandOvers {
    pub count: usize,
    pub above: bool,
}

impl HandOvers {
    /// Their lines, and the client that took over last.
    fn lines(self) -> (String, u8) {
        let mut client = 1;
        let line = |_| {
            let giver = client;
            client = 1 + client % 8;
            LogFrame::of_hand_over(giver, client).line()
        };
        let lines = (0..self.count).map(line).collect();
        (lines, client)
    }
}

/// Nanoseconds of a verdict on one log.
pub struct Row {
    pub shape: Shape,
    pub bytes: usize,
    pub judge: Figure,
    pub model: Figure,
    /// The judge's time as a multiple of the model's.
    pub models: Figure,
}

/// The slowest logs that are found: of writes and reads alone, with hand-overs among their lines,
/// and with mixed transactions for their writes. All are judged in the same rounds.
pub struct Slowest {
    pub plain: Row,
    pub handed_over: Row,
    pub mixed: Row,
    /// The second's time as a multiple of the first's.
    pub times: Figure,
}

impl Slowest {
    pub fn all(&self) -> [&Row; 3] {
        [&self.plain, &self.handed_over, &self.mixed]
    }
}

/// The set of `width` items from `from` on, around the 64.
fn items_from(from: usize, width: usize) -> u64 {
    (0..width).fold(0, |set, i| set | 1 << ((from + i) % 64))
}

/// The first `shown` items, each from its last write, whose number is its value too.
fn shown_of(shown: usize, last: &[u32; 64]) -> Vec<Shown> {
    let entry =
        |number: &u32| Shown { number: *number, client: u8::from(*number > 0), value: *number };
    last[..shown].iter().map(entry).collect()
}

/// A clean log that a judge has to search to its end: hand-overs, writes in turn over all 64 items
/// and as many reads as fit, each item from its last write; or the hand-overs below the writes. The
/// reads are by the client to which all writes count as its own: the writer, or whoever took over
/// from it last.
fn log_of(shape: Shape, most_bytes: usize) -> Vec<u8> {
    let (hand_overs, heir) = shape.hand_overs.lines();
    let mut log = Vec::new();
    if shape.hand_overs.above {
        log.extend(hand_overs.bytes());
    }
    let read_set = items_from(0, shape.shown);
    let mut last = [0; 64];
    for number in 1..=shape.writes {
        let shown = shown_of(shape.shown, &last);
        let set = items_from(number * shape.width, shape.width);
        for (item, number_of_item) in last.iter_mut().enumerate() {
            if set >> item & 1 == 1 {
                *number_of_item = number as u32;
            }
        }
        let values = vec![number as u32; shape.width];
        let frame = match shape.are_mixed {
            true => LogFrame::of_mixed(1, (read_set, shown), (set, number as u32, values)),
            false => LogFrame::of_write(1, set, number as u32, values),
        };
        log.extend(frame.line().bytes());
    }
    let reader = if shape.hand_overs.above { 1 } else { heir };
    if !shape.hand_overs.above {
        log.extend(hand_overs.bytes());
    }
    let read = LogFrame::of_read(reader, read_set, shown_of(shape.shown, &last)).line();
    let mut lines = shape.writes + shape.hand_overs.count;
    while lines < MOST_LINES && log.len() + read.len() <= most_bytes {
        log.extend(read.bytes());
        lines += 1;
    }
    log
}

/// A log within so many bytes.
struct Log {
    shape: Shape,
    text: Vec<u8>,
}

impl Log {
    fn new(shape: Shape, most_bytes: usize) -> Log {
        Log { shape, text: log_of(shape, most_bytes) }
    }

    fn verdict(&self) {
        black_box(proved::judge::judge(black_box(&self.text)));
    }

    fn by_the_judge(&self) -> Contender<'_> {
        steps(|| self.verdict())
    }

    fn contenders(&self) -> [Contender<'_>; 2] {
        let models = steps(|| {
            black_box(judge(black_box(&self.text)));
        });
        [self.by_the_judge(), models]
    }
}

/// The logs, all in the same rounds; both judges have the same verdict on each.
fn rows(logs: &[Log]) -> (Rounds, Vec<Row>) {
    for Log { text, .. } in logs {
        assert_eq!(proved::judge::judge(text), judge(text).number());
    }
    let rounds = Rounds::run(ROUNDS, logs.iter().flat_map(Log::contenders).collect());
    let row = |(place, log): (usize, &Log)| Row {
        shape: log.shape,
        bytes: log.text.len(),
        judge: rounds.time(2 * place),
        model: rounds.time(2 * place + 1),
        models: rounds.ratio(2 * place, 2 * place + 1),
    };
    let rows = logs.iter().enumerate().map(row).collect();
    (rounds, rows)
}

pub fn slowest() -> Slowest {
    let below = [1, 8, 32, 96].map(|count| HandOvers { count, above: false });
    let above = [8, 32, 96].map(|count| HandOvers { count, above: true });
    let some: Vec<HandOvers> = below.into_iter().chain(above).collect();
    let none = [HandOvers::default()];
    let logs = [slowest_log(&none, false), slowest_log(&some, false), slowest_log(&none, true)];
    let (rounds, rows) = rows(&logs);
    let [plain, handed_over, mixed] = rows.try_into().unwrap_or_else(|_| panic!("three rows"));
    // A row has two contenders, the judge and the model's.
    Slowest { plain, handed_over, mixed, times: rounds.ratio(2, 0) }
}

/// The log on which the proved judge is slowest, of those tried that are clean and within the
/// limits, with hand-overs as one of these and with writes that are mixed or not. A few verdicts on each tell which may be, in passes
/// over all of them, since a machine that is disturbed is so for a while; those then take turns.
fn slowest_log(hand_overs: &[HandOvers], are_mixed: bool) -> Log {
    let mut logs = Vec::new();
    for width in [1, 2, 4, 8, 16, 64] {
        for shown in [1, 4, 9, 12, 16, 20, 24, 32, 64] {
            for writes in (16..=240).step_by(16) {
                let shape = |&hand_overs| Shape { writes, width, are_mixed, hand_overs, shown };
                logs.extend(hand_overs.iter().map(shape).filter_map(clean_log));
            }
        }
    }
    let mut times = vec![f64::MAX; logs.len()];
    for _ in 0..3 {
        for (log, time) in logs.iter().zip(&mut times) {
            *time = time.min(quickest(2, || log.verdict()));
        }
    }
    let mut finalists = slowest_first(logs, &times);
    finalists.truncate(24);
    let rounds = Rounds::run(ROUNDS, finalists.iter().map(Log::by_the_judge).collect());
    let times: Vec<f64> = (0..finalists.len()).map(|place| rounds.time(place).quickest).collect();
    slowest_first(finalists, &times).remove(0)
}

/// The logs in the order of their times.
fn slowest_first(logs: Vec<Log>, times: &[f64]) -> Vec<Log> {
    let mut timed: Vec<(Log, f64)> = logs.into_iter().zip(times.iter().copied()).collect();
    timed.sort_by(|(_, one), (_, other)| other.total_cmp(one));
    timed.into_iter().map(|(log, _)| log).collect()
}

/// The shape's log, if it is within the limits and the judge finds it clean.
fn clean_log(shape: Shape) -> Option<Log> {
    let log = Log::new(shape, MOST_BYTES);
    let lines = shape.writes + shape.hand_overs.count;
    let is_within = log.text.len() <= MOST_BYTES && lines <= MOST_LINES;
    let is_clean = proved::judge::judge(&log.text) == Verdict::CLEAN.number();
    (is_within && is_clean).then_some(log)
}

/// Logs of half writes of 12 items and half reads of 12, up to the limit of bytes.
pub fn growth() -> Vec<Row> {
    let bytes_of_a_write = 125;
    let log = |part| {
        let most_bytes = part * MOST_BYTES / 8;
        let writes = most_bytes / 2 / bytes_of_a_write;
        let shape = Shape { writes, width: 12, shown: 12, ..Shape::default() };
        Log::new(shape, most_bytes)
    };
    let logs: Vec<Log> = (1..=8).map(log).collect();
    rows(&logs).1
}
