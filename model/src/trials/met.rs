//! What a trial met, so that none passes on nothing.

use crate::call::Call;
use crate::store::tables::Tables;

/// How often each answer was given.
#[derive(Clone, Debug, Default, PartialEq, Eq)]
pub struct Met {
    pub calls: usize,
    /// By refusal.
    pub refused: [usize; 20],
    /// Of the deliveries refused by 11, and by 12, where a trial counts these: by kind of message.
    pub unwanted: [usize; 8],
    pub not_stored: [usize; 8],
    pub fresh: usize,
    pub reads: usize,
    pub fast_reads: usize,
    pub writes: usize,
    pub mixed: usize,
    /// By kind of message.
    pub delivered: [usize; 8],
    pub reads_ended: usize,
    pub writes_ended: usize,
    pub shown: usize,
    pub cleared: usize,
    /// Versions that went, and those that stayed, where a trial counts these.
    pub gone: u64,
    pub stayed: u64,
    pub handed_over: usize,
    /// By how the first view stands to the second.
    pub compared: [usize; 4],
    /// Blocks that were accepted.
    pub checked: usize,
}

impl Met {
    /// Counts an answer that is the model's.
    pub(super) fn count(&mut self, call: &Call, answer: u64) {
        self.calls += 1;
        if answer & 0xff != 0 {
            self.refused[answer as usize] += 1;
            return;
        }
        match call {
            Call::Fresh { .. } => self.fresh += 1,
            Call::Read { .. } => self.reads += 1,
            Call::FastRead { .. } => self.fast_reads += 1,
            Call::Write { .. } => self.writes += 1,
            Call::Mixed { .. } => self.mixed += 1,
            Call::Deliver { .. } => {
                self.delivered[(answer >> 8 & 0xff) as usize] += 1;
                match answer >> 32 {
                    1 => self.reads_ended += 1,
                    2 => self.writes_ended += 1,
                    _ => (),
                }
            }
            Call::Show { .. } => self.shown += 1,
            Call::Clear => {
                self.cleared += 1;
                self.gone += answer >> 8;
            }
            Call::HandOver { .. } => self.handed_over += 1,
            Call::Compare { .. } => self.compared[(answer >> 8) as usize] += 1,
            Call::Check => self.checked += 1,
        }
    }

    /// The same of a call on these tables; a delivery refused by 11 or 12 is told by its message.
    pub(super) fn count_on(&mut self, tables: &Tables, call: &Call, answer: u64) {
        self.count(call, answer);
        if let (Call::Deliver { place }, 11 | 12) = (call, answer) {
            let kind = tables.messages[*place as usize].kind() as usize;
            let kinds = if answer == 11 { &mut self.unwanted } else { &mut self.not_stored };
            kinds[kind] += 1;
        }
    }

    /// 11 and 12 were answered at least so often to each kind of message that they are for.
    pub fn assert_refused_by_kind(&self, times: usize) {
        for kind in [1, 2, 5, 7] {
            assert!(self.unwanted[kind] >= times, "11 to kind {kind} in {self:?}");
        }
        for kind in [4, 6] {
            assert!(self.not_stored[kind] >= times, "12 to kind {kind} in {self:?}");
        }
    }

    /// Each of these refusals was answered at least so often.
    pub fn assert_refused(&self, refusals: &[usize], times: usize) {
        for refusal in refusals {
            assert!(self.refused[*refusal] >= times, "{refusal} in {self:?}");
        }
    }

    /// The least of the counts of accepted calls, by call, kind of message and end; but for checks,
    /// which hardly any block passes that no calls leave.
    pub fn rarest_accepted(&self) -> usize {
        let others = [self.cleared, self.handed_over, self.compared.iter().sum()];
        let starts = [self.reads, self.fast_reads, self.writes, self.mixed];
        let calls = [&[self.fresh, self.shown], &starts[..], &others].concat();
        let ends = [self.reads_ended, self.writes_ended];
        let all = calls.iter().chain(&ends).chain(&self.delivered[1..]);
        *all.min().expect("there are some")
    }
}
