//! 3,106 random runs as frames, with lines among them that are none. A run begins with a fresh
//! start, so that one process can have many; some hundred have a process each.

use crate::program::agreed;
use crate::spoil::spoiled;
use koolvent_model::call::Call;
use koolvent_model::frames::hex::to_hex;
use koolvent_model::random::Random;
use koolvent_model::runs::{run_watched, Sort};

/// The call as a frame's line, if its numbers fit in one. A driver's block is always long enough.
fn line(call: &Call) -> Option<String> {
    let byte = |number: u64| u8::try_from(number).ok();
    let frame = match call {
        Call::Fresh { long_enough: true, clients, partitions, items } => {
            vec![1, byte(*clients)?, byte(*partitions)?, byte(*items)?]
        }
        Call::Fresh { .. } => return None,
        Call::Read { client, set } => [&[2, byte(*client)?], &set.to_be_bytes()[..]].concat(),
        Call::FastRead { client, set } => [&[6, byte(*client)?], &set.to_be_bytes()[..]].concat(),
        Call::Write { client, set, values } => {
            [&[3, byte(*client)?], &set.to_be_bytes()[..], values].concat()
        }
        Call::Mixed { client, read, write, values } => {
            let sets = [read.to_be_bytes(), write.to_be_bytes()].concat();
            [&[7, byte(*client)?], &sets[..], values].concat()
        }
        Call::Deliver { place } => {
            let place = u16::try_from(*place).ok()?;
            [&[4], &place.to_be_bytes()[..]].concat()
        }
        Call::Show { client, .. } => vec![5, byte(*client)?],
        Call::Clear => vec![0x40],
        Call::HandOver { giver, receiver } => vec![0x41, byte(*giver)?, byte(*receiver)?],
        Call::Compare { first, second } => vec![0x42, byte(*first)?, byte(*second)?],
        Call::Check => vec![0x43],
    };
    Some(to_hex(&frame))
}

/// The lines of the run that a seed gives, so many in a hundred of them followed by a spoiled one.
fn lines_of(sort: Sort, seed: u64, spoils: u64) -> Vec<u8> {
    let mut random = Random::new(seed);
    let mut lines = Vec::new();
    run_watched(sort, seed, &mut |event, _| {
        let Some(line) = line(&event.call) else {
            return;
        };
        lines.extend(line.bytes());
        lines.push(b'\n');
        if random.percent(spoils) {
            lines.extend(spoiled(line.as_bytes(), &mut random));
            lines.push(b'\n');
        }
    });
    lines
}

/// Runs of these seeds, one after the other in one process.
fn together(sort: Sort, seeds: std::ops::Range<u64>, spoils: u64) {
    let part = 1 + seeds.start as usize % 7_000;
    let input: Vec<u8> = seeds.flat_map(|seed| lines_of(sort, seed, spoils)).collect();
    agreed(&input, part);
}

#[test]
fn many_runs_in_a_process() {
    for first in (0..2_400).step_by(100) {
        together(Sort::Small, first..first + 100, 15);
    }
    for first in (2_400..2_600).step_by(50) {
        together(Sort::AnySize, first..first + 50, 15);
    }
}

#[test]
fn a_run_in_a_process() {
    for seed in 3_000..3_300 {
        together(Sort::Small, seed..seed + 1, 30);
    }
    for seed in 3_300..3_400 {
        together(Sort::AnySize, seed..seed + 1, 30);
    }
}

#[test]
fn crowded_runs() {
    for seed in 4_000..4_006 {
        together(Sort::Crowded, seed..seed + 1, 2);
    }
}

/// The input is cut off anywhere, mostly within a line.
#[test]
fn runs_cut_off() {
    let mut random = Random::new(5_000);
    for seed in 5_000..5_100 {
        let mut lines = lines_of(Sort::Small, seed, 20);
        lines.truncate(random.below(lines.len() as u64) as usize);
        agreed(&lines, 1 + random.below(5_000) as usize);
    }
}
