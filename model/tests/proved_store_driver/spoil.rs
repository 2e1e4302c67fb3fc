//! Lines that are no frame, or another than the one they are made from.

use koolvent_model::random::Random;

/// A frame's line, spoiled in some way; now and then it is still a frame.
pub fn spoiled(line: &[u8], random: &mut Random) -> Vec<u8> {
    let mut line = line.to_vec();
    let place = random.below(line.len() as u64) as usize;
    match random.below(12) {
        0 => line.make_ascii_uppercase(),
        1 => drop(line.pop()),
        2 => line.push(random.pick(b"0123456789abcdef")),
        3 => line.push(b'\r'),
        4 => line.push(0),
        5 => line.clear(),
        6 => line.truncate(place),
        7 => line.truncate(place / 2 * 2),
        8 => line[place] = random.pick(b"\0\r gG/:`AF\x7f\xff"),
        9 => line.insert(place, random.pick(b"0123456789abcdef \0")),
        10 => line.extend(b"00000000".repeat(random.below(70) as usize)),
        _ => line = noise(random),
    }
    line
}

/// Any bytes but a line end, or digits alone.
fn noise(random: &mut Random) -> Vec<u8> {
    let length = random.below(80) as usize;
    let mut line = random.bytes(length);
    if random.percent(50) {
        line.fill_with(|| random.pick(b"000123456789abcdef"));
    }
    line.retain(|byte| *byte != b'\n');
    line
}
