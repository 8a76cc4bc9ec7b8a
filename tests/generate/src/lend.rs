//! What a caller lends: cells, schedules, workspaces, lists, bytes and names to ask for; and orders for what a plan
//! says.

use crate::rng::Rng;

/// Cells that have nothing to do with the loop: small, wide or extreme values.
pub fn cells(rng: &mut Rng, count: usize) -> Vec<i32> {
    let style = rng.below(4);
    (0..count)
        .map(|_| match style {
            0 => rng.between(-3, 9) as i32,
            1 => rng.bits() as i32,
            2 => extreme(rng),
            _ => rng.between(1, 4) as i32,
        })
        .collect()
}

/// A value near one of the ends of its range, or near 0.
pub fn extreme(rng: &mut Rng) -> i32 {
    let middle = rng.pick(&[
        i32::MIN,
        i32::MAX,
        0,
        i32::MIN / 2,
        i32::MAX / 2,
        46341,
        -46341,
    ]);
    middle.wrapping_add(rng.between(-2, 2) as i32)
}

/// A schedule for `processors`: empty, short, long, one processor alone, or skewed to one. All its
/// bytes are below `processors`; a long one has bytes for finished processors.
pub fn schedule(rng: &mut Rng, processors: usize) -> Vec<u8> {
    let length = match rng.below(6) {
        0 => 0,
        1 => 1 + rng.below(4),
        2 | 3 => rng.below(40),
        4 => rng.below(200),
        _ => 200 + rng.below(600),
    };
    let favourite = rng.below(processors);
    let skew = rng.pick(&[0, 0, 50, 90, 100]);
    (0..length)
        .map(|_| {
            if rng.chance(skew) {
                favourite as u8
            } else {
                rng.below(processors) as u8
            }
        })
        .collect()
}

/// A schedule in which processors take turns from the last to the first, `rounds` times.
pub fn backward_turns(processors: usize, rounds: usize) -> Vec<u8> {
    (0..rounds)
        .flat_map(|_| (0..processors as u8).rev())
        .collect()
}

/// A workspace with anything in it.
pub fn workspace(rng: &mut Rng, length: usize) -> Vec<u32> {
    (0..length).map(|_| rng.bits() as u32).collect()
}

/// A list with anything in it.
pub fn list(rng: &mut Rng, length: usize) -> Vec<u16> {
    (0..length).map(|_| rng.bits() as u16).collect()
}

/// Bytes with anything in them.
pub fn bytes(rng: &mut Rng, length: usize) -> Vec<u8> {
    (0..length).map(|_| rng.bits() as u8).collect()
}

/// How many bytes are lent where so many are needed: often as many, or one less or more.
pub fn room(rng: &mut Rng, needed: usize) -> usize {
    match rng.below(8) {
        0 => needed.saturating_sub(1),
        1 => rng.below(needed + 1),
        2 => 0,
        3 => needed + 1,
        4 => needed + rng.below(300),
        5 => needed.max(65_535),
        _ => needed,
    }
}

/// An order of iterations that have these stages: the stages in turn, the iterations of each in any order.
pub fn order(rng: &mut Rng, stages: &[u16]) -> Vec<u32> {
    let mut order: Vec<u32> = (0..stages.len() as u32).collect();
    rng.shuffle(&mut order);
    order.sort_by_key(|&iteration| stages[iteration as usize]);
    order
}

/// Bytes to ask for as a name, and what stands behind them in memory.
pub type Asked = (Vec<u8>, Vec<u8>);

/// What to ask of a text with these names: each name as it is, in upper case and in a mixture, a beginning of it
/// with the rest behind, and it with a byte more and with another; words of the text and a piece of it; any bytes,
/// now and then many, and none.
pub fn asked(rng: &mut Rng, text: &[u8], names: &[&str]) -> Vec<Asked> {
    let alone = |name: &[u8]| (name.to_vec(), Vec::new());
    let mut asked = vec![alone(b"")];
    for name in names.iter().map(|name| name.as_bytes()) {
        asked.push(alone(name));
        asked.push(alone(&name.to_ascii_uppercase()));
        asked.push(alone(&mixed_case(rng, name)));
        let place = rng.below(name.len());
        asked.push((name[..place].to_vec(), name[place..].to_vec()));
        asked.push(alone(&[name, &[any_byte(rng)]].concat()));
        let mut other = name.to_vec();
        other[place] = match rng.chance(50) {
            true => other[place] ^ (1 << rng.below(8)),
            false => any_byte(rng),
        };
        asked.push(alone(&other));
    }
    let is_word = |byte: &u8| byte.is_ascii_alphanumeric() || *byte == b'_';
    let words = text.split(|byte| !is_word(byte));
    let words: Vec<&[u8]> = words.filter(|word| !word.is_empty()).collect();
    if !words.is_empty() {
        asked.extend((0..3).map(|_| alone(rng.pick(&words))));
    }
    let (_, piece) = text.split_at(rng.below(text.len() + 1));
    let (piece, after) = piece.split_at(rng.below(piece.len().min(40) + 1));
    asked.push((piece.to_vec(), after.to_vec()));
    let length = if rng.chance(3) { 3000 } else { rng.below(40) };
    let bytes: Vec<u8> = (0..length).map(|_| rng.bits() as u8).collect();
    asked.push(alone(&bytes));
    asked
}

fn mixed_case(rng: &mut Rng, name: &[u8]) -> Vec<u8> {
    let raised = |byte: &u8| match rng.chance(50) {
        true => byte.to_ascii_uppercase(),
        false => *byte,
    };
    name.iter().map(raised).collect()
}

/// A byte, mostly one that names are made of or that stands beside them.
fn any_byte(rng: &mut Rng) -> u8 {
    match rng.below(4) {
        0 => rng.bits() as u8,
        1 => rng.pick(b" \n\t(),:=\0\xff"),
        _ => rng.pick(b"abcdekstxyzABXYZ0129_"),
    }
}
