//! Changes of a sound call, byte by byte.
use crate::call::{Call, Name, Numbers};
use crate::day::{CHOICES, CHOOSERS, CONSTRAINTS, GROUPS, MOST_PREFERENCE, SLOTS};
use crate::random::Random;

/// The most bytes of a slice.
pub const MOST_BYTES: usize = 49_152;

/// None, one or a few changes, or now and then nothing but random bytes.
pub fn some(random: &mut Random, call: &mut Call) {
    if random.chance(3) {
        call.slices.iter_mut().for_each(|slice| scramble(random, slice));
        renumber(random, &mut call.numbers);
        if random.chance(30) {
            call.slices.iter_mut().for_each(|slice| resize(random, slice));
        }
    }
    for _ in 0..random.pick(&[0, 0, 1, 1, 1, 1, 2, 3]) {
        let place = place(random, call);
        let slice = &mut call.slices[place];
        match random.below(20) {
            0..11 => overwrite(random, slice),
            11..16 => resize(random, slice),
            16..18 => scramble(random, slice),
            _ => renumber(random, &mut call.numbers),
        }
    }
}

/// The place of a slice. What stands in one that is only written makes no
/// difference.
fn place(random: &mut Random, call: &Call) -> usize {
    let all = (0..call.slices.len()).collect::<Vec<_>>();
    let is_read = |place: &usize| !call.writes(call.slices[*place].0);
    let read = all.iter().copied().filter(is_read).collect::<Vec<_>>();
    let is_any = random.chance(20);
    random.pick(if is_any { &all } else { &read })
}

/// A few bytes become any, small ones, or the next ones.
fn overwrite(random: &mut Random, (name, bytes): &mut (Name, Vec<u8>)) {
    if bytes.is_empty() {
        return;
    }
    for _ in 0..random.within(1, 4) {
        let place = byte(random, *name, bytes);
        let (any, own) = (random.bits() as u8, bytes[place]);
        let next = random.pick(&[own.wrapping_add(1), own.wrapping_sub(1)]);
        bytes[place] = random.pick(&[any, any & 7, next, next]);
    }
}

/// The place of any byte, of a flag, of a size, or of a byte that is not 0.
fn byte(random: &mut Random, name: Name, bytes: &[u8]) -> usize {
    let any = random.below(bytes.len());
    let sizes = 28.min(bytes.len());
    let flags = || name.layout().iter().flat_map(|layout| layout.flags()).collect::<Vec<_>>();
    let place = match random.below(4) {
        0 => random.pick_some(&flags()),
        1 => Some(random.below(sizes) / name.size() * name.size()),
        2 => (any..bytes.len()).find(|&place| bytes[place] != 0),
        _ => None,
    };
    place.filter(|&place| place < bytes.len()).unwrap_or(any)
}

/// A length around the own one, twice as long, or next to nothing.
fn resize(random: &mut Random, (name, bytes): &mut (Name, Vec<u8>)) {
    let length = bytes.len() / name.size();
    let shorter = [length.saturating_sub(2), length.saturating_sub(1)];
    let new = random.pick(&[shorter[0], shorter[1], length + 1, length + 2, 2 * length, 1, 0]);
    bytes.resize_with((new * name.size()).min(MOST_BYTES), || random.bits() as u8);
}

/// Random bytes: any, small ones, or few among zeros. A day may keep to its limits
/// so that more of it is read.
fn scramble(random: &mut Random, (name, bytes): &mut (Name, Vec<u8>)) {
    let mask = random.pick(&[0xFF, 0xFF, 7, 1]);
    let rate = random.pick(&[100, 100, 10, 1]);
    for byte in bytes.iter_mut() {
        *byte = if random.chance(rate) { random.bits() as u8 & mask } else { 0 };
    }
    if *name == Name::Day && bytes.len() >= 28 && random.chance(60) {
        let most =
            [CHOOSERS, CHOICES, SLOTS, MOST_PREFERENCE as usize, CONSTRAINTS, CONSTRAINTS, GROUPS];
        for (size, most) in bytes.chunks_exact_mut(4).zip(most) {
            size.copy_from_slice(&(random.below(most + 1) as u32).to_le_bytes());
        }
    }
}

/// Any numbers, some of which look small in their low bits.
fn renumber(random: &mut Random, numbers: &mut Numbers) {
    let mut word = |own: u32| {
        let any = random.bits() as u32;
        random.pick(&[own, own, 0, 1, 2, 255, 256, 256 + own, 1 << 31, u32::MAX, any])
    };
    let Numbers { limit, bound, greedy, result, solution, .. } = *numbers;
    let [limit, bound, greedy, result, solution] =
        [limit, bound, greedy, result, solution].map(|own| word(own % 256));
    let mut size = |own: usize| {
        random.pick(&[own, own, 0, 31, 32, 63, 64, 65, 256 + own, (1 << 32) + own, usize::MAX])
    };
    let Numbers { chooser, choice, slot, count, .. } = *numbers;
    let [chooser, choice, slot, count] = [chooser, choice, slot, count].map(|own| size(own % 256));
    *numbers = Numbers { limit, bound, greedy, result, solution, chooser, choice, slot, count };
}
