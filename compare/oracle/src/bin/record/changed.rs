//! Our own libraries with words changed: hostile numbers wherever they may stand, and other references in the place of
//! theirs.

use crate::libraries::Library;
use bounded::inputs::damage::Victim;
use bounded::random::Random;

const SEED: u64 = 0x5446_534D_0001_0000;

/// How many changed libraries to make, and how many words to change in each.
const LIBRARIES: usize = 10;
const CHANGES: usize = 24;

/// How many libraries to make with other references.
const WITH_OTHER_REFERENCES: usize = 10;

/// The longest library to change.
const LONGEST: usize = 3300;

/// Words that are small offsets, the edges of signed numbers, or near them.
const WORDS: [u32; 10] = [
    0,
    1,
    24,
    100,
    0x0001_0002,
    0x0000_FFFF,
    0x0100_0001,
    0x7FFF_FFFF,
    0x8000_0000,
    0xFFFF_FFFF,
];

pub fn all(own: &[Vec<u8>]) -> Vec<Library> {
    let mut random = Random::new(SEED);
    let short: Vec<&[u8]> = own
        .iter()
        .map(Vec::as_slice)
        .filter(|bytes| bytes.len() < LONGEST)
        .collect();
    let mut libraries: Vec<Library> = (0..LIBRARIES)
        .map(|_| Library::new(changed(random.one_of(&short), &mut random), Vec::new()))
        .collect();
    let victims = short
        .iter()
        .map(|bytes| Victim::new("ours".into(), bytes.to_vec()));
    let victims: Vec<Victim> = victims.filter(Victim::has_references).collect();
    libraries.extend((0..WITH_OTHER_REFERENCES).map(|_| {
        let victim = &victims[random.below(victims.len())];
        Library::asked(victim.with_other_references(&mut random), Vec::new())
    }));
    libraries
}

/// The library with some bytes and words changed behind its count of typeinfos, and now and then its
/// end cut off.
fn changed(bytes: &[u8], random: &mut Random) -> Vec<u8> {
    let mut bytes = bytes.to_vec();
    for _ in 0..CHANGES {
        let at = 0x24 + random.below(bytes.len() - 0x28);
        if random.below(2) == 0 {
            bytes[at] = random.number() as u8;
        } else {
            let at = at / 4 * 4;
            let word = random.one_of(&WORDS);
            bytes[at..at + 4].copy_from_slice(&word.to_le_bytes());
        }
    }
    if random.below(3) == 0 {
        let kept = bytes.len() - random.below(bytes.len() / 4);
        bytes.truncate(kept);
    }
    bytes
}
