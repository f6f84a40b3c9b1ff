//! Damage that makes a valid key or session hostile, and the words that it changes.

use crate::live::state::State;
use crate::rng::Rng;

/// Numbers that are valid in some field, or next to a limit.
const LIKELY_NUMBERS: [u32; 17] =
    [0, 1, 2, 7, 8, 12, 16, 17, 64, 512, 1024, 1025, 4160, 4168, 0xFFFF, 1 << 31, u32::MAX];

pub const WRONG_SEALS: usize = 6;

/// How a key and a session are changed.
#[derive(Clone)]
pub enum Damage {
    Random(Rng),
    /// Both structs get a wrong seal: the one with this index.
    WrongSeals(usize),
    /// Some bits are inverted.
    Inverted(Vec<Inverted>),
    Words(Vec<ChangedWord>),
}

/// Bits that are inverted in one word. Where a number is 0 in a valid struct, it becomes these bits.
#[derive(Clone, Copy)]
pub struct Inverted {
    which: Which,
    at: usize,
    bits: u64,
}

impl Inverted {
    /// Bits of the 32-bit number at this byte of the struct.
    fn number(which: Which, place: usize, bits: u32) -> Inverted {
        Inverted { which, at: place / 8, bits: u64::from(bits) << (place % 8 * 8) }
    }

    /// The set of differing bytes of the key's error: by the header, the number at byte 364.
    pub fn key_set(bits: u32) -> Inverted {
        Inverted::number(Which::Key, 364, bits)
    }

    /// The set of differing bytes of the session's error: by the header, the number at byte 456.
    pub fn session_set(bits: u32) -> Inverted {
        Inverted::number(Which::Session, 456, bits)
    }

    /// The session's spare number: by the header, the number at byte 468.
    pub fn session_spare(bits: u32) -> Inverted {
        Inverted::number(Which::Session, 468, bits)
    }

    /// The edition of the memory's domain in the key and in the session: by the header, the number at byte 304 of the
    /// key, and the session's own key begins at byte 8.
    pub fn memory_edition(bits: u32) -> [Inverted; 2] {
        [Inverted::number(Which::Key, 304, bits), Inverted::number(Which::Session, 8 + 304, bits)]
    }

    /// The edition of the wire's domain in both structs: by the header, the number at byte 332 of the key.
    pub fn wire_edition(bits: u32) -> [Inverted; 2] {
        [Inverted::number(Which::Key, 332, bits), Inverted::number(Which::Session, 8 + 332, bits)]
    }
}

#[derive(Clone)]
pub struct ChangedWord {
    which: Which,
    at: usize,
    word: u64,
}

#[derive(Clone, Copy)]
enum Which {
    Key,
    Session,
}

impl Damage {
    /// The words that are changed; none are known before they are drawn.
    pub fn words(&self) -> &[ChangedWord] {
        match self {
            Damage::Words(words) => words,
            Damage::Random(_) | Damage::WrongSeals(_) | Damage::Inverted(_) => &[],
        }
    }

    /// Returns the words that it changes in this key and session.
    pub fn drawn(&self, mut state: State) -> Vec<ChangedWord> {
        let (key, session) = (state.key, state.session);
        self.apply(&mut state);
        let of_key = changed_words(Which::Key, &key.words, &state.key.words);
        of_key.chain(changed_words(Which::Session, &session.words, &state.session.words)).collect()
    }

    pub fn apply(&self, state: &mut State) {
        let State { key, session, .. } = state;
        let (key_seal, session_seal) = (key.words[0], session.words[0]);
        match self {
            Damage::Random(rng) => damage_structs(&mut rng.clone(), &mut key.words, &mut session.words),
            Damage::WrongSeals(wrong) => {
                key.words[0] = wrong_seals(key_seal, session_seal)[*wrong];
                session.words[0] = wrong_seals(session_seal, key_seal)[*wrong];
            }
            Damage::Inverted(inverted) => {
                for &Inverted { which, at, bits } in inverted {
                    match which {
                        Which::Key => key.words[at] ^= bits,
                        Which::Session => session.words[at] ^= bits,
                    }
                }
            }
            Damage::Words(words) => {
                for &ChangedWord { which, at, word } in words {
                    match which {
                        Which::Key => key.words[at] = word,
                        Which::Session => session.words[at] = word,
                    }
                }
            }
        }
    }
}

impl ChangedWord {
    pub fn text(&self) -> String {
        let name = match self.which {
            Which::Key => "key",
            Which::Session => "session",
        };
        format!("{name} word {} is {:#x}", self.at, self.word)
    }
}

fn changed_words<'a>(which: Which, from: &'a [u64], to: &'a [u64]) -> impl Iterator<Item = ChangedWord> + 'a {
    let words = from.iter().zip(to).enumerate().filter(|(_, (from, to))| from != to);
    words.map(move |(at, (_, &word))| ChangedWord { which, at, word })
}

/// Damages the key, the session or both.
fn damage_structs(rng: &mut Rng, key: &mut [u64], session: &mut [u64]) {
    let (key_seal, session_seal) = (key[0], session[0]);
    let which = rng.below(3);
    if which != 0 {
        damage(rng, key, session_seal);
    }
    if which != 1 {
        damage(rng, session, key_seal);
    }
}

/// Damages a struct, whose first word is the seal.
fn damage(rng: &mut Rng, words: &mut [u64], other_seal: u64) {
    match rng.below(8) {
        0 => words.fill_with(|| rng.number()),
        1 => words[1..].fill_with(|| rng.number()),
        2 => words[1..].fill_with(|| likely_word(rng)),
        3 => words[0] = rng.pick(&wrong_seals(words[0], other_seal)),
        way => {
            for _ in 0..rng.between(1, 3) {
                let at = some_place(rng, words);
                let bits = if way < 6 { 1 << rng.below(64) } else { 0xFFFF_FFFF << rng.pick(&[0, 32]) };
                let word = if way < 6 { !words[at] } else { likely_word(rng) };
                words[at] = words[at] & !bits | word & bits;
            }
        }
    }
}

fn wrong_seals(seal: u64, other_seal: u64) -> [u64; WRONG_SEALS] {
    [0, u64::MAX, other_seal, seal ^ 1, seal ^ 1 << 63, seal.swap_bytes()]
}

/// Returns the place of some word, preferably of one that isn't zero: most entries of a key's layout are unused.
fn some_place(rng: &mut Rng, words: &[u64]) -> usize {
    let places: Vec<usize> = (0..words.len()).collect();
    let in_use: Vec<usize> = places.iter().copied().filter(|&at| words[at] != 0).collect();
    if in_use.is_empty() || rng.percent(30) {
        rng.pick(&places)
    } else {
        rng.pick(&in_use)
    }
}

fn likely_word(rng: &mut Rng) -> u64 {
    u64::from(rng.pick(&LIKELY_NUMBERS)) << 32 | u64::from(rng.pick(&LIKELY_NUMBERS))
}
