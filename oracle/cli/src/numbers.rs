//! What the gate's program `numbers_check` reads and must print: numbers by
//! this machine's own arithmetic, policies and jumps by the original.
//! oracle/README.md describes the layout.

use std::fmt::Write;

use original::Apex;

use crate::policy;
use crate::row::{Row, stirred};

const LEAD: u64 = 1 << 52;
const SIGN: u64 = 1 << 63;
/// A significand's bits.
const DIGITS: u64 = LEAD - 1;
const ONE: u64 = 1023;
/// The most numbers of one rule.
const EACH: u64 = 136;

/// How some numbers are made: the k-th is `raised(kind, (word & mask) + first)`
/// with `added + k step` added to its pattern, where word is the k-th of the
/// row after `seed`.
#[derive(Clone, Copy)]
struct Rule {
    count: u64,
    seed: u64,
    mask: u64,
    first: u64,
    kind: u64,
    added: u64,
    step: u64,
}

/// Numbers with chosen digits: zeros, 2^-1074, subnormal ones, halves, 1 and
/// its neighbours, both ends of an i32 with their neighbours and halves, 2^52,
/// 2^53, 2^63, the largest, infinities and NaNs.
const CHOSEN: [u64; 56] = [
    0x0000_0000_0000_0000,
    0x8000_0000_0000_0000,
    0x0000_0000_0000_0001,
    0x8000_0000_0000_0001,
    0x000f_ffff_ffff_ffff,
    0x800f_ffff_ffff_ffff,
    0x0010_0000_0000_0000,
    0x8010_0000_0000_0000,
    0x3fdf_ffff_ffff_ffff,
    0x3fe0_0000_0000_0000,
    0xbfe0_0000_0000_0000,
    0x3fef_ffff_ffff_ffff,
    0xbfef_ffff_ffff_ffff,
    0x3ff0_0000_0000_0000,
    0xbff0_0000_0000_0000,
    0x3ff0_0000_0000_0001,
    0xbff0_0000_0000_0001,
    0x3ff8_0000_0000_0000,
    0xbff8_0000_0000_0000,
    0x4004_0000_0000_0000,
    0xc004_0000_0000_0000,
    0x41df_ffff_ff7f_ffff,
    0x41df_ffff_ff80_0000,
    0x41df_ffff_ffa0_0000,
    0x41df_ffff_ffbf_ffff,
    0x41df_ffff_ffc0_0000,
    0x41df_ffff_ffc0_0001,
    0x41df_ffff_ffe0_0000,
    0x41df_ffff_ffff_ffff,
    0x41e0_0000_0000_0000,
    0x41e0_0000_0000_0001,
    0xc1df_ffff_ff7f_ffff,
    0xc1df_ffff_ff80_0000,
    0xc1df_ffff_ffa0_0000,
    0xc1df_ffff_ffbf_ffff,
    0xc1df_ffff_ffc0_0000,
    0xc1df_ffff_ffc0_0001,
    0xc1df_ffff_ffe0_0000,
    0xc1df_ffff_ffff_ffff,
    0xc1e0_0000_0000_0000,
    0xc1e0_0000_0000_0001,
    0xc1e0_0000_0010_0000,
    0x4330_0000_0000_0000,
    0xc330_0000_0000_0000,
    0x4340_0000_0000_0000,
    0xc340_0000_0000_0000,
    0x43e0_0000_0000_0000,
    0xc3e0_0000_0000_0000,
    0x7fef_ffff_ffff_ffff,
    0xffef_ffff_ffff_ffff,
    0x7ff0_0000_0000_0000,
    0xfff0_0000_0000_0000,
    0x7ff0_0000_0000_0001,
    0x7ff8_0000_0000_0000,
    0xfff8_0000_0000_0000,
    0xffff_ffff_ffff_ffff,
];

/// Eight significands at the ends of a binade and around its middle.
const SIGNIFICANDS: [u64; 8] = [
    0,
    1,
    2,
    LEAD / 2 - 1,
    LEAD / 2,
    LEAD / 2 + 1,
    LEAD - 2,
    LEAD - 1,
];

/// The rules so far, and the row's last word.
struct Rules {
    all: Vec<Rule>,
    word: u64,
}

impl Rules {
    /// So many numbers under a mask, from a first pattern on, by a step.
    fn add(&mut self, count: u64, mask: u64, first: u64, step: u64) {
        self.around(count, mask, first, step, 0, &[0]);
    }

    /// The same, raised, and with each of some numbers added to the pattern.
    fn around(&mut self, count: u64, mask: u64, first: u64, step: u64, kind: u64, beside: &[i64]) {
        for begin in (0..count).step_by(EACH as usize) {
            let seed = self.word;
            let count = EACH.min(count - begin);
            self.all.extend(beside.iter().map(|&beside| Rule {
                count,
                seed,
                mask,
                first,
                kind,
                added: (beside as u64).wrapping_add(begin.wrapping_mul(step)),
                step,
            }));
            self.word = (0..count).fold(seed, |word, _| stirred(word));
        }
    }
}

/// Every kind of number: oracle/README.md names them in this order.
fn rules() -> Vec<Rule> {
    let mut rules = Rules {
        all: Vec::new(),
        word: 0x2545_f491_4f6c_dd1d,
    };
    for significand in SIGNIFICANDS {
        rules.add(4096, 0, significand, LEAD);
    }
    for _ in 0..8 {
        rules.add(4096, DIGITS, 0, LEAD);
    }
    for size in 0..52 {
        rules.add(385, DIGITS >> size, 0, 0);
        rules.add(158, DIGITS >> size, size * LEAD, 52 * LEAD);
    }
    // The square of a number of 26 digits is exact; an exponent from -256 to
    // 255 makes it a square times a power of 4.
    let scale = 511 * LEAD;
    let down = (ONE - 256) * LEAD;
    rules.around(
        10_000,
        scale | DIGITS & !(DIGITS >> 25),
        down,
        0,
        1,
        &[-1, 0, 1],
    );
    rules.around(8_000, scale | DIGITS, down, 0, 2, &[-2, -1, 0, 1, 2]);
    rules.add(44_096, u64::MAX, 0, 0);
    rules.add(20_000, SIGN | 31 * LEAD | DIGITS, 1007 * LEAD, 0);
    rules.add(4_096, SIGN | 31 * LEAD | DIGITS, ONE * LEAD, 0);
    rules.add(128, SIGN | DIGITS, (ONE + 32) * LEAD, 0);
    rules.add(4_096, SIGN | 63 * LEAD | DIGITS, (ONE - 64) * LEAD, 0);
    for size in 0..33 {
        let whole = SIGN | DIGITS & !(DIGITS >> size);
        let first = (ONE + size) * LEAD;
        rules.around(42, whole, first, 0, 0, &[-1, 0, 1]);
        rules.add(125, whole, first + (LEAD >> 1 >> size), 0);
    }
    for pattern in CHOSEN {
        rules.add(1, 0, pattern, 0);
    }
    rules.all
}

/// "Every NaN as 7ff8000000000000."
fn bits(x: f64) -> u64 {
    if x.is_nan() {
        0x7ff8_0000_0000_0000
    } else {
        x.to_bits()
    }
}

fn raised(kind: u64, pattern: u64) -> u64 {
    let r = f64::from_bits(pattern);
    match kind {
        0 => pattern,
        1 => bits(r * r),
        _ => bits(r * r + r * f64::EPSILON),
    }
}

/// The answers of a rule's numbers.
fn made(rule: &Rule) -> Row {
    let mut row = Row(0);
    let [mut y, mut z] = [0.0; 2];
    let [mut word, mut added] = [rule.seed, rule.added];
    for _ in 0..rule.count {
        word = stirred(word);
        let pattern = raised(rule.kind, (word & rule.mask).wrapping_add(rule.first));
        let x = f64::from_bits(pattern.wrapping_add(added));
        added = added.wrapping_add(rule.step);
        // `root` refuses what has none, with 9.
        let refused = x.is_nan() || x.is_infinite() || x < 0.0;
        row.take(if refused { 9 } else { x.sqrt().to_bits() });
        row.take(bits(x.sqrt()));
        row.take(bits((x * x + y * y + z * z).sqrt()));
        row.take(f64::from(x.floor() as i32).to_bits());
        row.take(f64::from(x.ceil() as i32).to_bits());
        [y, z] = [x, y];
    }
    row
}

/// The program's input and its output.
pub fn files() -> (Vec<u8>, Vec<u8>) {
    let jumps = policy::jumps();
    let mut rules = rules();
    assert!(rules.len() <= jumps.len(), "a record for each rule");
    let none = Rule {
        count: 0,
        ..rules[0]
    };
    rules.resize(jumps.len(), none);
    let mut input = (jumps.len() as u16).to_le_bytes().to_vec();
    input.extend(0..=255u8);
    let mut output = String::new();
    for (place, (rule, (power, gravity))) in rules.iter().zip(jumps).enumerate() {
        let Rule {
            count,
            seed,
            mask,
            first,
            kind,
            added,
            step,
        } = *rule;
        for word in [count, seed, mask, first, kind, added, step] {
            input.extend(word.to_le_bytes());
        }
        input.extend(u64::from(power.to_bits()).to_le_bytes());
        input.extend(gravity.to_bits().to_le_bytes());
        let mut row = made(rule);
        let (passages, permissions) = policy::answers(place as u32 % 256);
        for (passage, permission) in passages.into_iter().zip(permissions) {
            row.take(passage.into());
            row.take(permission.into());
        }
        row.take(match original::jump_apex(power, gravity) {
            Apex::Height(height) => bits(height),
            Apex::Endless => 6,
        });
        let _ = writeln!(output, "{:016x}", row.0);
    }
    (input, output.into_bytes())
}
