//! Calls the archive and the second implementation with the same inputs and compares everything that comes out.
//!
//!     calls [SEED [CALL]]     all calls, or one of them with its inputs shown
mod archive;
mod extra;
mod inputs;
mod rescues;
mod schemes;
mod stretches;
mod writes;

use archive::{GUARD, parts};
use inputs::{Case, Cases, Lock, Random, lock};
use second::{
    algorithms::ALGORITHMS,
    chaining::starting_vector,
    package::LIMIT,
    samples::units,
    schemes::{SCHEMES, Scheme},
};
use std::{collections::BTreeMap, env, process};

/// The answer of a call that comes out the same both ways, or what is wrong with it.
fn compared(case: &Case) -> Result<u16, String> {
    let before = case.call.clone();
    let (got, expected) = (case.call.by_archive(), case.call.by_second());
    let answer = (expected.word % 65_536) as u16;
    if got.word != expected.word {
        return Err(format!("{}, and not {}", parts(got.word), parts(expected.word)));
    }
    if case.answer.is_some_and(|known| known != answer) {
        return Err(format!("answer {answer} both ways, and not {}", case.answer.unwrap()));
    }
    if let Some(at) = (0..got.memory.len()).find(|&i| got.memory[i] != expected.memory[i]) {
        let (place, room) = (at as isize - GUARD as isize, case.call.room());
        return Err(format!("byte {place} of out (of {room}) is {:02x}, and not {:02x}", got.memory[at], expected.memory[at]));
    }
    if got.counts != expected.counts {
        return Err(format!("counts {:x?} with what stands beside them, and not {:x?}", got.counts, expected.counts));
    }
    if case.call != before {
        return Err("an input was changed".to_string());
    }
    Ok(answer)
}

/// What is added to block i of the largest package before it is encrypted: nothing, or the cipher block before it in its segment. There is
/// no segment after the last one, so that an extra block begins none.
fn added(l: &Lock, scheme: Scheme, stream: &[u8], i: usize) -> [u8; 16] {
    match scheme {
        Scheme::Ecb => [0; 16],
        Scheme::Chained if i % 256 == 0 && i < LIMIT / 16 => starting_vector(&l.salt, (i / 256) as u32),
        Scheme::Chained => stream[16 * i - 8..16 * i + 8].try_into().unwrap(),
    }
}

/// The stream of the largest package, sealed with that choice and opened. The second implementation checks every 509th block and, where
/// there is one, the extra block.
fn there_and_back(l: &Lock, scheme: Scheme, package: &[u8], filling: [u8; 16], extra: bool) -> Result<Vec<u8>, String> {
    let blocks = LIMIT / 16 + usize::from(extra);
    let stream = l.seal(scheme.number(), package, filling, u64::from(extra), 8 + 16 * blocks).filled()?;
    let plain = |i: usize| if i < LIMIT / 16 { package[16 * i..16 * i + 16].try_into().unwrap() } else { filling };
    let right = |i: usize| {
        let (plain, added) = (plain(i), added(l, scheme, &stream, i));
        stream[8 + 16 * i..24 + 16 * i] == l.aes.encrypt(std::array::from_fn(|j| plain[j] ^ added[j]))
    };
    if stream[..8] != (LIMIT as u64).to_le_bytes() || !(0..LIMIT / 16).step_by(509).chain(LIMIT / 16..blocks).all(right) {
        return Err(format!("the largest package is not sealed, {scheme:?}"));
    }
    l.opens_to(scheme, &stream, package)?;
    Ok(stream)
}

/// The largest package there is under a scheme, without an extra block and with it, and one byte more.
fn largest(seed: u64, scheme: Scheme) -> Result<u64, String> {
    let (mut r, number) = (Random(seed), scheme.number());
    let l = lock(&mut r, ALGORITHMS[2], units("the largest"));
    let mut package: Vec<u8> = (0..LIMIT / 8).flat_map(|_| r.next().to_le_bytes()).collect();
    let filling = r.sixteen();
    there_and_back(&l, scheme, &package, filling, false)?;
    // with the extra block a stream has as many bytes as one of a byte more
    let mut longer = there_and_back(&l, scheme, &package, filling, true)?;
    let rescued = rescues::half_of_the_largest(&l, scheme, &longer, &package)?;
    longer[0] = 1;
    package.push(0);
    let sealing = |extra: u64| l.seal(number, &package, filling, extra, 24);
    for call in [sealing(0), sealing(1), l.open(number, &longer, 24)] {
        compared(&Case { group: "the largest", call, answer: Some(14) })?;
    }
    Ok(7 + rescued)
}

/// What has come of the calls.
#[derive(Default)]
struct Tally {
    passed: u64,
    failed: u64,
    derived: u64,
    groups: BTreeMap<&'static str, u64>,
    answers: BTreeMap<u16, u64>,
}

impl Tally {
    fn fail(&mut self, what: String) {
        self.failed += 1;
        println!("FAILED {what}");
    }

    /// Where many calls fail, the first twenty are told.
    fn compare(&mut self, seed: u64, cases: &[Case]) {
        for (number, case) in cases.iter().enumerate() {
            *self.groups.entry(case.group).or_default() += 1;
            match compared(case) {
                Ok(answer) => {
                    self.passed += 1;
                    *self.answers.entry(answer).or_default() += 1;
                    self.derived += u64::from(case.call.derives(answer));
                }
                Err(what) if self.failed < 20 => self.fail(format!("seed {seed} call {number} ({}): {what}", case.group)),
                Err(_) => self.failed += 1,
            }
        }
    }

    /// Calls that go on from what others left: how many there were, or what is wrong with one.
    fn follow(&mut self, seed: u64, followed: Result<u64, String>) {
        match followed {
            Ok(calls) => self.passed += calls,
            Err(what) => self.fail(format!("seed {seed}: {what}")),
        }
    }

    /// That each answer of the library was given, and the counts.
    fn report(&mut self, seed: u64) {
        for (group, count) in &self.groups {
            println!("{count:>6} {group}");
        }
        for reply in (0..=16).chain(18..=20) {
            if !self.answers.contains_key(&reply) {
                self.fail(format!("no call was answered {reply}"));
            }
        }
        let answers: Vec<String> = self.answers.iter().map(|(answer, count)| format!("{answer}: {count}")).collect();
        println!("answers  {}", answers.join(", "));
        println!("seed {seed}, {} calls compared, {} of them derived a key", self.passed + self.failed, self.derived);
        println!("calls: {} passed, {} failed", self.passed, self.failed);
    }
}

fn main() {
    let words: Vec<u64> = env::args().skip(1).map(|w| w.parse().expect("a number")).collect();
    let seed = words.first().copied().unwrap_or(2026);
    let cases = Cases::new(seed).list;
    if let Some(&one) = words.get(1) {
        let case = &cases[one as usize];
        println!("{}: {:02x?}", case.group, case.call);
        println!("{:?}", compared(case));
        return;
    }
    let mut tally = Tally::default();
    tally.compare(seed, &cases);
    for scheme in SCHEMES {
        tally.follow(seed, largest(seed, scheme));
    }
    let follow = [extra::both_streams, schemes::both_ways, stretches::by_blocks, rescues::every_cut, writes::taken_up];
    follow.into_iter().for_each(|calls| tally.follow(seed, calls(seed)));
    tally.report(seed);
    process::exit(i32::from(tally.failed != 0));
}
