//! The command `run`: random cases, one table, and the smallest failing case.

use crate::check::{check, shrink, Case, Records, Seen};
use crate::damage::{draw_damaged, draw_whole};
use crate::oracle::TEXTS;
use crate::ours::Decoder;
use crate::rng::Rng;
use crate::strips::draw_strip;

/// Draws a case: whole streams, damaged streams and strips in turn.
pub fn draw_case(rng: &mut Rng) -> Case {
    match rng.below(10) {
        0..=2 => Case::Stream(draw_whole(rng)),
        3..=7 => Case::Stream(draw_damaged(rng)),
        _ => Case::Strip(draw_strip(rng)),
    }
}

/// The counts of a run.
#[derive(Debug, Clone, Default)]
pub struct Tally {
    pub cases: usize,
    pub plain: usize,
    pub guarded: usize,
    /// Accepted streams with stopped, broken and spent records, and with each of the records that
    /// meet some end.
    pub stopped: usize,
    pub broken: usize,
    pub spent: usize,
    pub records: Records,
    /// Strips in which tiles were located, and those tiles.
    pub strips: usize,
    pub tiles: usize,
    pub refused: [usize; 25],
    pub mismatches: usize,
}

impl Tally {
    fn count(&mut self, seen: Seen) {
        match seen {
            Seen::Accepted { guarded, counts, records } => {
                self.plain += !guarded as usize;
                self.guarded += guarded as usize;
                self.stopped += (counts.stopped > 0) as usize;
                self.broken += (counts.broken > 0) as usize;
                self.spent += (counts.spent > 0) as usize;
                self.records.add(&records.once());
            }
            Seen::Tiles(count) => {
                self.strips += 1;
                self.tiles += count;
            }
            Seen::Refused(number) => self.refused[number as usize] += 1,
        }
    }

    pub fn print(&self) {
        let line = |what: &str, count: usize| println!("{what:<48}{count:>9}");
        line("cases", self.cases);
        line("streams accepted, plain", self.plain);
        line("streams accepted, guarded", self.guarded);
        line("  of these with stopped records", self.stopped);
        line("    with broken records", self.broken);
        line("    with spent records", self.spent);
        self.records.lines().iter().for_each(|(what, count)| line(&format!("    {what}"), *count));
        line("strips with tiles", self.strips);
        line("  tiles in them", self.tiles);
        for number in 1..=24 {
            line(&format!("refused {number:>2}  {}", refusal_name(number)), self.refused[number as usize]);
        }
        line("mismatches", self.mismatches);
    }
}

/// The refusal in words: the original's text where it has one.
fn refusal_name(number: u64) -> &'static str {
    match number {
        1 => "no tile located",
        3 => "plane above 134,217,728 numbers",
        4 => "a lent slice too short",
        _ => TEXTS.iter().find(|t| t.1 == number).map_or("", |t| t.0),
    }
}

/// Runs `count` random cases.
pub fn run(decoder: &impl Decoder, seed: u64, count: usize) -> Outcome {
    let mut seeds = Rng::new(seed);
    check_all(decoder, (0..count).map(|_| draw_case(&mut Rng::new(seeds.word()))))
}

/// The table of a run, and the smallest failing case with what went wrong in it.
pub type Outcome = (Tally, Option<(Case, String)>);

/// Checks all cases; the first that fails is made smaller.
pub fn check_all(decoder: &impl Decoder, cases: impl Iterator<Item = Case>) -> Outcome {
    let mut tally = Tally::default();
    let mut failing: Option<Case> = None;
    for case in cases {
        tally.cases += 1;
        match check(decoder, &case) {
            Ok(seen) => tally.count(seen),
            Err(_) => {
                tally.mismatches += 1;
                failing.get_or_insert(case);
            }
        }
    }
    let smallest = failing.map(|case| shrink(decoder, &case));
    let told = smallest.map(|case| {
        let what = check(decoder, &case).err().unwrap_or_default();
        (case, what)
    });
    (tally, told)
}

#[cfg(test)]
mod tests {
    use super::*;
    use crate::check::{Case, Seen};
    use crate::oracle::{courses, Course};
    use crate::ours::mock::{Mismeasured, Misread, Mistake, Mistaken, Mock, Told};
    use crate::ours::{Decoded, Lengths, Slices};

    #[test]
    fn every_refusal_is_reached() {
        let (tally, failing) = run(&Mock, 1, 12_000);
        assert_eq!(failing, None);
        assert!(tally.plain > 100 && tally.guarded > 100 && tally.strips > 100);
        let records = [tally.stopped, tally.broken, tally.spent, tally.records.turned];
        assert!(records.iter().all(|&cases| cases > 100), "{records:?}");
        for (what, cases) in tally.records.lines() {
            assert!(cases >= 10, "{what}: {cases}");
        }
        for number in 1..=24 {
            assert!(tally.refused[number] >= 10, "number {number}: {}", tally.refused[number]);
        }
    }

    #[test]
    fn cases_depend_on_the_seed_alone() {
        let draw = |seed| draw_case(&mut Rng::new(seed));
        assert!((0..50).all(|seed| draw(seed) == draw(seed)));
        assert_ne!(draw(1), draw(2));
    }

    #[test]
    fn mistakes_are_found() {
        let mistakes: [fn(&[u8], &mut Slices, &mut Decoded); 8] = [
            |_, _, decoded| decoded.stopped = 0,
            |_, _, decoded| decoded.rows = decoded.height / 2,
            |_, _, decoded| decoded.refusal = if decoded.refusal == 11 { 18 } else { decoded.refusal },
            |stream, _, decoded| decoded.width = (decoded.refusal == 9 && stream.len() > 8) as u64,
            |_, slices, decoded| {
                slices[0].iter_mut().take(1).for_each(|g| *g ^= (decoded.refusal == 0) as i32)
            },
            |_, slices, decoded| {
                slices[3].iter_mut().take(1).for_each(|w| *w |= (decoded.refusal == 0) as i32)
            },
            |_, slices, _| slices[1].iter_mut().last().into_iter().for_each(|r| *r ^= 1),
            |_, slices, decoded| {
                slices[2].iter_mut().take((decoded.refusal > 0) as usize).for_each(|b| *b = 0)
            },
        ];
        for (i, mistake) in mistakes.into_iter().enumerate() {
            let (tally, failing) = run(&Mistaken(mistake), 5, 2000);
            let (case, what) = failing.expect("the mistake shows");
            assert!(tally.mismatches > 0 && !what.is_empty(), "mistake {i}");
            assert!(matches!(case, Case::Stream(_)));
        }
    }

    /// Counts the records of an accepted stream by another status than the first that was not 0.
    fn recount(stream: &[u8], decoded: &mut Decoded, status: fn(&Course) -> u8) {
        if decoded.refusal > 0 {
            return;
        }
        let courses = courses(stream).unwrap();
        let count = |number| courses.iter().filter(|c| status(c) == number).count() as u64;
        (decoded.broken, decoded.spent) = (count(1), count(2));
    }

    /// The status at the end decides; spent records count as broken; the first row alone decides,
    /// the others being left out or counted as spent.
    #[test]
    fn mistaken_counts_are_found() {
        let mistakes: [fn(&[u8], &mut Slices, &mut Decoded); 4] = [
            |stream, _, decoded| recount(stream, decoded, Course::last),
            |stream, _, decoded| recount(stream, decoded, |c| c.first().min(1)),
            |stream, _, decoded| recount(stream, decoded, |c| c.statuses.first().copied().unwrap_or(0)),
            |stream, _, decoded| {
                recount(stream, decoded, |c| {
                    if c.statuses.first() == Some(&1) {
                        1
                    } else {
                        c.first().min(1) * 2
                    }
                })
            },
        ];
        for (i, mistake) in mistakes.into_iter().enumerate() {
            let (tally, failing) = run(&Mistaken(mistake), 5, 2000);
            let (case, what) = failing.expect("the mistake shows");
            assert!(tally.mismatches > 20, "mistake {i}: {}", tally.mismatches);
            assert!(matches!(case, Case::Stream(_)) && what.starts_with("answer: "), "mistake {i}");
        }
        let (tally, failing) = run(&Mistaken(|s, _, d| recount(s, d, Course::first)), 5, 2000);
        assert_eq!((tally.mismatches, failing), (0, None));
    }

    /// The bits that rows take: zeros past the end too; none for the opening reads of rows after one
    /// that stops; the allowance for all; one where the stream is refused.
    #[test]
    fn mistaken_bits_are_found() {
        let mistakes: [fn(&[u8], &mut Slices, &mut Decoded); 4] = [
            |_, _, decoded| decoded.bits += decoded.spent,
            |stream, _, decoded| {
                let rows = |c: &Course| c.statuses.iter().filter(|&&status| status == 1).count() as u64;
                let after: u64 =
                    courses(stream).map_or(0, |all| all.iter().map(|c| rows(c).max(1) - 1).sum());
                decoded.bits = decoded.bits.saturating_sub(after);
            },
            |stream, _, decoded| {
                let allowances = || courses(stream).unwrap().iter().map(|c| c.allowance).sum();
                decoded.bits = if decoded.refusal == 0 { allowances() } else { 0 };
            },
            |_, _, decoded| decoded.bits = decoded.bits.max((decoded.refusal > 4) as u64),
        ];
        for (i, mistake) in mistakes.into_iter().enumerate() {
            let (tally, failing) = run(&Mistaken(mistake), 5, 2000);
            let (case, what) = failing.expect("the mistake shows");
            assert!(tally.mismatches > 100, "mistake {i}: {}", tally.mismatches);
            assert!(matches!(case, Case::Stream(_)) && what.starts_with("answer: "), "mistake {i}");
        }
    }

    /// Every case asks for some records, those of refused streams too.
    #[test]
    fn mistaken_records_are_found() {
        let mistakes: [fn(Told); 4] = [
            |told| told.4.bits += told.4.spent,
            |told| told.4.bits += (told.4.refusal == 0 && told.4.allowance == 0 && told.1 < 13) as u64,
            |told| told.4.refusal %= 18,
            |told| told.3.last_mut().into_iter().for_each(|number| *number ^= 1),
        ];
        for (i, mistake) in mistakes.into_iter().enumerate() {
            let (tally, failing) = run(&Misread(mistake), 5, 2000);
            let (case, what) = failing.expect("the mistake shows");
            assert!(tally.mismatches > 50, "mistake {i}: {}", tally.mismatches);
            assert!(matches!(case, Case::Stream(_)) && what.starts_with("Query"), "mistake {i}");
        }
    }

    #[test]
    fn mistaken_lengths_are_found() {
        let mistakes: [fn(&mut Lengths); 5] = [
            |lengths| lengths.refusal %= 3,
            |lengths| lengths.width += lengths.refusal,
            |lengths| lengths.red = lengths.green,
            |lengths| lengths.work -= 16 * lengths.width,
            |lengths| lengths.rows = lengths.height / 2,
        ];
        for (i, mistake) in mistakes.into_iter().enumerate() {
            let (tally, failing) = run(&Mismeasured(mistake), 5, 2000);
            let (_, what) = failing.expect("the mistake shows");
            assert!(tally.mismatches > 0 && what.starts_with("lengths: "), "mistake {i}");
        }
    }

    /// A locator that gives up when the table fails.
    struct NoFallback;

    impl Mistake for NoFallback {
        fn tiles(&self, strip: &[u8], count: &mut usize) {
            let by_table = strip.first().is_some_and(|&b| b > 0);
            if !by_table {
                *count = 0;
            }
        }
    }

    #[test]
    fn failing_cases_are_made_smaller() {
        let (_, failing) = run(&NoFallback, 1, 2000);
        let (case, what) = failing.expect("the mistake shows");
        assert_eq!(what, "tile count: ours 0, the original 1");
        let Case::Strip(strip) = case else { panic!("a strip") };
        assert!(strip.bytes.len() < 700);
        assert_eq!(crate::check::check(&Mock, &Case::Strip(strip)), Ok(Seen::Tiles(1)));
    }
}
