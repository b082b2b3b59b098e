//! A failed case made smaller: the case is run again and again with fewer and
//! lower draws, and a change is kept while it still fails. Generators draw sizes
//! first, and the least number makes the simplest of everything, so the smallest
//! list of draws, compared from its front, is a small case.
use crate::day_file::{self, DayFile};
use crate::draws::{Draw, Draws, Site};
use crate::failure::{Failure, Outcome};
use crate::panics::caught;
use crate::random::Random;
use std::collections::BTreeSet;
use std::ops::Range;
use std::time::{Duration, Instant};

/// The most runs of one failed case, and the most time for them.
const TRIES: usize = 4_000;
const TIME: Duration = Duration::from_secs(5);

/// Draws that a smaller case may have beyond twice as many, since what lies past
/// a day's sizes is drawn too.
const MORE_DRAWS: usize = 4_000;

pub type Test<'a> = dyn FnMut(&mut Random) -> Outcome + 'a;

/// A case that failed, with what it drew and what its last call used.
pub struct Failed {
    pub failure: Failure,
    pub draws: Draws,
    pub file: Option<DayFile>,
}

/// A smaller case that fails too, and how many runs it took to find it.
pub struct Smaller {
    pub failed: Failed,
    pub tries: usize,
}

/// Runs a case once, with all that can be noted of it: what it drew, and its
/// failure.
pub fn noted(test: &mut Test, mut random: Random) -> (Draws, Option<(Failure, Option<DayFile>)>) {
    let (outcome, file) = day_file::noted(|| caught(|| test(&mut random)));
    let outcome = outcome.unwrap_or_else(|message| Err(Failure::panicked(message)));
    (random.take_noted(), outcome.err().map(|failure| (failure, file)))
}

/// The failed case as it is, if it fails again.
pub fn failed(test: &mut Test, random: Random) -> Option<Failed> {
    let (draws, failure) = noted(test, random);
    failure.map(|(failure, file)| Failed { failure, draws, file })
}

/// The smallest case that is found within the bounds.
pub fn smallest(test: &mut Test, failed: Failed) -> Smaller {
    let most = 2 * failed.draws.len() + MORE_DRAWS;
    let end = Instant::now() + TIME;
    let mut shrinker = Shrinker { test, best: failed, most, tries: 0, end };
    shrinker.cut();
    loop {
        let before = shrinker.best.draws.clone();
        shrinker.drop_sites();
        shrinker.drop_blocks();
        shrinker.lower();
        shrinker.leave_out();
        if shrinker.is_over() || shrinker.best.draws == before {
            return Smaller { failed: shrinker.best, tries: shrinker.tries };
        }
    }
}

struct Shrinker<'a, 'b> {
    test: &'a mut Test<'b>,
    best: Failed,
    /// The most draws of a run.
    most: usize,
    tries: usize,
    end: Instant,
}

impl Shrinker<'_, '_> {
    fn is_over(&self) -> bool {
        self.tries >= TRIES || Instant::now() >= self.end
    }

    /// Runs the case with these draws, and keeps it if it is smaller and fails in
    /// the same way.
    fn keeps(&mut self, draws: &[Draw]) -> bool {
        if self.is_over() {
            return false;
        }
        self.tries += 1;
        let Some(failed) = failed(self.test, Random::replaying(draws, self.most)) else {
            return false;
        };
        let is_smaller = values(&failed.draws).lt(values(&self.best.draws));
        let is_kept = is_smaller && failed.failure.is_like(&self.best.failure);
        if is_kept {
            self.best = failed;
        }
        is_kept
    }

    /// Only a front of the draws: nothing, or ever more of them.
    fn cut(&mut self) {
        let draws = self.best.draws.clone();
        for eighths in 0..8 {
            if self.keeps(&draws[..draws.len() * eighths / 8]) {
                return;
            }
        }
    }

    /// No draws at all of many places, of few and of one.
    fn drop_sites(&mut self) {
        let sites = self.sites();
        for chunk in halves(sites.len()) {
            for part in sites.chunks(chunk) {
                let is_gone = |draw: &Draw| part.contains(&draw.site);
                let draws = &self.best.draws;
                if draws.iter().any(|draw| is_gone(draw) && !draw.is_simplest()) {
                    let draws = draws.iter().filter(|draw| !is_gone(draw)).copied();
                    self.keeps(&draws.collect::<Vec<_>>());
                }
            }
        }
    }

    /// Without, or with the least for, some of the draws of one place that follow
    /// each other.
    fn drop_blocks(&mut self) {
        for site in self.sites() {
            for chunk in halves(self.places(site).len()) {
                let mut start = 0;
                while start < self.places(site).len() && !self.is_over() {
                    let is_dropped = self.drops(site, start..start + chunk);
                    start += if is_dropped { 0 } else { chunk };
                }
            }
        }
    }

    fn drops(&mut self, site: Site, block: Range<usize>) -> bool {
        let places = self.places(site);
        let block = &places[block.start..block.end.min(places.len())];
        if block.iter().all(|&place| self.best.draws[place].is_simplest()) {
            return false;
        }
        self.keeps(&without(&self.best.draws, block)) || {
            let mut draws = self.best.draws.clone();
            block.iter().for_each(|&place| draws[place].value = draws[place].least);
            // These are still there: the next block comes after them.
            self.keeps(&draws);
            false
        }
    }

    /// Each draw as low as it goes.
    fn lower(&mut self) {
        let mut place = 0;
        while place < self.best.draws.len() && !self.is_over() {
            let Draw { least, value, .. } = self.best.draws[place];
            if value > least && !self.sets(place, least) {
                self.lower_one(place, least, value);
            }
            place += 1;
        }
    }

    /// The lowest value above another by halves: those below it are taken not to
    /// fail.
    fn lower_one(&mut self, place: usize, mut low: u64, mut high: u64) {
        while high - low > 1 && !self.is_over() {
            let middle = low + (high - low) / 2;
            if self.sets(place, middle) {
                high = middle;
            } else {
                low = middle;
            }
        }
    }

    fn sets(&mut self, place: usize, value: u64) -> bool {
        let mut draws = self.best.draws.clone();
        draws[place].value = value;
        self.keeps(&draws)
    }

    /// One less of what a draw counts: with a lower count some places draw less,
    /// and of what they drew one after the other is left out.
    fn leave_out(&mut self) {
        let mut place = 0;
        while place < self.best.draws.len() && !self.is_over() {
            let is_lower = !self.best.draws[place].is_simplest() && self.leaves_one_out(place);
            place += usize::from(!is_lower);
        }
    }

    fn leaves_one_out(&mut self, place: usize) -> bool {
        let mut draws = self.best.draws.clone();
        draws[place].value -= 1;
        self.tries += 1;
        let (fewer, _) = noted(self.test, Random::replaying(&draws, self.most));
        let counted = counted(&self.best.draws, &fewer);
        let Some(count) = counted.iter().map(|counted| counted.count).max() else {
            return false;
        };
        let ways = [(false, true), (false, false), (true, true), (true, false)];
        (0..count).any(|one| {
            ways.into_iter().any(|(is_column, is_renamed)| {
                let mut draws = left_out(&draws, &counted, (count, one), is_column);
                if is_renamed {
                    rename(&mut draws, (count, one));
                }
                self.keeps(&draws)
            })
        })
    }

    /// The places in the program that draw, in the order of their first draws.
    fn sites(&self) -> Vec<Site> {
        let mut seen = BTreeSet::new();
        let sites = self.best.draws.iter().map(|draw| draw.site);
        sites.filter(|&site| seen.insert(site)).collect()
    }

    /// Where the draws of one place stand.
    fn places(&self, site: Site) -> Vec<usize> {
        places(&self.best.draws, site)
    }
}

/// A place that draws less when something is counted one less: how many draws
/// each one has, and how many there were of them.
struct Counted {
    site: Site,
    each: usize,
    count: usize,
}

fn counted(before: &[Draw], after: &[Draw]) -> Vec<Counted> {
    let mut sites = before.iter().map(|draw| draw.site).collect::<Vec<_>>();
    sites.sort_unstable();
    sites.dedup();
    let of_site = |site: Site| {
        let all = places(before, site).len();
        let each = all.checked_sub(places(after, site).len()).filter(|&each| each > 0)?;
        all.is_multiple_of(each).then_some(Counted { site, each, count: all / each })
    };
    sites.into_iter().filter_map(of_site).collect()
}

/// The draws without those of one that is counted. They stand together, or apart
/// by the count.
fn left_out(
    draws: &[Draw],
    counted: &[Counted],
    (count, one): (usize, usize),
    is_column: bool,
) -> Draws {
    let mut gone = Vec::new();
    for own in counted.iter().filter(|own| own.count == count) {
        let places = places(draws, own.site);
        let is_gone = |place: &usize| {
            if is_column { place % count == one } else { place / own.each == one }
        };
        gone.extend((0..places.len()).filter(is_gone).map(|place| places[place]));
    }
    without(draws, &gone)
}

/// Numbers that could name one of those that are counted come down by one where
/// they are above the one that is left out.
fn rename(draws: &mut [Draw], (count, one): (usize, usize)) {
    for draw in draws {
        if draw.most == count as u64 - 1 && draw.value > one as u64 {
            draw.value -= 1;
        }
    }
}

/// The draws without those at some places.
fn without(draws: &[Draw], gone: &[usize]) -> Draws {
    let gone = gone.iter().copied().collect::<BTreeSet<_>>();
    let kept = draws.iter().enumerate().filter(|(place, _)| !gone.contains(place));
    kept.map(|(_, draw)| *draw).collect()
}

fn places(draws: &[Draw], site: Site) -> Vec<usize> {
    let own = draws.iter().enumerate().filter(|(_, draw)| draw.site == site);
    own.map(|(place, _)| place).collect()
}

fn values(draws: &[Draw]) -> impl Iterator<Item = u64> {
    draws.iter().map(|draw| draw.value)
}

/// Half of a length, half of that, and so on down to 1.
fn halves(length: usize) -> impl Iterator<Item = usize> {
    let first = length.div_ceil(2).max(1);
    std::iter::successors(Some(first), |&chunk| (chunk > 1).then(|| chunk.div_ceil(2)))
}

#[cfg(test)]
mod tests {
    use super::{failed, smallest};
    use crate::failure::{Outcome, wanted};
    use crate::random::Random;

    /// Fails where one of some numbers is above 9.
    fn one_case(random: &mut Random) -> Outcome {
        let count = random.within(0, 40);
        let numbers = (0..count).map(|_| random.below(100)).collect::<Vec<_>>();
        let is_wide = random.chance(50);
        let above = numbers.iter().any(|&number| number > 9);
        wanted(above, false, || format!("{numbers:?} {is_wide}"))
    }

    #[test]
    fn a_case_is_made_as_small_as_it_can_be() {
        for case in 0..20 {
            let random = Random::of_case(1, "numbers", case).noting();
            let Some(first) = failed(&mut one_case, random) else {
                continue;
            };
            let smaller = smallest(&mut one_case, first).failed;
            let values = smaller.draws.iter().map(|draw| draw.value).collect::<Vec<_>>();
            assert_eq!(values, [1, 10, 0], "case {case}");
        }
    }

    #[test]
    fn what_was_noted_is_drawn_again() {
        let draws = |mut random: Random| {
            let outcome = one_case(&mut random);
            (format!("{outcome:?}"), random.take_noted())
        };
        let first = draws(Random::of_case(7, "numbers", 3).noting());
        let again = draws(Random::replaying(&first.1, first.1.len()));
        assert_eq!(again, first);
    }
}
