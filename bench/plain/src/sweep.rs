//! Questions, verdicts on regions, replies.

use crate::explore::Settled;
use crate::facts::{tighten, Fact, Wide};
use crate::nodes::{pass, Base, Overlay};
use crate::piece::Region;
use crate::program::{trace_begins, Input, Stack};

/// A question: the ranges and masks of words, and the actions that it is about.
#[derive(Clone, Debug, PartialEq, Eq)]
pub struct Question {
    pub name: String,
    pub ranges: [(u32, u32); 16],
    /// (mask, value)
    pub masks: [(u32, u32); 16],
    /// One bit for each named action and for OTHER.
    pub actions: u16,
}

/// What one region tells of one question.
#[derive(Clone, Copy, Debug, PartialEq, Eq)]
pub enum Verdict {
    Clear,
    Hit(Input),
    Doubt,
}

/// What all regions tell of a question.
#[derive(Clone, Copy, Debug, PartialEq, Eq)]
pub enum Reply {
    Never,
    Allowed(Input),
    Unsettled,
}

/// What a question asks of a word.
struct Demand {
    word: u32,
    low: u32,
    high: u32,
    zeros: u32,
    ones: u32,
}

/// A question with those words alone of which it asks something.
struct Asked {
    demands: Vec<Demand>,
}

impl Asked {
    fn of(question: &Question) -> Asked {
        let demands = (0..16)
            .filter(|&i| question.ranges[i] != (0, u32::MAX) || question.masks[i].0 != 0)
            .map(|i| Demand {
                word: i as u32,
                low: question.ranges[i].0,
                high: question.ranges[i].1,
                zeros: question.masks[i].0 & !question.masks[i].1,
                ones: question.masks[i].1,
            })
            .collect();
        Asked { demands }
    }
}

/// What verdicts take.
struct Judge<'a> {
    stack: &'a Stack,
    overlay: Overlay,
}

/// A set of questions.
type Set = [u64; 4];

fn meet(a: &mut Set, b: &Set) {
    for (a, b) in a.iter_mut().zip(b) {
        *a &= b;
    }
}

fn add(set: &mut Set, q: usize) {
    set[q / 64] |= 1 << (q % 64);
}

/// Which questions a fact of one word leaves open by its interval: those whose low end isn't
/// above it are a prefix in one order, those whose high end isn't below it a suffix in another.
struct ByWord {
    word: u32,
    lows: Vec<u32>,
    not_above: Vec<Set>,
    highs: Vec<u32>,
    not_below: Vec<Set>,
}

impl ByWord {
    fn of(word: usize, questions: &[Question]) -> ByWord {
        let sorted = |key: &dyn Fn(usize) -> u32| {
            let mut order: Vec<usize> = (0..questions.len()).collect();
            order.sort_by_key(|&q| key(q));
            order
        };
        let low = |q: usize| questions[q].ranges[word].0;
        let high = |q: usize| questions[q].ranges[word].1;
        let mut set = [0; 4];
        let by_low = sorted(&low);
        let mut not_above = vec![set];
        for &q in &by_low {
            add(&mut set, q);
            not_above.push(set);
        }
        let mut set = [0; 4];
        let by_high = sorted(&high);
        let mut not_below = vec![set];
        for &q in by_high.iter().rev() {
            add(&mut set, q);
            not_below.push(set);
        }
        not_below.reverse();
        ByWord {
            word: word as u32,
            lows: by_low.into_iter().map(low).collect(),
            not_above,
            highs: by_high.into_iter().map(high).collect(),
            not_below,
        }
    }

    /// Takes out the questions that the fact rules out.
    #[inline]
    fn narrow(&self, fact: Fact, open: &mut Set) {
        meet(open, &self.not_above[self.lows.partition_point(|&low| low <= fact.high)]);
        meet(open, &self.not_below[self.highs.partition_point(|&high| high < fact.low)]);
    }
}

impl Judge<'_> {
    /// The verdict where the region's action is one of the question's.
    fn verdict(&mut self, region: &Region, asked: &Asked) -> Verdict {
        self.overlay.start(region.nodes() as usize);
        let mut input = [0; 16];
        for demand in &asked.demands {
            let fact = region.fact(demand.word);
            let wide = fact.wide().meet(&Wide {
                low: demand.low as i64,
                high: demand.high as i64,
                zeros: demand.zeros,
                ones: demand.ones,
            });
            let Some(new) = tighten(wide, Some(demand.word), &region.excluded) else {
                return Verdict::Clear;
            };
            if new != fact {
                self.overlay.set(demand.word, new);
            }
        }
        if region.used != 0 && !pass(region, &mut self.overlay) {
            return Verdict::Clear;
        }
        for word in 0..16 {
            let fact = self.overlay.get(word).unwrap_or_else(|| region.fact(word));
            // The low end is never an excluded number.
            if !fact.fits(fact.low) {
                return Verdict::Doubt;
            }
            input[word as usize] = fact.low;
        }
        if trace_begins(self.stack, &input, &region.name.values()) {
            Verdict::Hit(input)
        } else {
            Verdict::Doubt
        }
    }
}

/// Judges all regions by all questions.
pub fn sweep(stack: &Stack, settled: &Settled, questions: &[Question]) -> Vec<Reply> {
    let asked: Vec<Asked> = questions.iter().map(Asked::of).collect();
    let by_word: Vec<ByWord> = (0..16)
        .filter(|&word| questions.iter().any(|q| q.ranges[word] != (0, u32::MAX)))
        .map(|word| ByWord::of(word, questions))
        .collect();
    let mut by_kind = [[0u64; 4]; 9];
    for (kind, set) in by_kind.iter_mut().enumerate() {
        for q in (0..questions.len()).filter(|&q| questions[q].actions >> kind & 1 == 1) {
            add(set, q);
        }
    }
    let mut judge = Judge { stack, overlay: Overlay::default() };
    let mut hits: Vec<Option<Input>> = vec![None; asked.len()];
    let mut doubts = vec![settled.open > 0; asked.len()];
    for region in &settled.regions {
        let mut open = by_kind[region.answer.kind()];
        for index in &by_word {
            if open == [0; 4] {
                break;
            }
            index.narrow(region.fact(index.word), &mut open);
        }
        for (part, &set) in open.iter().enumerate() {
            let mut left = set;
            while left != 0 {
                let q = part * 64 + left.trailing_zeros() as usize;
                left &= left - 1;
                match judge.verdict(region, &asked[q]) {
                    Verdict::Clear => {}
                    Verdict::Doubt => doubts[q] = true,
                    Verdict::Hit(input) => {
                        hits[q] = Some(input);
                        // It isn't asked again.
                        by_kind.iter_mut().for_each(|set| set[part] &= !(1 << (q % 64)));
                    }
                }
            }
        }
    }
    let reply = |(hit, is_doubtful)| match hit {
        Some(input) => Reply::Allowed(input),
        None if is_doubtful => Reply::Unsettled,
        None => Reply::Never,
    };
    hits.into_iter().zip(doubts).map(reply).collect()
}
