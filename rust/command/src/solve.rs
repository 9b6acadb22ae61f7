//! `scatterflock solve`: an answer about limits.

mod as_json;
mod as_page;
mod as_text;
mod first;

use crate::clash::{self, Counted};
use crate::found::{widened, Found};
use crate::fraction::Fraction;
use crate::input::Input;
use crate::options::Options;
use crate::page::bodies::Body;
use crate::problem::{all_limits, problem, refused_words, Values};
use crate::{input, Ended, Failure, CAN, CANNOT, RANGE};
use finder::Whole;
use scatterflock::{Answer, Judgement, Problem, Verdict, WideAnswer, WideVerdict};
use std::ffi::OsStr;
use std::io::Read;
use text::limits::{Limits, Side};

pub fn run(file: &OsStr, options: &Options, stdin: &mut dyn Read) -> Result<Ended, Failure> {
    answer(input::problem(file, stdin)?, options)
}

/// The answer to what a file holds.
pub fn answer(input: Input, options: &Options) -> Result<Ended, Failure> {
    let (text, digest) = (input.text(), input.digest.clone());
    let (file, problem) = problem(input)?;
    let answer = solved(&problem, options.wide)?;
    if options.words {
        return Ok(as_words(&answer));
    }
    let shown = Shown { file, digest, text, problem, answer, with_first: options.first };
    if options.page {
        return Ok(shown.paged());
    }
    if let Some(values) = Values::of(&shown.problem, &shown.answer.verdict) {
        return Ok(if options.json { shown.can_json(values) } else { shown.can(values) });
    }
    Ok(match (&shown.answer.verdict, options.json) {
        (Some(WideVerdict::Cannot { lower, upper }), is_json) => {
            let counted = shown.counted([lower, upper]);
            let each = if options.each { Some(shown.each(&counted, options.wide)?) } else { None };
            if is_json {
                shown.cannot_json(&counted, each)
            } else {
                shown.cannot(&counted, each)
            }
        }
        (_, false) => shown.range(),
        (_, true) => shown.range_json(),
    })
}

/// The answer to a body of a day's file, for the page of all of them.
pub fn body(input: Input, words: String) -> Result<Body, Failure> {
    let (file, problem) = problem(input)?;
    let answer = solved(&problem, false)?;
    let (digest, text, with_first) = (String::new(), None, false);
    let shown = Shown { file, digest, text, problem, answer, with_first };
    let (told, line) = match &shown.answer.verdict {
        Some(WideVerdict::Cannot { lower, upper }) => {
            let counted = shown.counted([lower, upper]);
            let named = counted
                .iter()
                .filter_map(|&(variable, side, _)| shown.problem.limit_text(variable, side));
            let line = named.collect::<Vec<String>>().join(", ");
            (shown.cannot(&counted, None), line)
        }
        verdict => match Values::of(&shown.problem, verdict) {
            Some(values) => {
                let names = shown.problem.names.iter().enumerate();
                let named = names.map(|(at, name)| format!("{name} = {}", values.at(at)));
                (shown.can(values), named.collect::<Vec<String>>().join(", "))
            }
            None => (shown.range(), "a number became too large".to_string()),
        },
    };
    let (status, answer) = (told.status, String::from_utf8_lossy(&told.output).into_owned());
    let (sections, problem) = (shown.sections(), shown.problem.text());
    Ok(Body { status, words, line, sections, problem, answer })
}

/// The answer of the solver; where that is out of range and a wide one is asked
/// for, that of wide evidence.
fn solved(problem: &Limits, is_wide: bool) -> Result<Found, Failure> {
    let solved = scatterflock::solve(&problem.words());
    let answer = solved.map_err(|refusal| refused_words(problem, refusal))?;
    Found::of(problem, &answer, is_wide)
}

/// The answer's words, as bare numbers.
fn as_words(answer: &Found) -> Ended {
    let status = match answer.verdict {
        Some(WideVerdict::Can { .. }) => CAN,
        Some(WideVerdict::Cannot { .. }) => CANNOT,
        None => RANGE,
    };
    let words: Vec<String> = answer.words.iter().map(i64::to_string).collect();
    Ended::saying(words.join(" ") + "\n", status)
}

struct Shown {
    file: String,
    digest: String,
    text: Option<String>,
    problem: Limits,
    answer: Found,
    /// Whether the first violation is told too.
    with_first: bool,
}

/// For each limit of a clash the answer to the others that it names, and the
/// answer to the whole problem without that limit.
type Each = Vec<(Option<WideVerdict>, Shown)>;

impl Shown {
    /// The least amount that is too large for the small one, where there is any:
    /// with each that is less all limits hold.
    fn small_below(&self, values: Values) -> Option<Fraction> {
        let rooms = all_limits(&self.problem).into_iter().map(|at| values.room(at));
        let ends = rooms.filter(|&[_, small]| small < 0).map(|[plain, small]| (plain, -small));
        let product = |one: i128, other: i128| &Whole::from(one) * &Whole::from(other);
        let least = ends.min_by(|&(plain, small), &(others_plain, others_small)| {
            product(plain, others_small).cmp(&product(others_plain, small))
        });
        least.map(|(plain, small)| Fraction::new(plain, small))
    }

    /// An amount put for the small one, and the values with it: 1, or the first
    /// half, quarter and so on that will do. The checker has accepted them. There
    /// are none without small parts, and none where they are too large for it.
    fn example(&self, values: Values) -> Option<(Fraction, Vec<Fraction>)> {
        if values.small.iter().all(|&small| small == 0) {
            return None;
        }
        let end = self.small_below(values);
        let will_do = |over: &i128| end.is_none_or(|end| end.denominator / over < end.numerator);
        let halves = (0..31).map(|halved| 1_i128 << halved).find(will_do)?;
        let put = |(plain, small): (&i128, &i128)| plain.checked_mul(halves)?.checked_add(*small);
        let all = values.plain.iter().zip(values.small).map(put).collect::<Option<Vec<i128>>>()?;
        let over = values.over.checked_mul(halves)?;
        if !self.is_accepted(over, &all)? {
            return None;
        }
        let named = all[..self.problem.names.len()].iter();
        let over = over.checked_mul(self.problem.parts.into())?;
        let numbers = named.map(|&number| Fraction::new(number, over));
        Some((Fraction::new(1, halves), numbers.collect()))
    }

    /// Whether the checker of this answer's words accepts other values, which have
    /// no small parts. There is nothing to say where they are too large for it.
    fn is_accepted(&self, over: i128, numerators: &[i128]) -> Option<bool> {
        let words = self.problem.words();
        let small = vec![0; numerators.len()];
        let judged = if self.answer.left_range_after.is_some() {
            let verdict = WideVerdict::Can { over, numerators: numerators.to_vec(), small };
            scatterflock::check_wide(&words, &WideAnswer { pivots: 0, verdict }.evidence())
        } else {
            let narrow = |number: &i128| i64::try_from(*number).ok();
            let numerators = numerators.iter().map(narrow).collect::<Option<Vec<i64>>>()?;
            let small = vec![0; numerators.len()];
            let verdict = Verdict::Can { over: narrow(&over)?, numerators, small };
            scatterflock::check(&words, &Answer { pivots: 0, verdict }.evidence()?)
        };
        Some(judged == Ok(Judgement::Accepted))
    }

    /// The limits that count, with their multipliers.
    fn counted(&self, [lower, upper]: [&Vec<i128>; 2]) -> Vec<Counted> {
        clash::counted(&self.problem, [lower, upper])
    }

    /// For each limit that counts, the answer to the others that do, which is no
    /// "cannot", and the answer to all others.
    fn each(&self, counted: &[Counted], is_wide: bool) -> Result<Each, Failure> {
        let problem =
            Problem::from_words(&self.problem.words()).map_err(|_| Failure::Contradicted)?;
        let cannot = self.naming(counted);
        let each = counted.iter().map(|&(variable, side, _)| {
            let rest = self.problem.without(variable, side);
            let answer = solved(&rest, is_wide)?;
            let rest = Shown {
                file: String::new(),
                digest: String::new(),
                text: None,
                problem: rest,
                answer,
                with_first: false,
            };
            let side = match side {
                Side::Lower => scatterflock::Side::Lower,
                Side::Upper => scatterflock::Side::Upper,
            };
            let answer = problem.without(&cannot, variable, side);
            let others = answer.filter(|answer| !matches!(answer.verdict, Verdict::Cannot { .. }));
            Ok((widened(&others.ok_or(Failure::Contradicted)?.verdict), rest))
        });
        each.collect()
    }

    /// A "cannot" that names the same limits, each once.
    fn naming(&self, counted: &[Counted]) -> Answer {
        let [mut lower, mut upper] = [(); 2].map(|()| vec![0; self.problem.limits.len()]);
        for &(variable, side, _) in counted {
            let named = if side == Side::Lower { &mut lower } else { &mut upper };
            named[variable] = 1;
        }
        Answer { pivots: 0, verdict: Verdict::Cannot { lower, upper } }
    }
}

#[cfg(test)]
mod tests {
    use super::*;
    use problems::limits::Family;
    use problems::random::{seed, Random};
    use text::limits::Limit;

    #[test]
    fn each_amount_below_will_do() {
        let seed = seed();
        println!("SEED={seed}");
        let mut count = 0;
        for number in 0..5_000 {
            let mut random = Random::of_problem(seed, number);
            let family = random.pick(&[Family::Strict, Family::Touching]);
            let problem = Limits::from_words(&family.words(&mut random)).unwrap();
            let Ok(answer) = solved(&problem, false) else { panic!("it is answered, SEED={seed}") };
            let (file, digest) = (String::new(), String::new());
            let (text, with_first) = (None, false);
            let shown = Shown { file, digest, text, problem, answer, with_first };
            let verdict = &shown.answer.verdict;
            let Some(values) = Values::of(&shown.problem, verdict) else { continue };
            let Some(end) = shown.small_below(values) else { continue };
            let [end, over] = [end.numerator, end.denominator];
            for part in 1..8 {
                for at in all_limits(&shown.problem) {
                    let [plain, small] = values.room(at);
                    assert!(plain * 8 * over + small * part * end >= 0, "SEED={seed}");
                    let is_strict = shown.problem.limits[at.0][at.1 as usize].unwrap().is_strict;
                    assert!(!is_strict || plain * 8 * over + small * part * end > 0, "SEED={seed}");
                }
            }
            count += 1;
        }
        assert!(count > 100, "{count} have an end, SEED={seed}");
    }
    /// With one limit loosened so far the named limits can be met, and with less
    /// they cannot. All limits are taken so many times that the new one is whole;
    /// where one is out of range then, that is refused.
    #[test]
    fn loosened_so_far_and_no_less() {
        let seed = seed();
        println!("SEED={seed}");
        let [mut count, mut strict] = [0; 2];
        for number in 0..5_000 {
            let mut random = Random::of_problem(seed, number);
            let family = Family::ALL[random.below(Family::ALL.len())];
            let words = family.words(&mut random);
            let Some(problem) = Limits::from_words(&words) else { continue };
            let Ok(answer) = solved(&problem, false) else { continue };
            let Some(WideVerdict::Cannot { lower, upper }) = &answer.verdict else { continue };
            let counted = clash::counted(&problem, [lower, upper]);
            let (_, sum) = clash::added_up(&problem, &counted);
            for &limit in &counted {
                let to = clash::loosened(&problem, limit, &sum);
                let by = to.plain.denominator;
                let mut named = problem.clone();
                named.limits.fill([None; 2]);
                for &(variable, side, _) in &counted {
                    let at = problem.limits[variable][side as usize].unwrap();
                    let times = (i128::from(at.number) * by).clamp(-30_001, 30_001) as i32;
                    named.limits[variable][side as usize] = Some(Limit { number: times, ..at });
                }
                let out = if limit.1 == Side::Lower { -1 } else { 1 };
                let is_strict = to.small.numerator != 0;
                for (farther, is_over) in [(-1, false), (0, !is_strict), (1, true)] {
                    let Ok(number) = i32::try_from(to.plain.numerator + out * farther) else {
                        continue;
                    };
                    let place = &mut named.limits[limit.0][limit.1 as usize];
                    *place = place.map(|at| Limit { number, ..at });
                    let Ok(again) = solved(&named, false) else { continue };
                    let is_clash = matches!(again.verdict, Some(WideVerdict::Cannot { .. }));
                    let is_met = matches!(again.verdict, Some(WideVerdict::Can { .. }));
                    assert!(!is_met || is_over, "SEED={seed}: {words:?} {limit:?}");
                    assert!(!is_clash || !is_over, "SEED={seed}: {words:?} {limit:?}");
                    [count, strict] = [count + 1, strict + usize::from(is_strict)];
                }
            }
        }
        println!("{count} loosened, {strict} of them strict");
        assert!(count > 2_000 && strict > 100, "{count}, {strict}, SEED={seed}");
    }
}
