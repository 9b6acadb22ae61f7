//! The typed face over the archive: every verdict, every refusal, every text.

use problems::draft::{at_least, Draft, FREE};
use problems::limits::Family;
use problems::published::published;
use problems::random::{seed, Random};
use problems::sessions::{self, Operation, Reply};
use problems::strict::with_marks;
use problems::worked::{self, time_words, TimesAnswer};
use scatterflock::sizes::{LARGEST_NUMBER, LARGEST_SMALL, MOST_ANSWER, MOST_TIMES, MOST_WORDS};
use scatterflock::{check, solve, times};
use scatterflock::{
    Fractions, Judgement, Limit, Problem, Refusal, Schedule, Session, Side, SwitchRefusal, Time,
    TimesRefusal, Verdict,
};

#[test]
fn worked_cases_and_published_problems() {
    for case in worked::limits().into_iter().chain(published()) {
        let answer = solve(&case.words).unwrap();
        assert_eq!(i64::from(answer.verdict.number()), case.answer[0], "{}", case.name);
        match answer.evidence() {
            Some(evidence) => {
                assert_eq!(evidence, case.answer, "{}", case.name);
                assert_eq!(check(&case.words, &evidence), Ok(Judgement::Accepted));
            }
            None => assert_eq!(answer.verdict, Verdict::OutOfRange, "{}", case.name),
        }
    }
    for case in worked::times() {
        match (times(&case.words).unwrap(), case.answer) {
            (Schedule::Times(times), TimesAnswer::Times { minutes, small }) => {
                let parts = times.iter().map(|time| (time.minutes, time.small));
                assert!(parts.eq(minutes.into_iter().zip(small)), "{}", case.name);
            }
            (Schedule::Cycle(rows), TimesAnswer::Cycle(expected)) => {
                assert_eq!(rows.len(), expected.len())
            }
            (other, _) => panic!("{}: {other:?}", case.name),
        }
    }
}

#[test]
fn answers_of_every_length() {
    for (n, m) in (1..=8).flat_map(|n| (0..=24).map(move |m| (n, m))) {
        let rows = vec![&[1; 8][..n]; m];
        let answer = solve(&Draft::new(n, &rows, &vec![FREE; n + m]).words()).unwrap();
        let (numerators, small) = (vec![0; n + m], vec![0; n + m]);
        assert_eq!(answer.verdict, Verdict::Can { over: 1, numerators, small });
    }
    for n in 1..=64 {
        let mut rows: Vec<[i32; 4]> = (1..n).map(|vertex| [vertex - 1, vertex, 0, -1]).collect();
        let chain = times(&time_words(n as usize, &rows)).unwrap();
        let whole = |minutes| Time { minutes, small: 0 };
        assert_eq!(chain, Schedule::Times((0..i64::from(n)).map(whole).collect()));
        rows.push([n - 1, 0, 0, -1]);
        let ring = times(&time_words(n as usize, &rows)).unwrap();
        let Schedule::Cycle(mut listed) = ring else { panic!("{n} vertices: {ring}") };
        listed.sort();
        assert_eq!(listed, (0..n as usize).collect::<Vec<usize>>());
    }
}

/// One free variable, and one row.
fn row_words(coefficient: i32, limits: [i32; 3]) -> Vec<i32> {
    Draft::new(1, &[&[coefficient]], &[FREE, limits]).words()
}

#[test]
fn every_refusal() {
    let row = |coefficient, limits| solve(&row_words(coefficient, limits));
    assert_eq!(solve(&[1]), Err(Refusal::FewWords));
    assert_eq!(solve(&[0, 0]), Err(Refusal::Sizes));
    assert_eq!(solve(&[1, 0]), Err(Refusal::Length));
    assert_eq!(row(1_001, FREE), Err(Refusal::Coefficient));
    assert_eq!(row(1, [4, 0, 0]), Err(Refusal::Kind));
    assert_eq!(row(1, at_least(30_001)), Err(Refusal::Limit));
    assert_eq!(row(0, at_least(1)), Err(Refusal::BlankRow));
    assert_eq!(check(&[1, 0, 0, 0, 0], &[1, 0, 1, 0]), Err(Refusal::Short));
    let row = |row| times(&time_words(2, &[row]));
    assert_eq!(times(&[1]), Err(TimesRefusal::FewWords));
    assert_eq!(times(&[65, 0]), Err(TimesRefusal::Sizes));
    assert_eq!(times(&[1, 1]), Err(TimesRefusal::Length));
    assert_eq!(row([0, 2, 0, 0]), Err(TimesRefusal::Vertex));
    assert_eq!(row([0, 1, 2, 0]), Err(TimesRefusal::Strict));
    assert_eq!(row([0, 1, 0, 30_001]), Err(TimesRefusal::Bound));
}

#[test]
fn numbers_and_texts_of_refusals() {
    for (refusal, number) in Refusal::ALL.iter().copied().zip([1, 2, 3, 4, 5, 6, 10, 7]) {
        assert_eq!(refusal.number(), number);
        assert_eq!(Refusal::try_from(number), Ok(refusal));
    }
    for (refusal, number) in TimesRefusal::ALL.iter().copied().zip(11..) {
        assert_eq!(refusal.number(), number);
        assert_eq!(TimesRefusal::try_from(number), Ok(refusal));
    }
    assert_eq!([0, 8, 9, 11].map(Refusal::try_from), [Err(0), Err(8), Err(9), Err(11)]);
    assert_eq!([10, 18].map(TimesRefusal::try_from), [Err(10), Err(18)]);
    assert_eq!(
        Refusal::Kind.to_string(),
        "a kind of limit is not from 0 to 15, or marks a missing limit as strict"
    );
    assert_eq!(TimesRefusal::Short.to_string(), "there is no room for a whole answer");
}

/// The ranges "A to B" in a text.
fn ranges(text: &str) -> Vec<[i32; 2]> {
    let number = |word: &str| word.replace(',', "").parse().expect("it is a number");
    let words: Vec<&str> = text.split(' ').collect();
    let told = words.windows(3).filter(|three| three[1] == "to");
    told.map(|three| [three[0], three[2]].map(number)).collect()
}

/// For each range in the refusal's text, words that have a number there.
type Spots = Vec<fn(i32) -> Vec<i32>>;

/// The text tells one range for each spot, and just the numbers beyond it are
/// refused so.
fn tells_its_ranges(text: &str, spots: Spots, is_refused: impl Fn(&[i32]) -> bool) {
    let told = ranges(text);
    assert_eq!(told.len(), spots.len(), "{text}");
    for ([low, high], spot) in told.into_iter().zip(spots) {
        let refused = [low - 1, low, high, high + 1].map(|number| is_refused(&spot(number)));
        assert_eq!(refused, [true, false, false, true], "{text}");
    }
}

#[test]
fn ranges_in_texts_of_refusals() {
    for &refusal in Refusal::ALL {
        let spots: Spots = match refusal {
            Refusal::Sizes => vec![|n| vec![n, 0], |m| vec![1, m]],
            Refusal::Coefficient => vec![|coefficient| row_words(coefficient, FREE)],
            Refusal::Kind => vec![|kind| row_words(1, [kind, 0, 0])],
            Refusal::Limit => vec![|limit| row_words(1, at_least(limit))],
            _ => vec![],
        };
        tells_its_ranges(&refusal.to_string(), spots, |words| solve(words) == Err(refusal));
    }
    for &refusal in TimesRefusal::ALL {
        let spots: Spots = match refusal {
            TimesRefusal::Sizes => vec![|n| vec![n, 0], |m| vec![1, m]],
            TimesRefusal::Bound => vec![|bound| time_words(2, &[[0, 1, 0, bound]])],
            _ => vec![],
        };
        tells_its_ranges(&refusal.to_string(), spots, |rows| times(rows) == Err(refusal));
    }
}

#[test]
fn texts_of_answers() {
    let text = |words: &[i32]| solve(words).unwrap().to_string();
    assert_eq!(text(&worked::case_a().words), "can, after 2 pivots: 3/3, 3/3, 6/3, 3/3, 3/3");
    let one = Draft::new(1, &[&[2]], &[FREE, at_least(1)]).words();
    assert_eq!(text(&one), "can, after 1 pivot: 1/2, 2/2");
    assert_eq!(text(&[1, 0, 3, 1, 0]), "cannot, after 0 pivots: 1 x lower 0, 1 x upper 0");
    let range = published().into_iter().find(|case| case.answer[0] == 3).unwrap();
    assert_eq!(text(&range.words), "out of range, after 2 pivots");
    assert_eq!(text(&[1, 0, 10, 0, 0]), "can, after 0 pivots: 0/1 and -1/1 small");
    assert_eq!(text(&[1, 0, 7, 5, 5]), "cannot, after 0 pivots: 1 x lower 0, 1 x upper 0");
    let cycle = times(&time_words(1, &[[0, 0, 1, 0]])).unwrap();
    assert_eq!(cycle.to_string(), "no times: rows 0 go round below 0");
    assert_eq!(Judgement::Rejected.to_string(), "not accepted");
}

#[test]
fn clashes_say_that_each_limit_is_needed() {
    let clash = |words: &[i32]| solve(words).unwrap().clash();
    for words in [[1, 0, 3, 1, 0], [1, 0, 7, 5, 5]] {
        assert_eq!(
            clash(&words).unwrap(),
            "1 x lower 0, 1 x upper 0: each is needed, drop any one and the others can be met"
        );
    }
    for case in published() {
        assert_eq!(clash(&case.words).is_some(), case.answer[0] == 2, "{:?}", case.words);
    }
}

#[test]
fn strangers_may_name_limits_for_nothing() {
    let crossed = [3, 1, 0];
    let words = Draft::new(2, &[], &[crossed, crossed]).words();
    let mut stranger = solve(&words).unwrap();
    stranger.verdict = Verdict::Cannot { lower: vec![1, 1], upper: vec![1, 1] };
    assert_eq!(check(&words, &stranger.evidence().unwrap()), Ok(Judgement::Accepted));
    assert_eq!(
        stranger.to_string(),
        "cannot, after 0 pivots: 1 x lower 0, 1 x upper 0, 1 x lower 1, 1 x upper 1"
    );
}

#[test]
fn fractions_meet_strict_rows() {
    for n in 2..=64 {
        let mut rows: Vec<[i32; 4]> = (1..n).map(|to| [to - 1, to, 1, 0]).collect();
        rows.push([n - 1, 0, 1, 1]);
        let schedule = times(&time_words(n as usize, &rows)).unwrap();
        let small: Vec<Time> = (0..i64::from(n)).map(|small| Time { minutes: 0, small }).collect();
        assert_eq!(schedule, Schedule::Times(small));
        let fractions = schedule.fractions().unwrap();
        assert_eq!(fractions.over, i64::from(n));
        for [x, y, _, c] in rows {
            let [x, y] = [x, y].map(|vertex| fractions.numerators[vertex as usize]);
            assert!(x - y < i64::from(c) * fractions.over);
        }
    }
    let row = [0, 1, 0, -3];
    let whole = times(&time_words(2, &[row])).unwrap().fractions().unwrap();
    assert_eq!((whole.numerators, whole.over), (vec![0, 3], 1));
    let half = times(&time_words(2, &[[0, 1, 1, 1], [1, 0, 1, 0]])).unwrap();
    assert_eq!(half.to_string(), "times 0 and 1 small, 0");
    assert_eq!(times(&time_words(1, &[[0, 0, 1, 0]])).unwrap().fractions(), None);
}

/// Whether the fractions meet a problem, its strict limits strictly.
fn are_met(problem: &Problem, fractions: &Fractions<i128>) -> bool {
    let Fractions { numerators, over } = fractions;
    let sums = problem.rows().iter().map(|row| {
        row.iter().zip(numerators).map(|(&coefficient, value)| i128::from(coefficient) * value)
    });
    let sums: Vec<i128> = sums.map(Iterator::sum).collect();
    let met = |limit: Option<Limit>, far: i128| {
        limit.is_none_or(|limit| if limit.is_strict { far > 0 } else { far >= 0 })
    };
    numerators[problem.variables()..] == sums
        && numerators.iter().enumerate().all(|(variable, value)| {
            let limits = problem.limits(variable);
            let far = limits.map(|limit| limit.map_or(0, |l| value - over * i128::from(l.number)));
            met(limits[0], far[0]) && met(limits[1], -far[1])
        })
}

#[test]
fn fractions_meet_strict_limits() {
    let seed = seed();
    println!("SEED={seed}");
    let mut small = 0;
    for problem in 0..20_000 {
        let mut random = Random::of_problem(seed, problem);
        let family = random.pick(&Family::UNMARKED);
        let plain = family.words(&mut random);
        let words = with_marks(&mut random, &plain);
        let problem = Problem::from_words(&words).unwrap();
        let answer = problem.solve();
        let Some(fractions) = answer.fractions() else { continue };
        assert!(are_met(&problem, &fractions), "SEED={seed}: {words:?}, {answer}");
        small += usize::from(fractions.over > i128::from(LARGEST_NUMBER));
    }
    println!("{small} with small parts");
    assert!(small > 500, "{small} with small parts, SEED={seed}");
}

#[test]
fn fractions_of_worked_cases() {
    let fractions = |words: &[i32]| solve(words).unwrap().fractions().unwrap();
    let plain = fractions(&worked::case_a().words);
    assert_eq!((plain.numerators, plain.over), (vec![3, 3, 6, 3, 3], 3));
    // 0 < 2x + 3y < 1 and 3x - 2y > 0: small parts 1 0 2 3 over 2
    let rows: [&[i32]; 2] = [&[2, 3], &[3, -2]];
    let words = Draft::new(2, &rows, &[FREE, FREE, [15, 0, 1], [5, 0, 0]]).words();
    let small = fractions(&words);
    assert_eq!((small.numerators, small.over), (vec![1, 0, 2, 3], 2 * 17_179_869_177));
    assert_eq!(solve(&[1, 0, 3, 1, 0]).unwrap().fractions(), None);
}

#[test]
fn sizes_are_those_of_the_rules() {
    assert_eq!(LARGEST_SMALL, 17_179_869_176);
    assert_eq!([MOST_WORDS, MOST_ANSWER, MOST_TIMES], [290, 67, 130]);
}

#[test]
fn worked_sessions() {
    for case in sessions::worked() {
        let mut session = Session::open(&case.words).unwrap();
        for (operation, expected) in case.script {
            let reply = match operation {
                Operation::Switch { variable, upper, on } => {
                    let side = if upper { Side::Upper } else { Side::Lower };
                    let variable = variable as usize;
                    let done = if on {
                        session.switch_on(variable, side)
                    } else {
                        session.switch_off(variable, side)
                    };
                    Reply::Number(done.err().map_or(0, SwitchRefusal::number))
                }
                Operation::Check => {
                    let evidence = session.check().evidence().unwrap();
                    let live = session.live_words();
                    let is_on = |variable, upper: bool| {
                        session.is_on(variable, if upper { Side::Upper } else { Side::Lower })
                    };
                    assert_eq!(live, sessions::live_words(&case.words, is_on), "{}", case.name);
                    assert_eq!(check(&live, &evidence), Ok(Judgement::Accepted), "{}", case.name);
                    Reply::Answer(evidence)
                }
            };
            assert_eq!(reply, expected, "{}", case.name);
        }
    }
}

#[test]
fn sessions_refuse() {
    assert_eq!(Session::open(&[9, 0]).unwrap_err(), Refusal::Sizes);
    assert_eq!(Session::open(&worked::case_i().words).unwrap_err(), Refusal::BlankRow);
    let mut session = Session::open(&[1, 0, 1, 5, 0]).unwrap();
    for wrong in [1, 32, u32::MAX as usize, 1 << 32] {
        assert_eq!(session.switch_on(wrong, Side::Lower), Err(SwitchRefusal::NoVariable));
        assert!(!session.is_on(wrong, Side::Lower));
    }
    assert_eq!(session.switch_off(0, Side::Lower), Err(SwitchRefusal::AlreadyOff));
    assert_eq!(session.switch_on(0, Side::Lower), Ok(()));
    assert_eq!(session.switch_on(0, Side::Lower), Err(SwitchRefusal::AlreadyOn));
    assert_eq!(session.switch_on(0, Side::Upper), Err(SwitchRefusal::NoLimit));
    assert!(session.is_on(0, Side::Lower) && !session.is_on(0, Side::Upper));
    for (refusal, number) in SwitchRefusal::ALL.iter().copied().zip(41..) {
        assert_eq!(refusal.number(), number);
        assert_eq!(SwitchRefusal::try_from(number), Ok(refusal));
    }
    assert_eq!([40, 45].map(SwitchRefusal::try_from), [Err(40), Err(45)]);
    assert_eq!(SwitchRefusal::AlreadyOff.to_string(), "the limit is off already");
}
