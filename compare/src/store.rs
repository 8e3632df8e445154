//! Stored answers: two lines each, the packed query as hex digits, and the original's answer as words: the number and four values of a
//! refusal, or zeros; where it is accepted also verdict, baseline, points, window, 9 words for each building, the issue words and the
//! route's words.
use crate::case::Case;
use crate::generate::{fault, random_case, strip, Size};
use crate::oracle::{answer_words, ask, issue_words, passage_number, route_words};
use crate::random::Random;

const STORED: Size = Size { cells: 9, window: 20, obstacles: 4 };

pub fn line(case: &Case) -> String {
    let asked = ask(case);
    let mut words = answer_words(asked.as_ref());
    words.truncate(asked.as_ref().map_or(5, |check| 12 + 9 * check.placements.len()));
    if let Ok(check) = &asked {
        words.extend(issue_words(check).into_iter().chain(route_words(check)).map(u64::from));
    }
    let hex: String = case.pack().iter().map(|b| format!("{b:02x}")).collect();
    let words: Vec<String> = words.iter().map(u64::to_string).collect();
    format!("{hex}\n{}\n", words.join(" "))
}

/// Answers of small queries: of each verdict and each refusal as many as this says.
pub fn sample(seed: u64, verdict: usize, refusal: usize) -> String {
    let mut r = Random::new(seed);
    let mut text = String::new();
    let mut left: Vec<usize> = (0..25).map(|kind| if kind < 20 { refusal } else { verdict }).collect();
    for _ in 0..200_000 {
        let mut case = if r.one_in(30) { strip(&mut r) } else { random_case(&mut r, STORED) };
        if r.one_in(2) {
            fault(&mut r, &mut case);
        }
        // Refusals by their number, verdicts behind them.
        let kind = ask(&case).map_or_else(|refused| refused.number as usize, |check| 20 + passage_number(check.passage) as usize);
        if case.packs() && left[kind] > 0 {
            left[kind] -= 1;
            text += &line(&case);
        }
    }
    text
}
