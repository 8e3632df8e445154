//! Compares the proved library with the original. `compare run [QUERIES]`, `compare program PATH [TIMES]`, `compare store`.
mod bound;
mod case;
#[path = "../../bindings/rust/src/ffi.rs"]
mod ffi;
mod generate;
mod lent;
mod oracle;
mod plain;
mod program;
mod random;
mod store;

use case::Case;
use generate::{LARGE, LARGEST, MIDDLE, SMALL};
use oracle::{ask, issue_words, passage_number, point_word, route_words, Refusal};
use original::walls::WallCheck;
use plain::Plain;
use random::Random;
use std::process::exit;

const SEEDS: [u64; 8] = [1, 2, 3, 5, 8, 13, 21, 34];

/// What was compared, by kind, so that a run says what it has seen.
struct Tally {
    queries: usize,
    plain: usize,
    packed: usize,
    damaged: usize,
    bound: usize,
    tests: usize,
    refusals: [usize; 21],
    verdicts: [usize; 5],
    issues: [usize; 4],
    checker: khimdorae_walls::Checker,
}

impl Tally {
    fn new() -> Tally {
        Tally { queries: 0, plain: 0, packed: 0, damaged: 0, bound: 0, tests: 0, refusals: [0; 21], verdicts: [0; 5], issues: [0; 4], checker: Default::default() }
    }

    fn count(&mut self, asked: &Result<WallCheck, Refusal>, short: bool) {
        self.queries += 1;
        match asked {
            Err(r) => self.refusals[r.number as usize] += 1,
            Ok(_) if short => self.refusals[17] += 1,
            Ok(check) => {
                self.refusals[0] += 1;
                self.verdicts[passage_number(check.passage) as usize] += 1;
                for word in issue_words(check) {
                    self.issues[(word >> 25 & 3) as usize] += 1;
                }
            }
        }
    }

    fn say(&self) {
        println!("refusals 0 (accepted) to 20: {:?}", self.refusals);
        println!("verdicts 0 to 4: {:?}; issues 0 to 3: {:?}", self.verdicts, self.issues);
        println!("also: {} by the plain reading, {} packed, {} damaged, {} by the Rust crate, {} route tests", self.plain, self.packed, self.damaged, self.bound, self.tests);
    }

    /// Every refusal of a check or a reading but 12, which can't occur, every verdict and every kind of issue was seen.
    fn saw_everything(&self) -> bool {
        (0..20).all(|n| n == 12 || self.refusals[n] > 0) && self.verdicts.iter().chain(&self.issues).all(|n| *n > 0)
    }
}

/// The areas' lengths: as needed, or some longer, or one too short.
fn lengths(case: &Case, r: &mut Random) -> [usize; 7] {
    // A window that is refused says nothing of what is needed.
    let (w, h) = case.window_size();
    let most = if w > 1024 || h > 1024 { 64 } else { usize::MAX };
    let needs = case.rooms().map(|n| n.min(most));
    let mut lengths = needs;
    match r.below(4) {
        0 => lengths.iter_mut().for_each(|n| *n += r.below(6)),
        1 => {
            let k = r.below(7);
            lengths[k] = if r.one_in(2) { needs[k].saturating_sub(1) } else { r.below(needs[k] + 1) };
        }
        _ => {}
    }
    lengths
}

// The plain reading beside the original.
fn witness(case: &Case, check: &WallCheck) -> Result<(), String> {
    let (passage, baseline, route) = plain::verdict(case);
    if (passage, baseline, &route) != (check.passage, check.baseline_passable, &check.route) {
        return Err(format!("the plain reading says {passage:?} {baseline} {route:?}, and the original {:?} {} {:?}", check.passage, check.baseline_passable, check.route));
    }
    Ok(())
}

// Lists for the route test: the route, the route with one word changed, or words of the window.
fn list(case: &Case, check: &WallCheck, r: &mut Random) -> Vec<u32> {
    let mut words = route_words(check);
    match r.below(4) {
        0 => return words,
        1 if !words.is_empty() => {
            let k = r.below(words.len());
            words[k] = words[k].wrapping_add(r.pick(&[1, 65536, u32::MAX, u32::MAX << 16]));
        }
        2 if !words.is_empty() => {
            let k = r.below(words.len());
            words.remove(k);
        }
        _ => {
            // From one end to the other by steps of one, through whatever is there.
            let (mut p, e) = (case.query.start, case.query.end);
            words = vec![point_word(p)];
            while p != e {
                let near = |a: u32, b: u32| a + (a < b) as u32 - (a > b) as u32;
                p = if r.one_in(3) { generate::at(near(p.x, e.x), p.y) } else { generate::at(near(p.x, e.x), near(p.y, e.y)) };
                words.push(point_word(p));
            }
        }
    }
    words
}

/// Everything that is held against the original for one query.
fn compare(case: &Case, r: &mut Random, tally: &mut Tally) -> Result<(), String> {
    let asked = ask(case);
    let lent = lengths(case, r);
    let short = lent.iter().zip(case.rooms()).any(|(has, needs)| *has < needs);
    lent::check(case, &asked, lent, r)?;
    tally.count(&asked, short);
    let (w, h) = case.window_size();
    let small = asked.is_ok() && w * h <= 600 && case.cells.len() <= 300 && case.words.len() <= 80;
    if let Ok(check) = &asked {
        if small && r.one_in(2) {
            witness(case, check)?;
            tally.plain += 1;
        }
    }
    if r.one_in(4) {
        let words = asked.as_ref().map_or(vec![1, 2], |check| list(case, check, r));
        let passes = match &asked {
            Ok(check) if words == route_words(check) => !words.is_empty(),
            Ok(_) if small => Plain::of(case, true).passes(case.query.start, case.query.end, &words),
            Ok(_) => return Ok(()),
            Err(_) => false,
        };
        lent::test_route(case, &asked, &words, passes, [lent[1], lent[2], lent[3]], r)?;
        tally.tests += 1;
    }
    if r.one_in(4) {
        bound::check(case, &asked, &mut tally.checker)?;
        tally.bound += 1;
    }
    if case.packs() && r.one_in(3) {
        let bytes = case.pack();
        lent::packed(&bytes, |_| asked.clone(), lengths, r)?;
        tally.packed += 1;
        if r.one_in(2) {
            let copy = generate::damaged(r, &bytes);
            let number = lent::packed(&copy, ask, lengths, r)?;
            tally.refusals[number as usize] += 1;
            tally.queries += 1;
            tally.damaged += 1;
        }
    }
    Ok(())
}

fn random(r: &mut Random) -> Case {
    let mut case = match r.below(20_000) {
        0..=2 => generate::random_case(r, LARGEST),
        3..=22 => generate::crowd(r),
        23..=200 => generate::random_case(r, LARGE),
        201..=520 => generate::strip(r),
        521..=4000 => generate::random_case(r, MIDDLE),
        _ => generate::random_case(r, SMALL),
    };
    if r.one_in(3) {
        for _ in 0..1 + r.below(3) {
            generate::fault(r, &mut case);
        }
    }
    case
}

/// A case like it that still differs, with as little in it as a few passes find.
fn smallest(case: &Case, differs: impl Fn(&Case) -> bool) -> Case {
    let mut best = case.clone();
    loop {
        let mut tries: Vec<Case> = Vec::new();
        for i in 0..best.words.len() / 4 {
            tries.push(best.clone());
            tries.last_mut().unwrap().words.drain(4 * i..4 * i + 4);
        }
        for i in 0..best.query.buildings.len() {
            tries.push(best.clone());
            tries.last_mut().unwrap().query.buildings.remove(i);
        }
        if best.cells.len() <= 300 {
            for i in (0..best.cells.len()).filter(|i| best.cells[*i] != case::PLAIN) {
                tries.push(best.clone());
                tries.last_mut().unwrap().cells[i] = case::PLAIN;
            }
        }
        match tries.into_iter().find(|t| differs(t)) {
            Some(smaller) => best = smaller,
            None => return best,
        }
    }
}

fn one(case: &Case, seed: u64, tally: &mut Tally) {
    if let Err(e) = compare(case, &mut Random::new(seed), tally) {
        // What is compared besides the check itself hangs on chance, so each try gets several seeds.
        let differs = |c: &Case| (seed..seed + 16).any(|s| compare(c, &mut Random::new(s), &mut Tally::new()).is_err());
        let small = smallest(case, differs);
        println!("DIFFERENCE (seed {seed}): {e}\nsmallest found: {small:?}");
        if small.packs() {
            println!("packed: {}", store::line(&small));
        }
        exit(1);
    }
}

fn run(queries: usize) {
    let mut tally = Tally::new();
    let mut seed = 0;
    if queries >= 200_000 {
        generate::exhaustive(|case| {
            seed += 1;
            one(&case, seed, &mut tally);
        });
        println!("{} queries of the small kinds, all of each: no difference", tally.queries);
    }
    let rest = queries.saturating_sub(tally.queries);
    let began = tally.queries;
    for (k, s) in SEEDS.iter().enumerate() {
        let mut r = Random::new(*s);
        while tally.queries < began + rest * (k + 1) / SEEDS.len() {
            let seed = r.next();
            let case = random(&mut Random::new(seed));
            one(&case, seed ^ 1, &mut tally);
        }
        println!("seed {s}: {} queries so far, no difference", tally.queries);
    }
    tally.say();
    if queries >= 20_000 && !tally.saw_everything() {
        println!("not every refusal, verdict and issue was seen");
        exit(1);
    }
    println!("{} queries compared: no difference", tally.queries);
}

fn main() {
    let args: Vec<String> = std::env::args().skip(1).collect();
    let number = |k: usize, default: usize| args.get(k).map_or(default, |word| word.parse().expect("a number"));
    match args.first().map(String::as_str) {
        Some("run") => run(number(1, 200_000)),
        Some("store") => print!("{}", store::sample(55, 30, 5)),
        Some("program") => {
            let (path, times) = (args.get(1).expect("the program's path"), number(2, 2000));
            match program::compare(path, 89, times) {
                Ok(seen) => println!("{seen:?}\n{times} runs of the program compared: no difference"),
                Err(e) => {
                    println!("DIFFERENCE of the program: {e}");
                    exit(1);
                }
            }
        }
        _ => {
            eprintln!("compare run [QUERIES] | program PATH [TIMES] | store");
            exit(2);
        }
    }
}
