//! The library's calls, in areas with guards on both sides, so that every byte that must not change is looked at.
use crate::case::{header, unpack, Case};
use crate::ffi::{walls_c_check, walls_c_check_packed, walls_c_read_packed, walls_c_test_route, CHECK_WORDS, READ_WORDS, TEST_WORDS};
use crate::oracle::{answer_words, issue_words, refusal_words, refuse, route_words, Refusal};
use crate::random::Random;
use original::walls::WallCheck;

const GUARD: usize = 8;

/// A lent area between two guards.
struct Area<T> {
    all: Vec<T>,
    was: Vec<T>,
}

impl<T: Copy + PartialEq> Area<T> {
    fn filled(n: usize, mut with: impl FnMut() -> T) -> Area<T> {
        let all: Vec<T> = (0..n + 2 * GUARD).map(|_| with()).collect();
        Area { was: all.clone(), all }
    }

    fn of(content: &[T], with: impl FnMut() -> T) -> Area<T> {
        let mut area = Area::filled(content.len(), with);
        area.all[GUARD..GUARD + content.len()].copy_from_slice(content);
        area.was.copy_from_slice(&area.all);
        area
    }

    fn len(&self) -> usize {
        self.all.len() - 2 * GUARD
    }

    fn lent(&mut self) -> *mut T {
        self.all[GUARD..].as_mut_ptr()
    }

    /// It holds `first`, and behind that and around it what was there.
    fn holds(&self, name: &str, first: &[T]) -> Result<(), String> {
        let at = GUARD + first.len();
        expect(self.all[GUARD..at] == *first, || format!("{name}: not what must stand first"))?;
        expect(self.all[..GUARD] == self.was[..GUARD] && self.all[at..] == self.was[at..], || format!("{name}: changed beyond {}", first.len()))
    }
}

fn expect(ok: bool, say: impl FnOnce() -> String) -> Result<(), String> {
    if ok {
        Ok(())
    } else {
        Err(say())
    }
}

/// The areas 2 to 8.
struct Areas {
    issues: Area<u32>,
    base: Area<u32>,
    planned: Area<u32>,
    marks: Area<u8>,
    parents: Area<u32>,
    queue: Area<u32>,
    route: Area<u32>,
}

impl Areas {
    fn new(lengths: [usize; 7], random: &mut Random) -> Areas {
        let mut words = |n: usize| Area::filled(n, || random.next() as u32);
        let [issues, base, planned, marks, parents, queue, route] = lengths;
        Areas {
            issues: words(issues),
            base: words(base),
            planned: words(planned),
            parents: words(parents),
            queue: words(queue),
            route: words(route),
            marks: Area::filled(marks, || random.next() as u8),
        }
    }

    /// What a check leaves: nothing changed, or issues and route first and zeros in the rest.
    fn left(&self, case: &Case, answer: Result<&WallCheck, &Refusal>) -> Result<(), String> {
        let [_, difference, _, marks, centers, _, _] = if answer.is_ok() { case.rooms() } else { [0; 7] };
        let (issues, route) = answer.map_or_else(|_| Default::default(), |check| (issue_words(check), route_words(check)));
        self.issues.holds("issues", &issues)?;
        self.route.holds("route", &route)?;
        self.base.holds("base", &vec![0; difference])?;
        self.planned.holds("planned", &vec![0; difference])?;
        self.marks.holds("marks", &vec![0; marks])?;
        self.parents.holds("parents", &vec![0; centers])?;
        self.queue.holds("queue", &vec![0; centers])
    }
}

/// The answer, or 17 where one of these areas, the first of which has this number, is too small for it.
fn in_room<'a, T>(asked: &'a Result<T, Refusal>, first: usize, lengths: &[usize], needs: &[usize]) -> Result<&'a T, Refusal> {
    let answer = asked.as_ref().map_err(Refusal::clone)?;
    match lengths.iter().zip(needs).position(|(has, needs)| has < needs) {
        Some(area) => Err(refuse(17, &[first + area])),
        None => Ok(answer),
    }
}

fn said(got: u64, answer: &Area<u64>, words: &[u64]) -> Result<(), String> {
    expect(got == words[0], || format!("answered {got}, and the words are {:?}", &words[..12.min(words.len())]))?;
    let n = words.len().min(answer.len());
    let found: Vec<u64> = answer.all[GUARD..GUARD + n].to_vec();
    answer.holds("answer", &words[..n]).map_err(|e| format!("{e}: {found:?} for {:?}", &words[..n]))
}

/// The query's words, with anything in the halves that don't count, and sometimes more words behind.
fn query_words(case: &Case, random: &mut Random) -> Vec<u64> {
    let mut words = case.query_words();
    if random.one_in(2) {
        for word in &mut words {
            *word |= random.next() << 32;
        }
        words.extend((0..random.below(9)).map(|_| random.next()));
    }
    words
}

fn answer_area(n: usize, random: &mut Random) -> Area<u64> {
    let len = if random.one_in(8) { random.below(n) } else { n + random.below(4) };
    Area::filled(len, || random.next())
}

/// A check from plain arguments, in areas of these lengths.
pub fn check(case: &Case, asked: &Result<WallCheck, Refusal>, lengths: [usize; 7], random: &mut Random) -> Result<(), String> {
    let mut a = Areas::new(lengths, random);
    let mut cells = Area::of(&case.cells, || random.next() as u8);
    let mut obstacles = Area::of(&case.words, || random.next() as i32);
    let words = query_words(case, random);
    let mut query = Area::of(&words, || random.next());
    let mut answer = answer_area(CHECK_WORDS, random);
    #[rustfmt::skip]
    let got = unsafe {
        walls_c_check(
            case.width, case.height, cells.lent(), cells.len(), obstacles.lent(), obstacles.len(), query.lent(), query.len(), case.query.buildings.len(),
            a.issues.lent(), a.issues.len(), a.base.lent(), a.base.len(), a.planned.lent(), a.planned.len(), a.marks.lent(), a.marks.len(),
            a.parents.lent(), a.parents.len(), a.queue.lent(), a.queue.len(), a.route.lent(), a.route.len(), answer.lent(), answer.len(),
        )
    };
    let wanted = in_room(asked, 2, &lengths, &case.rooms());
    let wanted = wanted.as_ref().map(|check| *check);
    said(got, &answer, &answer_words(wanted))?;
    a.left(case, wanted)?;
    cells.holds("cells", &[])?;
    obstacles.holds("obstacles", &[])?;
    query.holds("query", &[])
}

/// The route test of a list that passes or not.
pub fn test_route(case: &Case, asked: &Result<WallCheck, Refusal>, list: &[u32], passes: bool, lengths: [usize; 3], random: &mut Random) -> Result<(), String> {
    let mut a = Areas::new([0, lengths[0], lengths[1], lengths[2], 0, 0, 0], random);
    let mut cells = Area::of(&case.cells, || random.next() as u8);
    let mut obstacles = Area::of(&case.words, || random.next() as i32);
    let words = query_words(case, random);
    let mut query = Area::of(&words, || random.next());
    let mut points = Area::of(list, || random.next() as u32);
    let mut answer = answer_area(TEST_WORDS, random);
    #[rustfmt::skip]
    let got = unsafe {
        walls_c_test_route(
            case.width, case.height, cells.lent(), cells.len(), obstacles.lent(), obstacles.len(), query.lent(), query.len(), case.query.buildings.len(),
            points.lent(), points.len(), a.base.lent(), a.base.len(), a.planned.lent(), a.planned.len(), a.marks.lent(), a.marks.len(), answer.lent(),
            answer.len(),
        )
    };
    let needs = case.rooms();
    let wanted = in_room(asked, 3, &lengths, &needs[1..4]);
    let mut words = refusal_words(wanted.as_ref().err());
    words.push(u64::from(passes && wanted.is_ok()));
    said(got, &answer, &words)?;
    let [difference, _, marks] = if wanted.is_ok() { [needs[1], needs[2], needs[3]] } else { [0; 3] };
    a.base.holds("base", &vec![0; difference])?;
    a.planned.holds("planned", &vec![0; difference])?;
    a.marks.holds("marks", &vec![0; marks])?;
    cells.holds("cells", &[])?;
    obstacles.holds("obstacles", &[])?;
    query.holds("query", &[])?;
    points.holds("list", &[])
}

/// The words of a reading's answer.
fn read_words(read: Result<&Case, &Refusal>) -> Vec<u64> {
    let mut words = refusal_words(read.err());
    if let Ok(case) = read {
        words.extend([u64::from(case.width), u64::from(case.height), (case.words.len() / 4) as u64, case.query.buildings.len() as u64]);
        words.extend(case.query_words());
    }
    words.resize(READ_WORDS, 0);
    words
}

/// Reading and checking packed bytes, sound or not.
pub fn packed(bytes: &[u8], ask: impl Fn(&Case) -> Result<WallCheck, Refusal>, lengths: impl Fn(&Case, &mut Random) -> [usize; 7], random: &mut Random) -> Result<u64, String> {
    let unpacked = unpack(bytes).map_err(|number| refuse(number, &[]));
    let needs = header(bytes).map_or([0; 2], |(w, h, n, _)| [(w * h) as usize, 4 * n]);
    let room = |n: usize, random: &mut Random| match random.below(8) {
        0 => n.saturating_sub(1 + random.below(3)),
        1 => n + random.below(5),
        _ => n,
    };
    let front = [room(needs[0].min(1 << 20), random), room(needs[1], random)];
    let mut packed = Area::of(bytes, || random.next() as u8);
    let mut cells = Area::filled(front[0], || random.next() as u8);
    let mut obstacles = Area::filled(front[1], || random.next() as i32);
    let mut answer = answer_area(READ_WORDS, random);
    let got = unsafe { walls_c_read_packed(packed.lent(), packed.len(), cells.lent(), cells.len(), obstacles.lent(), obstacles.len(), answer.lent(), answer.len()) };
    let read = in_room(&unpacked, 0, &front, &needs);
    let read = read.as_ref().map(|case| *case);
    let held = |cells: &Area<u8>, obstacles: &Area<i32>, packed: &Area<u8>| {
        cells.holds("cells", read.map_or(&[], |case| &case.cells))?;
        obstacles.holds("obstacles", read.map_or(&[], |case| &case.words))?;
        packed.holds("packed", &[])
    };
    said(got, &answer, &read_words(read))?;
    held(&cells, &obstacles, &packed)?;

    let asked = read.map_err(Refusal::clone).and_then(|case| ask(case));
    let lengths = read.map_or([4; 7], |case| lengths(case, random));
    let mut a = Areas::new(lengths, random);
    let mut cells = Area::filled(front[0], || random.next() as u8);
    let mut obstacles = Area::filled(front[1], || random.next() as i32);
    let mut answer = answer_area(CHECK_WORDS, random);
    #[rustfmt::skip]
    let got = unsafe {
        walls_c_check_packed(
            packed.lent(), packed.len(), cells.lent(), cells.len(), obstacles.lent(), obstacles.len(), a.issues.lent(), a.issues.len(), a.base.lent(),
            a.base.len(), a.planned.lent(), a.planned.len(), a.marks.lent(), a.marks.len(), a.parents.lent(), a.parents.len(), a.queue.lent(),
            a.queue.len(), a.route.lent(), a.route.len(), answer.lent(), answer.len(),
        )
    };
    let wanted = match read {
        Ok(case) => in_room(&asked, 2, &lengths, &case.rooms()),
        Err(_) => asked.as_ref().map_err(Refusal::clone),
    };
    let wanted = wanted.as_ref().map(|check| *check);
    let words = answer_words(wanted);
    said(got, &answer, &words)?;
    held(&cells, &obstacles, &packed)?;
    match read {
        Ok(case) => a.left(case, wanted)?,
        Err(_) => a.left(&Case { width: 0, height: 0, cells: vec![], words: vec![], query: crate::generate::nothing() }, wanted)?,
    }
    Ok(words[0])
}
