//! The program wall report beside the original: its text for packed queries, sound and damaged.
use crate::case::{header, unpack, Case};
use crate::generate::{damaged, fault, random_case, Size, SMALL};
use crate::oracle::{ask, refuse, Refusal};
use crate::random::Random;
use original::walls::{PlacementIssue, WallCheck};
use original::PixelRect;
use std::collections::BTreeMap;
use std::io::Write;
use std::process::{Command, Stdio};

// The program's areas have the numbers of a 40 by 40 window, 32 obstacles and 32 buildings.
const ROOMS: [usize; 7] = [32 * 65, 41 * 41, 41 * 41, 2 * 1600, 1600, 1600, 1600];

fn wanted(bytes: &[u8]) -> String {
    match answer(bytes) {
        Ok(check) => text(&check),
        Err(r) => format!("refused {}\n", r.number),
    }
}

fn answer(bytes: &[u8]) -> Result<WallCheck, Refusal> {
    if header(bytes).is_some_and(|(w, h, n, _)| w > 64 || h > 64 || n > 32) {
        return Err(refuse(20, &[]));
    }
    let case = unpack(bytes).map_err(|number| refuse(number, &[]))?;
    let check = ask(&case)?;
    match case.rooms().iter().zip(ROOMS).position(|(needs, has)| has < *needs) {
        Some(area) => Err(refuse(17, &[2 + area])),
        None => Ok(check),
    }
}

fn sides(r: PixelRect) -> String {
    format!("{} {} {} {}", r.left, r.top, r.right, r.bottom)
}

fn text(check: &WallCheck) -> String {
    let mut out = String::from("check ok\n");
    for (i, p) in check.placements.iter().enumerate() {
        out += &format!("placement {i} footprint {} collision {} issues {}\n", sides(p.footprint), sides(p.collision), p.issues.len());
        for issue in &p.issues {
            out += &match issue {
                PlacementIssue::OutOfMap => "issue OutOfMap 0\n".to_string(),
                PlacementIssue::UnbuildableTerrain => "issue UnbuildableTerrain 0\n".to_string(),
                PlacementIssue::OverlapsObstacle { index } => format!("issue OverlapsObstacle {index}\n"),
                PlacementIssue::OverlapsBuilding { index } => format!("issue OverlapsBuilding {index}\n"),
            };
        }
    }
    out += &format!("passage {:?}\nbaseline {}\nroute {}\n", check.passage, check.baseline_passable as u8, check.route.len());
    for p in &check.route {
        out += &format!("{} {}\n", p.x, p.y);
    }
    out
}

fn query(r: &mut Random) -> Vec<u8> {
    let size = if r.one_in(4) { Size { cells: 66, window: 45, obstacles: 34 } } else { Size { window: 41, ..SMALL } };
    loop {
        let mut case: Case = random_case(r, size);
        if r.one_in(4) {
            fault(r, &mut case);
        }
        if case.packs() {
            let bytes = case.pack();
            return if r.one_in(5) { damaged(r, &bytes) } else { bytes };
        }
    }
}

/// Runs it so many times, and answers how often each first line was seen. The first text that differs is an error.
pub fn compare(program: &str, seed: u64, times: usize) -> Result<BTreeMap<String, usize>, String> {
    let mut r = Random::new(seed);
    let mut seen = BTreeMap::new();
    for _ in 0..times {
        let bytes = query(&mut r);
        let mut child = Command::new(program).stdin(Stdio::piped()).stdout(Stdio::piped()).spawn().map_err(|e| format!("{program}: {e}"))?;
        // A program that refuses from the header alone may end before it has read everything.
        let _ = child.stdin.take().unwrap().write_all(&bytes);
        let out = child.wait_with_output().map_err(|e| e.to_string())?;
        if out.stdout != wanted(&bytes).as_bytes() || !out.status.success() {
            return Err(format!("{bytes:02x?}: {} and\n{}wanted\n{}", out.status, String::from_utf8_lossy(&out.stdout), wanted(&bytes)));
        }
        let text = String::from_utf8_lossy(&out.stdout);
        *seen.entry(text.lines().next().unwrap_or("").to_string()).or_default() += 1;
    }
    Ok(seen)
}
