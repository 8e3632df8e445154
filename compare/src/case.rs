//! A query with its map, and its packed form, written and read bit by bit, apart from the checker's own reading.
use original::walls::{CollisionBounds, WallBuilding, WallQuery};
use original::{DepotFootprint, PixelPosition, PixelRect, TilePosition};

pub const PLAIN: u8 = 24;

#[derive(Debug, Clone, PartialEq)]
pub struct Case {
    pub width: u32,
    pub height: u32,
    pub cells: Vec<u8>,
    /// The obstacles, four words each.
    pub words: Vec<i32>,
    pub query: WallQuery,
}

impl Case {
    pub fn obstacles(&self) -> Vec<PixelRect> {
        self.words.chunks_exact(4).map(|w| PixelRect { left: w[0], top: w[1], right: w[2], bottom: w[3] }).collect()
    }

    pub fn window_size(&self) -> (usize, usize) {
        let w = self.query.window;
        let axis = |low: i32, high: i32| (i64::from(high) - i64::from(low)).max(0) as usize;
        (axis(w.left, w.right), axis(w.top, w.bottom))
    }

    /// How much each of the areas 2 to 8 needs, for a window of any size that is accepted.
    pub fn rooms(&self) -> [usize; 7] {
        let (w, h) = self.window_size();
        let (w, h) = (w.min(1024), h.min(1024));
        let (n, b) = (self.words.len() / 4, self.query.buildings.len());
        [b * (n + b + 1), (w + 1) * (h + 1), (w + 1) * (h + 1), 2 * w * h, w * h, w * h, w * h]
    }

    /// The query as words: window, ends, mover, and 8 for each of the first 32 buildings.
    pub fn query_words(&self) -> Vec<u64> {
        let q = &self.query;
        let mut words = [q.window.left, q.window.top, q.window.right, q.window.bottom].map(|side| u64::from(side as u32)).to_vec();
        words.extend([q.start.x, q.start.y, q.end.x, q.end.y, q.mover.left, q.mover.top, q.mover.right, q.mover.bottom].map(u64::from));
        for b in q.buildings.iter().take(32) {
            words.extend(building_words(b));
        }
        words
    }

    /// Whether the packed form can say it.
    pub fn packs(&self) -> bool {
        (1..=1024).contains(&self.width)
            && (1..=1024).contains(&self.height)
            && self.cells.len() == (self.width * self.height) as usize
            && self.cells.iter().all(|c| *c < 32)
            && self.words.len() % 4 == 0
            && self.words.len() / 4 < 16384
            && self.query.buildings.len() < 64
    }

    pub fn pack(&self) -> Vec<u8> {
        let mut bits = Writer::default();
        bits.put(u64::from(self.width - 1), 10);
        bits.put(u64::from(self.height - 1), 10);
        bits.put((self.words.len() / 4) as u64, 14);
        bits.put(self.query.buildings.len() as u64, 6);
        for cell in &self.cells {
            bits.put(u64::from(*cell), 5);
        }
        for word in &self.words {
            bits.put(u64::from(*word as u32), 32);
        }
        for word in self.query_words() {
            bits.put(word, 32);
        }
        for b in self.query.buildings.iter().skip(32) {
            for word in building_words(b) {
                bits.put(word, 32);
            }
        }
        bits.bytes
    }
}

fn building_words(b: &WallBuilding) -> [u64; 8] {
    let (t, f, c) = (b.tile, b.footprint, b.collision);
    [t.x, t.y, f.width_tiles, f.height_tiles, c.left, c.top, c.right, c.bottom].map(u64::from)
}

#[derive(Default)]
struct Writer {
    bytes: Vec<u8>,
    bits: usize,
}

impl Writer {
    fn put(&mut self, value: u64, n: usize) {
        for k in (0..n).rev() {
            if self.bits % 8 == 0 {
                self.bytes.push(0);
            }
            *self.bytes.last_mut().unwrap() |= ((value >> k & 1) as u8) << (7 - self.bits % 8);
            self.bits += 1;
        }
    }
}

struct Reader<'a> {
    bytes: &'a [u8],
    at: usize,
}

impl Reader<'_> {
    fn get(&mut self, n: usize) -> u64 {
        let mut value = 0;
        for _ in 0..n {
            value = value << 1 | u64::from(self.bytes[self.at / 8] >> (7 - self.at % 8) & 1);
            self.at += 1;
        }
        value
    }

    fn word(&mut self) -> u32 {
        self.get(32) as u32
    }

    fn rect(&mut self) -> PixelRect {
        PixelRect { left: self.word() as i32, top: self.word() as i32, right: self.word() as i32, bottom: self.word() as i32 }
    }

    fn point(&mut self) -> PixelPosition {
        PixelPosition { x: self.word(), y: self.word() }
    }

    fn extents(&mut self) -> CollisionBounds {
        CollisionBounds { left: self.word(), top: self.word(), right: self.word(), bottom: self.word() }
    }

    fn building(&mut self) -> WallBuilding {
        WallBuilding {
            tile: TilePosition { x: self.word(), y: self.word() },
            footprint: DepotFootprint { width_tiles: self.word(), height_tiles: self.word() },
            collision: self.extents(),
        }
    }
}

/// The header's width, height, obstacles and buildings, where there are 5 bytes.
pub fn header(bytes: &[u8]) -> Option<(u32, u32, usize, usize)> {
    if bytes.len() < 5 {
        return None;
    }
    let mut r = Reader { bytes, at: 0 };
    Some((r.get(10) as u32 + 1, r.get(10) as u32 + 1, r.get(14) as usize, r.get(6) as usize))
}

/// What packed bytes say: the query, every building among it, or the refusal 18 or 19.
pub fn unpack(bytes: &[u8]) -> Result<Case, u32> {
    let (width, height, n, b) = header(bytes).ok_or(18u32)?;
    let area = (width * height) as usize;
    let bits = 40 + 5 * area + 32 * (4 * n + 12 + 8 * b);
    let needed = bits.div_ceil(8);
    if bytes.len() < needed {
        return Err(18);
    }
    let mut tail = Reader { bytes, at: bits };
    if bytes.len() > needed || tail.get(8 * needed - bits) != 0 {
        return Err(19);
    }
    let mut r = Reader { bytes, at: 40 };
    let cells = (0..area).map(|_| r.get(5) as u8).collect();
    let words = (0..4 * n).map(|_| r.word() as i32).collect();
    let (window, start, end, mover) = (r.rect(), r.point(), r.point(), r.extents());
    let buildings = (0..b).map(|_| r.building()).collect();
    Ok(Case { width, height, cells, words, query: WallQuery { window, start, end, mover, buildings } })
}
