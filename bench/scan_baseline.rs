//! Counts and grids in plain Rust, to measure bench_scan by: one array sorted by week and Morton address, jumps where 32 rows in
//! a row are outside the box, and each label's truth decided once, before all. `scan_baseline POINTS BOXES` prints for each box its
//! class, the rows that a count and a grid of 32 by 32 show, and what they take, in nanoseconds.
use std::{collections::HashMap, env, fs, iter::Peekable, str::Chars, time::Instant};

const WEEK: u64 = 604_800;
const HELD: [char; 4] = ['A', 'B', 'D', 'G'];
const SHARES: u32 = 32;

struct Row {
    week: u64,
    address: u64,
    x: u32,
    y: u32,
    offset: u32,
    label: u32,
}

/// A box in one week.
struct Part {
    week: u64,
    x: (u32, u32),
    y: (u32, u32),
    offset: (u32, u32),
}

fn spread(n: u64) -> u64 {
    let mut n = n & 0x1f_ffff;
    n = (n | n << 32) & 0x001f_0000_0000_ffff;
    n = (n | n << 16) & 0x001f_0000_ff00_00ff;
    n = (n | n << 8) & 0x100f_00f0_0f00_f00f;
    n = (n | n << 4) & 0x10c3_0c30_c30c_30c3;
    (n | n << 2) & 0x1249_2492_4924_9249
}

fn interleave(x: u32, y: u32, offset: u32) -> u64 {
    spread(x.into()) | spread(y.into()) << 1 | spread(offset.into()) << 2
}

/// The address with this bit of its part set, or not, and the part's lower bits the other way.
fn with_bit(address: u64, place: u32, set: bool) -> u64 {
    let (bit, lower) = (1 << place, spread((1 << (place / 3)) - 1) << (place % 3));
    if set { (address | bit) & !lower } else { (address & !bit) | lower }
}

/// The first address after this one that is in the box between two corners.
fn next_inside(address: u64, mut first: u64, mut last: u64) -> Option<u64> {
    let mut best = None;
    for place in (0..63).rev() {
        let bit = 1 << place;
        match (address & bit != 0, first & bit != 0, last & bit != 0) {
            (false, false, true) => {
                best = Some(with_bit(first, place, true));
                last = with_bit(last, place, false);
            }
            (false, true, true) => return Some(first),
            (true, false, false) => return best,
            (true, false, true) => first = with_bit(first, place, true),
            _ => {}
        }
    }
    best
}

impl Part {
    fn has(&self, row: &Row) -> bool {
        self.x.0 <= row.x && row.x <= self.x.1 && self.y.0 <= row.y && row.y <= self.y.1
            && self.offset.0 <= row.offset && row.offset <= self.offset.1
    }

    /// Hands on each visible row.
    fn each(&self, rows: &[Row], sees: &[bool], mut found: impl FnMut(&Row)) {
        let first = interleave(self.x.0, self.y.0, self.offset.0);
        let last = interleave(self.x.1, self.y.1, self.offset.1);
        let to = rows.partition_point(|row| (row.week, row.address) <= (self.week, last));
        let mut at = rows.partition_point(|row| (row.week, row.address) < (self.week, first));
        while at < to {
            let some = &rows[at..to.min(at + 32)];
            let mut hit = false;
            for row in some {
                if self.has(row) {
                    hit = true;
                    if sees[row.label as usize] {
                        found(row);
                    }
                }
            }
            at += some.len();
            if !hit && at < to {
                let Some(next) = next_inside(some[some.len() - 1].address, first, last) else { break };
                at += rows[at..to].partition_point(|row| row.address < next);
            }
        }
    }
}

/// Whether a label of single letters, `&`, `|` and parentheses is true.
fn is_true(text: &mut Peekable<Chars>) -> bool {
    let mut value = unit(text);
    while let Some(sign) = text.next_if(|sign| "&|".contains(*sign)) {
        let other = unit(text);
        value = if sign == '&' { value & other } else { value | other };
    }
    value
}

fn unit(text: &mut Peekable<Chars>) -> bool {
    match text.next() {
        None => true,
        Some('(') => {
            let value = is_true(text);
            text.next();
            value
        }
        Some(name) => HELD.contains(&name),
    }
}

fn read(points: &str) -> (Vec<Row>, Vec<bool>) {
    let (mut labels, mut sees) = (HashMap::new(), vec![]);
    let mut rows: Vec<Row> = points.lines().map(|line| {
        let words: Vec<&str> = line.split(',').collect();
        let [x, y, t] = [1, 2, 3].map(|at| words[at].parse::<u64>().unwrap());
        let label = *labels.entry(words[4]).or_insert_with(|| {
            sees.push(is_true(&mut words[4].chars().peekable()));
            sees.len() as u32 - 1
        });
        let (x, y, offset) = (x as u32, y as u32, (t % WEEK) as u32);
        Row { week: t / WEEK, address: interleave(x, y, offset), x, y, offset, label }
    }).collect();
    rows.sort_unstable_by_key(|row| (row.week, row.address));
    (rows, sees)
}

fn parts(bounds: &[u64]) -> Vec<Part> {
    let (first, last) = (bounds[4], bounds[5]);
    let part = |week| Part {
        week,
        x: (bounds[0] as u32, bounds[1] as u32),
        y: (bounds[2] as u32, bounds[3] as u32),
        offset: (
            if week == first / WEEK { (first % WEEK) as u32 } else { 0 },
            if week == last / WEEK { (last % WEEK) as u32 } else { WEEK as u32 - 1 },
        ),
    };
    (first / WEEK..=last / WEEK).map(part).collect()
}

fn count(parts: &[Part], rows: &[Row], sees: &[bool]) -> u64 {
    let mut count = 0;
    for part in parts {
        part.each(rows, sees, |_| count += 1);
    }
    count
}

/// In which of the equal shares of some numbers one of them is.
fn share(of: (u32, u32), number: u32) -> u32 {
    (number - of.0) * SHARES / (of.1 - of.0 + 1)
}

fn grid(parts: &[Part], rows: &[Row], sees: &[bool]) -> Vec<u64> {
    let mut counts = vec![0; (SHARES * SHARES) as usize];
    for part in parts {
        part.each(rows, sees, |row| counts[(share(part.y, row.y) * SHARES + share(part.x, row.x)) as usize] += 1);
    }
    counts
}

fn main() {
    let files: Vec<String> = env::args().skip(1).map(|file| fs::read_to_string(file).unwrap()).collect();
    let (rows, sees) = read(&files[0]);
    for line in files[1].lines() {
        let (class, bounds) = line.split_once(' ').unwrap();
        let bounds: Vec<u64> = bounds.split(' ').map(|word| word.parse().unwrap()).collect();
        let start = Instant::now();
        let counted = count(&parts(&bounds), &rows, &sees);
        let count_took = start.elapsed().as_nanos();
        let start = Instant::now();
        let fields = grid(&parts(&bounds), &rows, &sees);
        let grid_took = start.elapsed().as_nanos();
        let in_fields: u64 = fields.iter().sum();
        println!("{class} {counted} {in_fields} {count_took} {grid_took}");
    }
}
