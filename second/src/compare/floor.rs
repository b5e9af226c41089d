//! Final Y and the curve: whether the lists fit, and every place of the lent lists.
//!
//! The second program has an answer where the papers have one: final Y where the first X
//! is the least, the second the greatest and all differ; the curve where the first X is 0,
//! all differ, and no Y times the multiplier passes a byte. The library defines the other
//! lists too. There it is held to what it promises of every list: whether they fit, and
//! the ranges of what it leaves.

use crate::lent::lend;
use crate::library;
use crate::report::{hex, Answer, Call, Given, Report};
use second::floor::{curve, final_y, range, GREATEST_X_COUNT};
use second::generate::random::Random;

/// What lent places hold before a call.
const FILLING: u8 = 0xA5;

/// Half the largest block.
const MOST_HALF: u32 = 4_096;

/// What final Y is computed from.
#[derive(Clone, Debug)]
pub struct Points {
    pub x: Vec<u16>,
    pub values: Vec<u16>,
    pub multiplier: u8,
}

/// What a curve is drawn from.
#[derive(Clone, Debug)]
pub struct Drawn {
    pub x: Vec<u16>,
    pub y: Vec<u8>,
    pub flags: Vec<u8>,
    pub multiplier: u8,
}

fn wide<T: Copy + Into<u32>>(list: &[T]) -> Vec<u32> {
    list.iter().map(|&number| number.into()).collect()
}

fn all_differ(x: &[u16]) -> bool {
    let mut sorted = x.to_vec();
    sorted.sort_unstable();
    sorted.windows(2).all(|pair| pair[0] != pair[1])
}

impl Points {
    /// 2 to 65 X, a value for each, a multiplier of 1 to 4 (004), and as many places.
    fn fit(&self, places: [usize; 2]) -> bool {
        let count = self.x.len();
        (2..=GREATEST_X_COUNT).contains(&count)
            && self.values.len() == count
            && (1..=4).contains(&self.multiplier)
            && places == [count, count]
    }

    fn is_of_a_floor(&self) -> bool {
        let between = |&x: &u16| self.x[0] < x && x < self.x[1];
        self.x[0] < self.x[1] && self.x[2..].iter().all(between) && all_differ(&self.x)
    }

    fn library_answer(&self, places: [usize; 2]) -> Given<(Vec<u8>, Vec<u8>)> {
        let ((holds, flags), y) = lend(places[0], FILLING, |y| {
            lend(places[1], FILLING, |flags| {
                library::floor_points(&self.x, &self.values, self.multiplier, y, flags)
            })
        });
        Given { answer: Answer::Holds(holds), left: (y, flags) }
    }

    /// Where the lists fit and are of a floor.
    fn second_answer(&self) -> Given<(Vec<u8>, Vec<u8>)> {
        let range = range(self.multiplier.into());
        let (y, flags) = final_y(&wide(&self.x), &wide(&self.values), range);
        let y = y.into_iter().map(|y| y as u8).collect();
        Given { answer: Answer::Holds(true), left: (y, flags.into_iter().map(u8::from).collect()) }
    }

    fn in_words(&self, places: [usize; 2]) -> String {
        let (x, values) = (hex(&self.x, 4), hex(&self.values, 4));
        format!("x {x} values {values} multiplier {} into {places:?} places", self.multiplier)
    }
}

/// Hands one floor to both, with a place for each point.
pub fn points(points: &Points, report: &mut Report) -> Result<(), String> {
    points_into(points, [points.x.len(); 2], report)
}

/// The same with so many places for Y values and for flags.
fn points_into(points: &Points, places: [usize; 2], report: &mut Report) -> Result<(), String> {
    let library = points.library_answer(places);
    let input = || points.in_words(places);
    if !points.fit(places) {
        let zeros = (vec![0; places[0]], vec![0; places[1]]);
        let second = Given { answer: Answer::Holds(false), left: zeros };
        return report.compare(Call::FloorPoints, &library, &second, input);
    }
    if points.is_of_a_floor() {
        return report.compare(Call::FloorPoints, &library, &points.second_answer(), input);
    }
    let (y, flags) = &library.left;
    let kept = library.answer == Answer::Holds(true)
        && [y.len(), flags.len()] == places
        && y.iter().all(|&y| u32::from(y) < range(points.multiplier.into()))
        && flags.iter().all(|&flag| flag <= 1);
    kept.then_some(()).ok_or_else(|| format!("floor_points of {}\n  library {library:?}", input()))
}

impl Drawn {
    /// As many X, Y and flags, at least one, and the first X is 0.
    fn fits(&self) -> bool {
        self.x.first() == Some(&0) && self.y.len() == self.x.len() && self.flags.len() == self.x.len()
    }

    fn is_of_a_floor(&self) -> bool {
        self.y.iter().all(|y| y.checked_mul(self.multiplier).is_some()) && all_differ(&self.x)
    }

    fn library_answer(&self, half: usize) -> Given<Vec<u8>> {
        let (holds, out) = lend(half, FILLING, |out| {
            library::floor_curve(&self.x, &self.y, &self.flags, self.multiplier, out)
        });
        Given { answer: Answer::Holds(holds), left: out }
    }

    fn second_answer(&self, half: usize) -> Given<Vec<u8>> {
        let flags: Vec<bool> = self.flags.iter().map(|&flag| flag != 0).collect();
        let out = curve(&wide(&self.x), &wide(&self.y), &flags, self.multiplier.into(), half);
        Given { answer: Answer::Holds(true), left: out }
    }

    fn in_words(&self, half: usize) -> String {
        let (x, y, flags) = (hex(&self.x, 4), hex(&self.y, 2), hex(&self.flags, 2));
        format!("x {x} y {y} flags {flags} multiplier {} into {half} places", self.multiplier)
    }
}

/// Hands one list of points to both, for a curve of so many places.
fn drawn(drawn: &Drawn, half: usize, report: &mut Report) -> Result<(), String> {
    let library = drawn.library_answer(half);
    let input = || drawn.in_words(half);
    if !drawn.fits() {
        let second = Given { answer: Answer::Holds(false), left: vec![0; half] };
        return report.compare(Call::FloorCurve, &library, &second, input);
    }
    if drawn.is_of_a_floor() {
        return report.compare(Call::FloorCurve, &library, &drawn.second_answer(half), input);
    }
    let kept = library.answer == Answer::Holds(true) && library.left.len() == half;
    kept.then_some(()).ok_or_else(|| format!("floor_curve of {}\n  library {library:?}", input()))
}

/// Final Y of a floor and then its curve.
pub fn floor(floor: &Points, half: usize, report: &mut Report) -> Result<(), String> {
    points(floor, report)?;
    let Given { left: (y, flags), .. } = floor.library_answer([floor.x.len(); 2]);
    drawn(&Drawn { x: floor.x.clone(), y, flags, multiplier: floor.multiplier }, half, report)
}

/// One round: floors with their curves, points of any Y and flags, lists that do not fit,
/// and lists that are of no floor.
pub fn round(random: &mut Random, report: &mut Report) -> Result<(), String> {
    for _ in 0..100 {
        let half = random_half(random);
        floor(&random_floor(random, 0), half, report)?;
        let least = random.below(1_000) as u16;
        points(&random_floor(random, least), report)?;
        drawn(&random_points(random), half, report)?;
        unfit_points(random, report)?;
        unfit_drawn(random, report)?;
        of_no_floor(random, report)?;
    }
    Ok(())
}

/// A floor of 2 to 65 points whose least X is given.
pub fn random_floor(random: &mut Random, least: u16) -> Points {
    let count = match random.below(6) {
        0 => GREATEST_X_COUNT,
        1 => 2,
        _ => random.between(2, GREATEST_X_COUNT as u32) as usize,
    };
    let multiplier = random.between(1, 4) as u8;
    Points { x: random_x(random, least, count), values: random_values(random, count, multiplier), multiplier }
}

/// The least X, the greatest, and different ones between them in any order.
fn random_x(random: &mut Random, least: u16, count: usize) -> Vec<u16> {
    let room = u32::from(u16::MAX - least);
    let width = match random.below(8) {
        0 => room,
        1 => count as u32,
        _ => (1 << random.between(7, 15)).clamp(count as u32, room),
    };
    let mut x = vec![least, least + width as u16];
    while x.len() < count {
        let next = least + random.between(1, width - 1) as u16;
        if !x.contains(&next) {
            x.push(next);
        }
    }
    x
}

/// Small values, values up to the range or some way past it, or any; some are 0.
fn random_values(random: &mut Random, count: usize, multiplier: u8) -> Vec<u16> {
    let range = range(multiplier.into());
    let bound = *random.pick(&[4, range / 2, range, range, 2 * range, 8_192, 1 << 16]);
    let zeros = *random.pick(&[1, 2, 5, 1_000]);
    (0..count).map(|_| if random.one_in(zeros) { 0 } else { random.below(bound) as u16 }).collect()
}

fn random_half(random: &mut Random) -> usize {
    match random.below(5) {
        0 => random.below(3) as usize,
        1 => random.below(2 * MOST_HALF) as usize,
        _ => 32 << random.below(8),
    }
}

/// Points in any order with any flags and Y values that the multiplier leaves a byte.
fn random_points(random: &mut Random) -> Drawn {
    let most = if random.one_in(8) { 200 } else { 65 };
    let count = random.between(1, most) as usize;
    let mut x = random_x(random, 0, count.max(2));
    random.shuffle(&mut x[1..]);
    x.truncate(count);
    let multiplier = *random.pick(&[1, 1, 2, 3, 4, 0, 5, 255]);
    let greatest = u32::from(u8::MAX.checked_div(multiplier).unwrap_or(u8::MAX));
    let unflagged = random.between(1, 4);
    Drawn {
        y: (0..count).map(|_| random.between(0, greatest) as u8).collect(),
        flags: (0..count)
            .map(|_| if random.one_in(unflagged) { 0 } else { random.between(1, 255) as u8 })
            .collect(),
        x,
        multiplier,
    }
}

/// A floor with one length or the multiplier outside what fits.
fn unfit_points(random: &mut Random, report: &mut Report) -> Result<(), String> {
    let mut floor = random_floor(random, 0);
    let mut places = [floor.x.len(); 2];
    match random.below(7) {
        0 => floor.multiplier = *random.pick(&[0, 5, 6, 128, 255]),
        1 => floor.x = change_length(random, floor.x),
        2 => floor.values = change_length(random, floor.values),
        3 => places[0] = change_length(random, vec![0u8; places[0]]).len(),
        4 => places[1] = change_length(random, vec![0u8; places[1]]).len(),
        5 => {
            let count = random.below(2) as usize;
            (floor.x, floor.values, places) = (vec![0; count], vec![0; count], [count; 2]);
        }
        _ => {
            let count = GREATEST_X_COUNT + random.between(1, 3) as usize;
            (floor.x, places) = (random_x(random, 0, count), [count; 2]);
            floor.values = random_values(random, count, floor.multiplier);
        }
    }
    points_into(&floor, places, report)
}

/// Points of which one list has another length, or the first X is not 0.
fn unfit_drawn(random: &mut Random, report: &mut Report) -> Result<(), String> {
    let mut points = random_points(random);
    match random.below(5) {
        0 => points.x[0] = random.between(1, u16::MAX.into()) as u16,
        1 => points.x = change_length(random, points.x),
        2 => points.y = change_length(random, points.y),
        3 => points.flags = change_length(random, points.flags),
        _ => (points.x, points.y, points.flags) = (vec![], vec![], vec![]),
    }
    let half = random_half(random);
    drawn(&points, half, report)
}

/// One place more or less, or a few more.
fn change_length<T: Copy + Default>(random: &mut Random, mut list: Vec<T>) -> Vec<T> {
    let length = match random.below(3) {
        0 => list.len() - 1,
        1 => list.len() + 1,
        _ => list.len() + random.between(1, 40) as usize,
    };
    list.resize(length, T::default());
    list
}

/// X that repeat or enclose nothing, and Y values of which the multiplier makes more than
/// a byte.
fn of_no_floor(random: &mut Random, report: &mut Report) -> Result<(), String> {
    let mut floor = random_floor(random, 0);
    let bound = *random.pick(&[2, 40, 1 << 16]);
    floor.x = floor.x.iter().map(|_| random.below(bound) as u16).collect();
    points(&floor, report)?;
    let mut points = random_points(random);
    let bytes = random.bytes(points.y.len());
    points.y = bytes;
    points.x[1..].iter_mut().for_each(|x| *x = random.below(bound) as u16);
    let half = random_half(random);
    drawn(&points, half, report)
}
