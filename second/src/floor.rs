//! Floor type 1 (004; 01, "Audio order", 2 and 3).

use crate::bits::{ilog, Cursor, Cut};
use crate::book::Book;
use crate::refusal::{require, Refusal};

/// The most X values a floor has, the two implied ones included (004).
pub const GREATEST_X_COUNT: usize = 65;

/// One floor's content.
#[derive(Clone, Debug, PartialEq, Eq)]
pub struct Floor {
    /// Each partition's class.
    partition_classes: Vec<u8>,
    /// Classes 0 to the greatest that a partition names.
    classes: Vec<Class>,
    multiplier: u32,
    range_bits: u32,
    /// In list order, 0 and 2^range_bits first.
    x_list: Vec<u32>,
    order: Order,
}

/// A partition class.
#[derive(Clone, Debug, PartialEq, Eq)]
pub struct Class {
    pub dimensions: u32,
    pub subclass_bits: u32,
    /// Where the subclass bits are not 0.
    pub master_book: Option<u8>,
    /// 2^subclass_bits places, each a book or nothing.
    pub subclass_books: Vec<Option<u8>>,
}

/// What the X list alone settles: each place's neighbours and the order of X.
#[derive(Clone, Debug, PartialEq, Eq)]
struct Order {
    /// For list places 2 and up: the places of the low and the high neighbour.
    neighbours: Vec<(usize, usize)>,
    /// List places in ascending order of X.
    ascending: Vec<usize>,
}

impl Order {
    fn of(x_list: &[u32]) -> Self {
        Order { neighbours: all_neighbours(x_list), ascending: ascending(x_list) }
    }
}

fn all_neighbours(x_list: &[u32]) -> Vec<(usize, usize)> {
    (2..x_list.len()).map(|i| neighbours(x_list, i)).collect()
}

fn ascending(x_list: &[u32]) -> Vec<usize> {
    let mut ascending: Vec<usize> = (0..x_list.len()).collect();
    ascending.sort_by_key(|&i| x_list[i]);
    ascending
}

/// Among earlier list places, the greatest X below and the least X above (000,
/// sections 9.2.4 and 9.2.5).
fn neighbours(x_list: &[u32], i: usize) -> (usize, usize) {
    let low = (0..i).filter(|&n| x_list[n] < x_list[i]).max_by_key(|&n| x_list[n]);
    let high = (0..i).filter(|&n| x_list[n] > x_list[i]).min_by_key(|&n| x_list[n]);
    let enclosed = "the first two X values enclose the others";
    (low.expect(enclosed), high.expect(enclosed))
}

/// The range of Y for a multiplier 1 to 4 (004).
pub fn range(multiplier: u32) -> u32 {
    [256, 128, 86, 64][multiplier as usize - 1]
}

/// The point at `x` on the line between two points (01, "Audio order", 3).
pub fn point_on_line(x0: u32, y0: i64, x1: u32, y1: i64, x: u32) -> i64 {
    let offset = (y1 - y0).abs() * i64::from(x - x0) / i64::from(x1 - x0);
    if y1 < y0 {
        y0 - offset
    } else {
        y0 + offset
    }
}

/// The final Y of one point from its predicted Y and the value read (004, step 1).
pub fn unwrap_value(predicted: i64, value: u32, range: u32) -> i64 {
    let value = i64::from(value);
    let high_room = i64::from(range) - predicted;
    let low_room = predicted;
    let room = 2 * high_room.min(low_room);
    if value == 0 {
        predicted
    } else if value >= room {
        if high_room > low_room {
            value - low_room + predicted
        } else {
            predicted - value + high_room - 1
        }
    } else if value % 2 == 1 {
        predicted - (value + 1) / 2
    } else {
        predicted + value / 2
    }
}

/// Final Y and flags in list order from the values read (004, step 1), clamped
/// to 0..range-1 after the last one. The first two X enclose the others.
pub fn final_y(x_list: &[u32], values: &[u32], range: u32) -> (Vec<u32>, Vec<bool>) {
    final_y_between(&all_neighbours(x_list), x_list, values, range)
}

fn final_y_between(
    neighbours: &[(usize, usize)],
    x_list: &[u32],
    values: &[u32],
    range: u32,
) -> (Vec<u32>, Vec<bool>) {
    let mut y: Vec<i64> = values.iter().map(|&value| i64::from(value)).collect();
    let mut flags = vec![true, true];
    for (&(low, high), i) in neighbours.iter().zip(2..) {
        let predicted = point_on_line(x_list[low], y[low], x_list[high], y[high], x_list[i]);
        y[i] = unwrap_value(predicted, values[i], range);
        flags.push(values[i] != 0);
        if values[i] != 0 {
            flags[low] = true;
            flags[high] = true;
        }
    }
    let greatest = i64::from(range) - 1;
    let clamped = y.into_iter().map(|y| y.clamp(0, greatest) as u32).collect();
    (clamped, flags)
}

/// The curve of `size` values through the flagged points (004, step 2): lines
/// between them in order of X, Y times the multiplier, flat past the last.
pub fn curve(x_list: &[u32], final_y: &[u32], flags: &[bool], multiplier: u32, size: usize) -> Vec<u8> {
    let mut curve = vec![0; size];
    draw(&ascending(x_list), x_list, final_y, flags, multiplier, &mut curve);
    curve
}

fn draw(
    ascending: &[usize],
    x_list: &[u32],
    final_y: &[u32],
    flags: &[bool],
    multiplier: u32,
    curve: &mut [u8],
) {
    let height = |i: usize| i64::from(final_y[i] * multiplier);
    let (mut x0, mut y0) = (0, height(ascending[0]));
    for &i in ascending[1..].iter().filter(|&&i| flags[i]) {
        let (x1, y1) = (x_list[i], height(i));
        for (x, value) in (x0..x1).zip(curve.iter_mut().skip(x0 as usize)) {
            *value = point_on_line(x0, y0, x1, y1, x) as u8;
        }
        (x0, y0) = (x1, y1);
    }
    for value in curve.iter_mut().skip(x0 as usize) {
        *value = y0 as u8;
    }
}

impl Floor {
    /// A floor of this content, where its X list has 0 and 2^range_bits in front and
    /// different values between them.
    pub fn new(
        partition_classes: Vec<u8>,
        classes: Vec<Class>,
        multiplier: u32,
        range_bits: u32,
        x_list: Vec<u32>,
    ) -> Option<Floor> {
        let end = 1u32.checked_shl(range_bits)?;
        let enclosed = x_list.starts_with(&[0, end]) && x_list[2..].iter().all(|&x| x < end);
        if !enclosed || !all_different(&x_list) {
            return None;
        }
        let order = Order::of(&x_list);
        Some(Floor { partition_classes, classes, multiplier, range_bits, x_list, order })
    }

    pub fn partition_classes(&self) -> &[u8] {
        &self.partition_classes
    }

    pub fn classes(&self) -> &[Class] {
        &self.classes
    }

    pub fn multiplier(&self) -> u32 {
        self.multiplier
    }

    pub fn range_bits(&self) -> u32 {
        self.range_bits
    }

    pub fn x_list(&self) -> &[u32] {
        &self.x_list
    }

    /// The values of one channel's floor in list order, `None` for an unused one
    /// (004, "packet decode").
    pub fn read_values(&self, books: &[Book], cursor: &mut Cursor) -> Result<Option<Vec<u32>>, Cut> {
        if !cursor.flag()? {
            return Ok(None);
        }
        let width = ilog(range(self.multiplier) - 1);
        let mut values = Vec::with_capacity(self.x_list.len());
        values.push(cursor.field(width)?);
        values.push(cursor.field(width)?);
        for &class in &self.partition_classes {
            self.classes[usize::from(class)].read_values(books, cursor, &mut values)?;
        }
        Ok(Some(values))
    }

    /// Draws the curve that the values give.
    pub fn draw(&self, values: &[u32], curve: &mut [u8]) {
        let range = range(self.multiplier);
        let (final_y, flags) = final_y_between(&self.order.neighbours, &self.x_list, values, range);
        draw(&self.order.ascending, &self.x_list, &final_y, &flags, self.multiplier, curve);
    }
}

impl Class {
    fn read_values(&self, books: &[Book], cursor: &mut Cursor, values: &mut Vec<u32>) -> Result<(), Cut> {
        let mut subclasses = match self.master_book {
            Some(book) => books[usize::from(book)].read_entry(cursor)?,
            None => 0,
        };
        for _ in 0..self.dimensions {
            let subclass = subclasses & ((1 << self.subclass_bits) - 1);
            subclasses >>= self.subclass_bits;
            values.push(match self.subclass_books[subclass as usize] {
                Some(book) => books[usize::from(book)].read_entry(cursor)?,
                None => 0,
            });
        }
        Ok(())
    }
}

/// Reads one floor of a setup packet, its type included.
pub(crate) fn read(cursor: &mut Cursor, books: usize) -> Result<Floor, Refusal> {
    let start = cursor.position();
    let floor_type = cursor.field(16)?;
    require(floor_type <= 1, 10, start)?;
    require(floor_type != 0, 14, start)?;
    let partitions = cursor.field(5)?;
    let mut partition_classes = Vec::new();
    for _ in 0..partitions {
        partition_classes.push(cursor.field(4)? as u8);
    }
    let class_count = partition_classes.iter().max().map_or(0, |&greatest| greatest + 1);
    let mut classes = Vec::new();
    for _ in 0..class_count {
        classes.push(read_class(cursor, books)?);
    }
    let multiplier = cursor.field(2)? + 1;
    let range_bits = cursor.field(4)?;
    let dimensions = partition_classes.iter().map(|&class| classes[usize::from(class)].dimensions);
    let x_list = read_x_list(cursor, range_bits, dimensions.sum(), start)?;
    Floor::new(partition_classes, classes, multiplier, range_bits, x_list).ok_or(Refusal::at(12, start))
}

fn read_class(cursor: &mut Cursor, books: usize) -> Result<Class, Refusal> {
    let dimensions = cursor.field(3)? + 1;
    let subclass_bits = cursor.field(2)?;
    let master_book = match subclass_bits {
        0 => None,
        _ => Some(read_book_number(cursor, books)?),
    };
    let mut subclass_books = Vec::new();
    for _ in 0..1 << subclass_bits {
        subclass_books.push(read_subclass_book(cursor, books)?);
    }
    Ok(Class { dimensions, subclass_bits, master_book, subclass_books })
}

/// A book number of 8 bits, judged at once.
pub(crate) fn read_book_number(cursor: &mut Cursor, books: usize) -> Result<u8, Refusal> {
    let place = cursor.position();
    let number = cursor.field(8)?;
    require((number as usize) < books, 11, place)?;
    Ok(number as u8)
}

/// The field less one is the book; 0 means none (004, 12).
fn read_subclass_book(cursor: &mut Cursor, books: usize) -> Result<Option<u8>, Refusal> {
    let place = cursor.position();
    let field = cursor.field(8)?;
    require(field as usize <= books, 11, place)?;
    Ok(field.checked_sub(1).map(|number| number as u8))
}

/// The X list, its count judged before each X; its values are judged when it is
/// complete (01).
fn read_x_list(cursor: &mut Cursor, range_bits: u32, explicit: u32, start: u64) -> Result<Vec<u32>, Refusal> {
    let mut x_list = vec![0, 1 << range_bits];
    for _ in 0..explicit {
        require(x_list.len() < GREATEST_X_COUNT, 12, start)?;
        x_list.push(cursor.field(range_bits)?);
    }
    Ok(x_list)
}

fn all_different(x_list: &[u32]) -> bool {
    (1..x_list.len()).all(|i| !x_list[..i].contains(&x_list[i]))
}
