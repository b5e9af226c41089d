//! Codebooks (002; 01, "Bits and books").

use crate::bits::{ilog, Cursor, Cut};
use crate::ledger::Codeword;
use crate::limits::Limits;
use crate::refusal::{require, Refusal};
use crate::space::CodeSpace;

/// The pattern a book begins with (002).
pub const PATTERN: u32 = 0x56_4342;

/// One book's content.
#[derive(Clone, Debug, PartialEq, Eq)]
pub struct Book {
    dimensions: u32,
    lengths: Vec<u8>,
    values: Option<Values>,
    tree: Tree,
}

/// The numbers behind a book's vectors: lookup type 1 or 2.
#[derive(Clone, Debug, PartialEq, Eq)]
pub struct Values {
    pub lookup_type: u32,
    /// The packed 32-bit words, as read.
    pub minimum: u32,
    pub delta: u32,
    /// How many bits a multiplicand has, 1 to 16.
    pub width: u32,
    pub sequence: bool,
    pub multiplicands: Vec<u16>,
}

/// What the lengths of a book's entries come to.
#[derive(Clone, Debug, PartialEq, Eq)]
pub enum Verdict {
    /// Each entry's codeword, `None` for an unused entry.
    Accepted(Vec<Option<Codeword>>),
    /// 7: at this entry the length's share exceeds the free code space.
    Exceeds { entry: usize },
    /// 8: this many strings are left over.
    LeftOver { strings: u64 },
}

/// Judges a book's lengths, one for each entry, 0 for an unused one: all are
/// entered (7), then the space has to be used up (8), but for a sole used entry
/// of length 1.
pub fn verdict(lengths: &[u8]) -> Verdict {
    let mut space = CodeSpace::default();
    let mut codewords = Vec::with_capacity(lengths.len());
    for (entry, &length) in lengths.iter().enumerate() {
        if length == 0 {
            codewords.push(None);
            continue;
        }
        match space.enter(u32::from(length)) {
            Some(codeword) => codewords.push(Some(codeword)),
            None => return Verdict::Exceeds { entry },
        }
    }
    let strings = space.free_strings();
    if strings == 0 || sole_entry(lengths).is_some() {
        Verdict::Accepted(codewords)
    } else {
        Verdict::LeftOver { strings }
    }
}

/// The number of a sole used entry of length 1, which is taken though it leaves space
/// over (01, row 8).
pub fn sole_entry(lengths: &[u8]) -> Option<u32> {
    let mut used = (0..).zip(lengths).filter(|&(_, &length)| length != 0);
    match (used.next(), used.next()) {
        (Some((entry, 1)), None) => Some(entry),
        _ => None,
    }
}

/// Reads one codeword of the book with these entry lengths: the entry and the
/// position behind it, or the cut. `None` where the lengths make no book.
pub fn read_codeword(lengths: &[u8], packet: &[u8], position: u64) -> Option<Result<(u32, u64), Cut>> {
    let book = Book::new(1, lengths.to_vec(), None).ok()?;
    let mut cursor = Cursor::at(packet, position);
    let read = book.read_entry(&mut cursor);
    Some(read.map(|entry| (entry, cursor.position())))
}

/// The greatest r with r^dimensions not above entries (000, section 9.2.3).
pub fn lookup1_values(entries: u32, dimensions: u32) -> u32 {
    let mut r = 0;
    while power_is_at_most(r + 1, dimensions, entries) {
        r += 1;
    }
    r
}

/// Whether base^exponent is at most `bound`, exactly.
pub fn power_is_at_most(base: u32, exponent: u32, bound: u32) -> bool {
    if base <= 1 {
        return base.pow(u32::from(exponent != 0)) <= bound;
    }
    let mut power = 1u64;
    for _ in 0..exponent {
        power *= u64::from(base);
        if power > u64::from(bound) {
            return false;
        }
    }
    power <= u64::from(bound)
}

impl Book {
    /// A book of this content, or what is wrong with its lengths.
    pub fn new(dimensions: u32, lengths: Vec<u8>, values: Option<Values>) -> Result<Book, Verdict> {
        match verdict(&lengths) {
            Verdict::Accepted(codewords) => {
                let tree = Tree::new(&codewords);
                Ok(Book { dimensions, lengths, values, tree })
            }
            refused => Err(refused),
        }
    }

    pub fn dimensions(&self) -> u32 {
        self.dimensions
    }

    /// How many entries there are, used or not.
    pub fn entries(&self) -> u32 {
        self.lengths.len() as u32
    }

    /// Each entry's length, 0 for an unused one.
    pub fn lengths(&self) -> &[u8] {
        &self.lengths
    }

    pub fn values(&self) -> Option<&Values> {
        self.values.as_ref()
    }

    /// The entry whose codeword comes next.
    pub fn read_entry(&self, cursor: &mut Cursor) -> Result<u32, Cut> {
        let cut = Cut { place: cursor.position() };
        self.tree.walk(cursor).ok_or(cut)
    }
}

/// The decision tree of 002; node 0 is the root.
#[derive(Clone, Debug, PartialEq, Eq)]
struct Tree {
    nodes: Vec<[Branch; 2]>,
}

/// Where a bit leads in the decision tree.
#[derive(Clone, Copy, Debug, PartialEq, Eq)]
enum Branch {
    Nowhere,
    Node(u32),
    Entry(u32),
}

impl Tree {
    fn new(codewords: &[Option<Codeword>]) -> Self {
        let used: Vec<_> = (0..).zip(codewords).filter_map(|(entry, word)| Some((entry, (*word)?))).collect();
        // A sole used entry takes one bit, whatever it is (02, wish 3): both ways lead to it.
        if let [(entry, _)] = used[..] {
            return Tree { nodes: vec![[Branch::Entry(entry); 2]] };
        }
        let mut tree = Tree { nodes: vec![[Branch::Nowhere; 2]] };
        for (entry, codeword) in used {
            tree.add_leaf(entry, codeword);
        }
        tree
    }

    fn add_leaf(&mut self, entry: u32, codeword: Codeword) {
        let nodes = &mut self.nodes;
        let mut node = 0;
        for place in 0..codeword.length - 1 {
            let side = codeword.bit(place) as usize;
            node = match nodes[node][side] {
                Branch::Node(next) => next as usize,
                _ => {
                    nodes[node][side] = Branch::Node(nodes.len() as u32);
                    nodes.push([Branch::Nowhere; 2]);
                    nodes.len() - 1
                }
            };
        }
        nodes[node][codeword.bit(codeword.length - 1) as usize] = Branch::Entry(entry);
    }

    /// Walks the tree one bit at a time; `None` where the packet ends on the way.
    fn walk(&self, cursor: &mut Cursor) -> Option<u32> {
        let mut node = 0;
        loop {
            match self.nodes[node][cursor.next_bit()? as usize] {
                Branch::Node(next) => node = next as usize,
                Branch::Entry(entry) => return Some(entry),
                Branch::Nowhere => unreachable!("an accepted book's tree is full"),
            }
        }
    }
}

/// Entries and multiplicands of the books read so far.
#[derive(Clone, Copy, Debug, Default)]
pub(crate) struct Totals {
    entries: u32,
    multiplicands: u64,
}

/// Reads one book of a setup packet.
pub(crate) fn read(cursor: &mut Cursor, limits: &Limits, totals: &mut Totals) -> Result<Book, Refusal> {
    let start = cursor.position();
    require(cursor.field(24)? == PATTERN, 6, start)?;
    let place = cursor.position();
    let dimensions = cursor.field(16)?;
    require(dimensions != 0, 6, place)?;
    let entries = read_entries(cursor, limits, totals)?;
    let lengths = read_lengths(cursor, entries, start)?;
    let book = Book::new(dimensions, lengths, None).map_err(|verdict| match verdict {
        Verdict::Exceeds { .. } => Refusal::at(7, start),
        _ => Refusal::at(8, start),
    })?;
    let values = read_values(cursor, &book, limits, totals, start)?;
    Ok(Book { values, ..book })
}

fn read_entries(cursor: &mut Cursor, limits: &Limits, totals: &mut Totals) -> Result<u32, Refusal> {
    let place = cursor.position();
    let entries = cursor.field(24)?;
    require(entries != 0, 6, place)?;
    require(entries <= limits.entries_in_a_book, 14, place)?;
    totals.entries += entries;
    require(totals.entries <= limits.entries_in_all, 14, place)?;
    Ok(entries)
}

fn read_lengths(cursor: &mut Cursor, entries: u32, start: u64) -> Result<Vec<u8>, Refusal> {
    if cursor.flag()? {
        return read_ordered_lengths(cursor, entries, start);
    }
    let sparse = cursor.flag()?;
    let mut lengths = Vec::with_capacity(entries as usize);
    for _ in 0..entries {
        let used = !sparse || cursor.flag()?;
        lengths.push(if used { cursor.field(5)? as u8 + 1 } else { 0 });
    }
    Ok(lengths)
}

/// Runs of ascending lengths (002). The length is judged before its run's number
/// is read.
fn read_ordered_lengths(cursor: &mut Cursor, entries: u32, start: u64) -> Result<Vec<u8>, Refusal> {
    let mut length = cursor.field(5)? + 1;
    let mut lengths = Vec::with_capacity(entries as usize);
    while lengths.len() < entries as usize {
        require(length <= 32, 6, start)?;
        let left = entries - lengths.len() as u32;
        let place = cursor.position();
        let number = cursor.field(ilog(left))?;
        require(number <= left, 6, place)?;
        lengths.resize(lengths.len() + number as usize, length as u8);
        length += 1;
    }
    Ok(lengths)
}

fn read_values(
    cursor: &mut Cursor,
    book: &Book,
    limits: &Limits,
    totals: &mut Totals,
    start: u64,
) -> Result<Option<Values>, Refusal> {
    let place = cursor.position();
    let lookup_type = cursor.field(4)?;
    require(lookup_type <= 2, 6, place)?;
    if lookup_type == 0 {
        return Ok(None);
    }
    let minimum = cursor.field(32)?;
    let delta = cursor.field(32)?;
    let width = cursor.field(4)? + 1;
    let sequence = cursor.flag()?;
    let count = multiplicand_count(lookup_type, book.entries(), book.dimensions());
    totals.multiplicands += count;
    require(totals.multiplicands <= limits.multiplicands_in_all, 14, start)?;
    let mut multiplicands = Vec::with_capacity(count as usize);
    for _ in 0..count {
        multiplicands.push(cursor.field(width)? as u16);
    }
    Ok(Some(Values { lookup_type, minimum, delta, width, sequence, multiplicands }))
}

/// How many multiplicands a book of lookup type 1 or 2 has (002).
pub fn multiplicand_count(lookup_type: u32, entries: u32, dimensions: u32) -> u64 {
    match lookup_type {
        1 => u64::from(lookup1_values(entries, dimensions)),
        _ => u64::from(entries) * u64::from(dimensions),
    }
}
