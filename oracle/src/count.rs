//! Counts every point over all 2^26 settings of M, Q, r, T and S for one secret, setting by setting,
//! and compares with the document's table.

use crate::points::{masked_inversion, Order, Record, COUNT};
use crate::tally::Tally;
use std::ops::Range;

/// How often each point (index: number less 1) takes each value.
pub type Counts = [[u32; 16]; COUNT];

/// One row of the document's table.
pub struct Group {
    pub name: &'static str,
    pub ranges: &'static [(usize, usize)],
    pub values: usize,
    zero: u32,
    other: u32,
}

pub const TABLE: [Group; 4] = [
    Group {
        name: "nibble products",
        ranges: &[(5, 8), (47, 50), (55, 58)],
        values: 16,
        zero: 8126464,
        other: 3932160,
    },
    Group {
        name: "pair products",
        ranges: &[(19, 22), (31, 34), (39, 42)],
        values: 4,
        zero: 29360128,
        other: 12582912,
    },
    Group {
        name: "other nibbles",
        ranges: &[(1, 4), (9, 14), (51, 54), (59, 62)],
        values: 16,
        zero: 4194304,
        other: 4194304,
    },
    Group {
        name: "other pairs",
        ranges: &[(15, 18), (23, 30), (35, 38), (43, 46)],
        values: 4,
        zero: 16777216,
        other: 16777216,
    },
];

impl Group {
    pub fn points(&self) -> impl Iterator<Item = usize> + '_ {
        self.ranges.iter().flat_map(|&(first, last)| first..=last)
    }

    /// Whether a point of this row has the row's counts, and no value beyond the row's width.
    pub fn holds(&self, counts: &Counts, point: usize) -> bool {
        let expected = |value| match value {
            0 => self.zero,
            _ if value < self.values => self.other,
            _ => 0,
        };
        (0..16).all(|value| counts[point - 1][value] == expected(value))
    }
}

/// Counts all settings for the tower byte `a`, on two threads.
pub fn count(a: u8, order: Order) -> Counts {
    std::thread::scope(|scope| {
        let upper = scope.spawn(move || count_masks(a, order, 128..256));
        let mut counts = count_masks(a, order, 0..128);
        let rest = upper.join().expect("the counting thread ends");
        counts.iter_mut().flatten().zip(rest.iter().flatten()).for_each(|(sum, more)| *sum += more);
        counts
    })
}

fn count_masks(a: u8, order: Order, masks: Range<usize>) -> Counts {
    let mut counts = [[0; 16]; COUNT];
    for mask in masks {
        // The order is a constant in each arm, so that the inner loop does not ask for it again.
        match order {
            Order::MaskFirst => count_records(a, mask as u8, Order::MaskFirst, &mut counts),
            Order::MaskLast => count_records(a, mask as u8, Order::MaskLast, &mut counts),
        }
    }
    counts
}

/// The 2^18 records for one mask.
#[inline(always)]
fn count_records(a: u8, mask: u8, order: Order, counts: &mut Counts) {
    for setting in 0..1u32 << 18 {
        let bytes = [(setting >> 8) as u8, setting as u8, (setting >> 16) as u8];
        let points = masked_inversion(order, a ^ mask, mask, &Record::read(&bytes));
        for (of_point, value) in counts.iter_mut().zip(points) {
            of_point[usize::from(value & 15)] += 1;
        }
    }
}

/// The points whose counts are not the table's.
pub fn misfits(counts: &Counts) -> Vec<usize> {
    let off = |group: &'static Group| group.points().filter(|&point| !group.holds(counts, point));
    let mut points: Vec<usize> = TABLE.iter().flat_map(off).collect();
    points.sort();
    points
}

/// Prints a line for each row of the table; true when all 62 points are as the table says.
pub fn report(a: u8) -> bool {
    let (counts, mut tally) = (self::count(a, Order::MaskFirst), Tally::default());
    for group in &TABLE {
        let numbers: Vec<String> = group.ranges.iter().map(|(first, last)| format!("{first}-{last}")).collect();
        let (held, all) = (group.points().filter(|&point| group.holds(&counts, point)).count(), group.points().count());
        let table = format!("{} / {}", group.zero, group.other);
        println!("{} {}: {held} of {all} points count {table}", group.name, numbers.join(", "));
        for point in group.points() {
            tally.check(group.holds(&counts, point), format!("point {point}: {:?}", counts[point - 1]));
        }
    }
    tally.report()
}

/// The same settings with the mask added last: says which points then leave the table.
pub fn report_wrong(a: u8) -> bool {
    let wrong = misfits(&count(a, Order::MaskLast));
    let numbers: Vec<String> = wrong.iter().map(usize::to_string).collect();
    println!("mask last, A = {a:02x}: {} of {COUNT} points do not match the table: {}", wrong.len(), numbers.join(" "));
    true
}
