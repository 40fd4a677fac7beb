//! The masked inversion as its 62 points, in the order of additions that the document fixes, and in
//! the wrong order (mask last) that gives the same answer and shows the secret.

use crate::tower;

pub const COUNT: usize = 62;
pub type Points = [u8; COUNT];

/// The fresh masks of one S-box: nibbles q and t, the tower byte s, the pair r.
#[derive(Clone, Copy)]
pub struct Record {
    pub q: u8,
    pub t: u8,
    pub s: u8,
    pub r: u8,
}

impl Record {
    pub fn read(bytes: &[u8]) -> Record {
        Record { q: bytes[0] >> 4, t: bytes[0] & 15, s: bytes[1], r: bytes[2] }
    }
}

/// Where the fresh mask enters a running sum.
#[derive(Clone, Copy, PartialEq)]
pub enum Order {
    MaskFirst,
    MaskLast,
}

/// One storey of the tower: the product of two halves, and the scaled square.
trait Storey {
    const BITS: u32;
    fn product(x: u8, y: u8) -> u8;
    fn scaled_square(x: u8) -> u8;

    #[inline(always)]
    fn halves(joined: u8) -> (u8, u8) {
        (joined >> Self::BITS, joined & ((1 << Self::BITS) - 1))
    }

    #[inline(always)]
    fn join(high: u8, low: u8) -> u8 {
        high << Self::BITS | low
    }
}

struct Nibbles;
struct Pairs;

impl Storey for Nibbles {
    const BITS: u32 = 4;
    #[inline(always)]
    fn product(x: u8, y: u8) -> u8 {
        tower::nibble_product(x, y)
    }
    #[inline(always)]
    fn scaled_square(x: u8) -> u8 {
        tower::nibble_scaled_square(x)
    }
}

impl Storey for Pairs {
    const BITS: u32 = 2;
    #[inline(always)]
    fn product(x: u8, y: u8) -> u8 {
        tower::pair_product(x, y)
    }
    #[inline(always)]
    fn scaled_square(x: u8) -> u8 {
        tower::pair_scaled_square(x)
    }
}

/// One sum for each term. With the mask last, the first sum is of two terms, so the number is the same.
#[inline(always)]
fn running_sums<const N: usize>(order: Order, mask: u8, terms: [u8; N]) -> [u8; N] {
    let mut sum = if order == Order::MaskFirst { mask } else { terms[0] };
    std::array::from_fn(|i| {
        sum ^= match order {
            Order::MaskFirst => terms[i],
            Order::MaskLast if i + 1 < N => terms[i + 1],
            Order::MaskLast => mask,
        };
        sum
    })
}

/// Points 1 to 14 for nibbles, 15 to 28 for pairs: the norm of a masked pair of halves.
#[inline(always)]
fn fourteen<L: Storey>(order: Order, masked: u8, mask: u8, fresh: u8) -> [u8; 14] {
    let ((a1, a0), (m1, m0)) = (L::halves(masked), L::halves(mask));
    let (a_sum, m_sum) = (a1 ^ a0, m1 ^ m0);
    let (a_square, m_square) = (L::scaled_square(a_sum), L::scaled_square(m_sum));
    let products = [L::product(a1, a0), L::product(a1, m0), L::product(a0, m1), L::product(m1, m0)];
    let [p5, p6, p7, p8] = products;
    let sums = running_sums(order, fresh, [a_square, m_square, p5, p6, p7, p8]);
    join_points(&[&[a_sum, a_square, m_sum, m_square], &products, &sums])
}

/// Points 31 to 38 and the three groups built like them: a masked half times a masked inverse.
#[inline(always)]
fn eight<L: Storey>(order: Order, half: (u8, u8), inverse: (u8, u8), fresh: u8) -> [u8; 8] {
    let ((x, m), (e, t)) = (half, inverse);
    let products = [L::product(x, e), L::product(x, t), L::product(m, e), L::product(m, t)];
    join_points(&[&products, &running_sums(order, fresh, products)])
}

#[inline(always)]
fn join_points<const N: usize>(parts: &[&[u8]]) -> [u8; N] {
    let (mut all, mut at) = ([0; N], 0);
    for part in parts {
        all[at..at + part.len()].copy_from_slice(part);
        at += part.len();
    }
    all
}

/// All 62 points for a masked tower byte, its mask and its record. Point p is at index p less 1.
#[inline(always)]
pub fn masked_inversion(order: Order, masked: u8, mask: u8, record: &Record) -> Points {
    let ((a1, a0), (m1, m0)) = (Nibbles::halves(masked), Nibbles::halves(mask));
    let ((q1, q0), (t1, t0)) = (Pairs::halves(record.q), Pairs::halves(record.t));
    let (s1, s0) = Nibbles::halves(record.s);

    let nibbles = fourteen::<Nibbles>(order, masked, mask, record.q);
    let (b1, b0) = Pairs::halves(nibbles[13]);
    let pairs = fourteen::<Pairs>(order, nibbles[13], record.q, record.r);
    let exchanged = [tower::exchange(pairs[13]), tower::exchange(record.r)];
    let inverse = (exchanged[0], exchanged[1]);
    let high = eight::<Pairs>(order, (b0, q0), inverse, t1);
    let low = eight::<Pairs>(order, (b1, q1), inverse, t0);
    let e = (Pairs::join(high[7], low[7]), record.t);
    let upper = eight::<Nibbles>(order, (a0, m0), e, s1);
    let lower = eight::<Nibbles>(order, (a1, m1), e, s0);
    join_points(&[&nibbles, &pairs, &exchanged, &high, &low, &upper, &lower])
}

/// The masked inverse: points 54 and 62 joined. Its mask is S.
pub fn masked_inverse(points: &Points) -> u8 {
    Nibbles::join(points[53], points[61])
}
