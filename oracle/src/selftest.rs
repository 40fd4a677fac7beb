//! The oracle's checks of itself: worked examples and edges, FIPS 197's vectors, the tower
//! against the AES field, masked calls against bare ones, the pool, and openssl where it is installed.

use crate::aes;
use crate::calls;
use crate::case::{first_defect, some_defects, Call, Case};
use crate::case_block::{self, Blocks};
use crate::case_sbox::{self, Sboxes};
use crate::openssl;
use crate::points::{masked_inverse, masked_inversion, Order, Record};
use crate::pool_selftest;
use crate::rng::Rng;
use crate::sbox::{masked_sbox, Direction};
use crate::show::hex;
use crate::strip;
use crate::tally::Tally;
use crate::tower;
use crate::vectors;

const DAMAGED: usize = 5000;

pub fn run() -> bool {
    let (mut tally, mut rng) = (Tally::default(), Rng::new(197));
    examples(&mut tally);
    the_tower_is_the_field(&mut tally);
    published_expansions(&mut tally);
    published_blocks(&mut tally, &mut rng);
    sboxes_unmask(&mut tally, &mut rng);
    both_orders_answer_alike(&mut tally, &mut rng);
    blocks_unmask(&mut tally);
    edges(&mut tally, &mut rng);
    record_reader(&mut tally, &mut rng);
    refusals_in_order(&mut tally, &mut rng);
    pool_selftest::run(&mut tally, &mut rng);
    openssl::compare(&mut tally, &mut rng);
    tally.report()
}

/// P1 to P14.
fn examples(tally: &mut Tally) {
    tally.check(tower::pair_product(1, 2) == 3, "P1");
    tally.check(tower::nibble_inverse(0) == 0, "P2");
    tally.check(tower::nibble_inverse(1) == 0xc, "P3");
    tally.check(tower::to_tower(0x01) == 0xff, "P4");
    tally.check(tower::to_tower(0x02) == 0xa9, "P5");
    tally.check(tower::to_tower(0x53) == 0xed, "P6");
    tally.check(tower::to_tower(0xca) == 0xcb, "P7");
    tally.check(tower::from_tower(0xed) == 0x53, "P8");
    tally.check(aes::sbox(0x00) == 0x63, "P9");
    tally.check(aes::sbox(0x53) == 0xed, "P10");
    tally.check(aes::inverse_sbox(0xed) == 0x53, "P11");
    let got = masked_sbox(Direction::Encrypt, 0x11, 0x42, &Record::read(&[0x59, 0x3c, 0x01]));
    tally.check((got.data, got.mask) == (0xa0, 0x4d), "P12");
    let fourteen = [0xc, 0xc, 0xf, 0x1, 0x5, 0x6, 0x9, 0xf, 0x9, 0x8, 0xd, 0xb, 0x2, 0xd];
    tally.check(got.points[..14] == fourteen, "P13");
    let later = [28, 38, 46, 54, 62].map(|point| got.points[point - 1]);
    tally.check(later == [2, 2, 3, 0xf, 7], "P14");
}

/// The document's columns, and products and inverses carried over to the AES field.
fn the_tower_is_the_field(tally: &mut Tally) {
    let from = [0x64, 0x78, 0x6e, 0x8c, 0x68, 0x29, 0xde, 0x60];
    let to = [0x98, 0xf3, 0xf2, 0x48, 0x09, 0x81, 0xa9, 0xff];
    for bit in 0..8 {
        tally.check(tower::column(bit) == from[7 - bit as usize], format!("column {bit} from the tower"));
        tally.check(tower::to_tower(1 << bit) == to[7 - bit as usize], format!("column {bit} to the tower"));
    }
    // A nibble x is the tower byte x·Y^16 + x·Y, since Y^16 + Y is one.
    let field = |nibble: u8| tower::from_tower(nibble << 4 | nibble);
    for i in 0..=255 {
        let (x, y) = (i >> 4, i & 15);
        let product = aes::field_product(field(x), field(y));
        tally.check(field(tower::nibble_product(x, y)) == product, format!("nibble product {x:x} {y:x}"));
        let inverse = tower::from_tower(tower::byte_inverse(tower::to_tower(i)));
        tally.check(inverse == aes::field_inverse(i), format!("tower inverse {i:02x}"));
    }
}

fn published_expansions(tally: &mut Tally) {
    for (number, example) in vectors::EXPANSIONS.iter().enumerate() {
        let [key, first, last] = [example.key, example.first, example.last].map(|text| hex(text).expect("hex"));
        let mut round_keys = vec![0; aes::expanded_length(key.len()).expect("a good length")];
        tally.check(calls::expand(&key, &mut round_keys) == 0, format!("A.{} is served", number + 1));
        tally.check(round_keys.starts_with(&[key, first].concat()), format!("A.{} first words", number + 1));
        tally.check(round_keys.ends_with(&last), format!("A.{} last words", number + 1));
    }
}

/// Appendices B and C, bare and masked, both ways.
fn published_blocks(tally: &mut Tally, rng: &mut Rng) {
    for example in &vectors::BLOCKS {
        let [key, plain, cipher] = [example.key, example.plain, example.cipher].map(|text| hex(text).expect("hex"));
        let round_keys = aes::expand(&key);
        tally.check(aes::cipher(&aes::state(&plain), &round_keys)[..] == cipher, format!("bare {}", example.cipher));
        let back = aes::inverse_cipher(&aes::state(&cipher), &round_keys);
        tally.check(back[..] == plain, format!("bare back from {}", example.cipher));
        let forth = openssl::masked(0, &plain, &round_keys, rng);
        tally.check(forth == cipher, format!("masked {}", example.cipher));
        let back = openssl::masked(1, &cipher, &round_keys, rng);
        tally.check(back == plain, format!("masked back from {}", example.cipher));
    }
}

/// One check for each data byte, over all masks and both directions.
fn sboxes_unmask(tally: &mut Tally, rng: &mut Rng) {
    for data in 0..=255 {
        let right = (0..=255).all(|mask| {
            let record = Record::read(&[rng.byte(), rng.byte(), rng.byte() & 3]);
            let forth = masked_sbox(Direction::Encrypt, data, mask, &record);
            let back = masked_sbox(Direction::Decrypt, data, mask, &record);
            let s = tower::from_tower(record.s);
            forth.data ^ forth.mask == aes::sbox(data ^ mask)
                && back.data ^ back.mask == aes::inverse_sbox(data ^ mask)
                && (forth.mask, back.mask) == (aes::affine_linear(s), s)
        });
        tally.check(right, format!("masked S-box of data {data:02x}"));
    }
}

fn both_orders_answer_alike(tally: &mut Tally, rng: &mut Rng) {
    for _ in 0..256 {
        let [masked, mask, qt, s, r] = rng.array();
        let record = Record::read(&[qt, s, r & 3]);
        let answer = |order| masked_inverse(&masked_inversion(order, masked, mask, &record));
        tally.check(answer(Order::MaskFirst) == answer(Order::MaskLast), "both orders answer alike");
    }
}

/// Good block calls against the bare cipher, the outgoing mask by its formula, and the wipe.
fn blocks_unmask(tally: &mut Tally) {
    let mut blocks = Blocks::new(Rng::new(3));
    for index in 0..1200 {
        let case = blocks.good([16, 24, 32][index % 3], index as u32 / 3 % 2);
        let (number, after) = case.run();
        let bare = if case.direction == 0 { aes::cipher } else { aes::inverse_cipher };
        let expected = bare(&aes::add(&case.buffers[0], &case.buffers[1]), &case.buffers[2]);
        tally.check(number == 0 && aes::add(&after[0], &after[1]) == expected, format!("masked block {index}"));
        let mask = outgoing_mask(case.direction, &case.buffers[3]);
        tally.check(after[1] == mask, format!("outgoing mask of block {index}"));
        tally.check(is_wiped(&case.buffers[3], &after[3]), format!("wiped strip of block {index}"));
    }
}

/// The S bytes of the last sixteen records, brought back; encrypting, also the last round's linear steps.
fn outgoing_mask(direction: u32, strip: &[u8]) -> aes::State {
    let last = &strip[strip.len() - 16 * strip::RECORD..];
    let back = std::array::from_fn(|i| tower::from_tower(last[strip::RECORD * i + 1]));
    if direction == 0 { aes::shift_rows(&back.map(aes::affine_linear)) } else { back }
}

fn is_wiped(before: &[u8], after: &[u8]) -> bool {
    let header = [before[0], before[1], 0, before[3]];
    after.len() == before.len() && after.starts_with(&header) && after[4..].iter().all(|&byte| byte == 0)
}

/// The edges that the document lists, and strips that say little but are spent.
fn edges(tally: &mut Tally, rng: &mut Rng) {
    let good = strip::make(16, rng);
    let changed = |index: usize, value: u8| {
        let mut strip = good.clone();
        strip[index] = value;
        strip
    };
    let strips = [
        (good.clone(), 0, "484 bytes with length field 482"),
        (changed(1, 0xe4), 7, "length field 484"),
        (Vec::new(), 7, "empty strip"),
        (changed(483, 3), 0, "third byte 3 passes"),
        (changed(483, 4), 10, "third byte 4 in the last record"),
        (changed(6, 4), 10, "third byte 4 in the first record"),
        (vec![0, 2, 0, 0x4d], 11, "spent, with a strange key size"),
        (vec![0, 3, 0, 0, 5], 11, "spent, with one record byte"),
        (vec![0, 2, 1, 16], 12, "no records"),
        (vec![0, 2, 1, 24], 9, "no records, for another size"),
    ];
    for (strip, expected, name) in strips {
        tally.check(strip::check(&strip, 16) == expected, name);
    }
    for (length, expected) in [(0, 3), (1, 3), (61, 3), (62, 0), (63, 3), (200, 3)] {
        let number = calls::sbox(0, &mut [1], &mut [2], &[0; 3], Some(&mut vec![0; length]));
        tally.check(number == expected, format!("points buffer of {length}"));
    }
    let mut blocks = Blocks::new(Rng::new(11));
    let first = blocks.good(32, 0);
    tally.check(first.run().0 == 0 && blocks.again(&first).run().0 == 11, "the same strip twice");
}

/// The reader looks at framing, version and presence only.
fn record_reader(tally: &mut Tally, rng: &mut Rng) {
    let records = rng.bytes(8);
    let odd = strip::frame(1, 99, &records);
    tally.check(strip::record(&odd, 0) == &records[..3], "record 0 of an odd strip");
    tally.check(strip::record(&odd, 1) == &records[3..6], "record 1 of an odd strip");
    for index in [2, 3, usize::MAX / 3, usize::MAX] {
        tally.check(strip::record(&odd, index).is_empty(), format!("record {index} is not there"));
    }
    for version in [0, 2, 255] {
        let other = strip::frame(version, 16, &records);
        tally.check(strip::record(&other, 0).is_empty(), format!("no record of version {version}"));
    }
    tally.check(strip::record(&odd[..9], 0).is_empty(), "no record of a cut strip");
}

/// Damage of several kinds at once: the first in order is given, and no lent byte changes.
fn refusals_in_order(tally: &mut Tally, rng: &mut Rng) {
    let (mut blocks, mut sboxes) = (Blocks::new(Rng::new(5)), Sboxes::new(Rng::new(7)));
    for _ in 0..DAMAGED {
        let defects = some_defects(&case_block::ORDER, rng);
        refused(tally, &blocks.damaged(&defects), first_defect(&case_block::ORDER, &defects));
        let defects = some_defects(&case_sbox::ORDER, rng);
        refused(tally, &sboxes.damaged(&defects), first_defect(&case_sbox::ORDER, &defects));
    }
}

fn refused(tally: &mut Tally, case: &Case, expected: u32) {
    let (number, after) = case.run();
    let name = if case.call == Call::Block { "block" } else { "S-box" };
    let right = number == expected && after == case.buffers;
    tally.check(right, format!("damaged {name} gives {number}, not {expected}"));
}
