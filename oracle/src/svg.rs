//! A picture of the 62 distributions: two secrets side by side, the right order of additions above,
//! the wrong one below. Each column is a point; its bands are its values, as high as they are frequent.

use crate::count::{count, misfits, Counts};
use crate::points::{Order, COUNT};
use std::fmt::Write;

const SECRETS: [u8; 2] = [0x00, 0xc5];
const COLUMN: usize = 10;
const HEIGHT: f64 = 200.0;
const WIDTH: usize = COLUMN * COUNT;
const PANEL_X: [usize; 2] = [40, 40 + WIDTH + 40];
const PANEL_Y: [usize; 2] = [110, 420];
const LABELLED: [usize; 16] = [1, 5, 9, 15, 19, 23, 29, 31, 35, 39, 43, 47, 51, 55, 59, 62];
const SETTINGS: f64 = (1 << 26) as f64;

pub fn print() -> bool {
    let mut svg = String::new();
    head(&mut svg);
    for (row, order) in [Order::MaskFirst, Order::MaskLast].into_iter().enumerate() {
        for (column, secret) in SECRETS.into_iter().enumerate() {
            panel(&mut svg, (PANEL_X[column], PANEL_Y[row]), secret, order);
        }
    }
    legend(&mut svg);
    print!("{svg}</svg>\n");
    true
}

/// String writing cannot fail, so the answer of `write!` is let go here and nowhere else.
fn put(svg: &mut String, text: std::fmt::Arguments) {
    let _ = svg.write_fmt(text);
}

fn head(svg: &mut String) {
    let (width, height) = (PANEL_X[1] + WIDTH + 30, 720);
    put(svg, format_args!("<svg xmlns=\"http://www.w3.org/2000/svg\" viewBox=\"0 0 {width} {height}\" "));
    put(svg, format_args!("font-family=\"sans-serif\" font-size=\"12\" fill=\"#222\">\n"));
    put(svg, format_args!("<rect width=\"{width}\" height=\"{height}\" fill=\"#fff\"/>\n"));
    label(svg, (40, 30), 20, "The 62 points of the masked inversion over all 67,108,864 settings of the masks");
    let text = "Each column is a point, each band a value, as high as it is frequent. The upper two pictures \
                are equal: no point tells the secret. A red mark is a point that leaves the table.";
    label(svg, (40, 54), 13, text);
}

fn label(svg: &mut String, at: (usize, usize), size: usize, text: &str) {
    put(svg, format_args!("<text x=\"{}\" y=\"{}\" font-size=\"{size}\">{text}</text>\n", at.0, at.1));
}

fn panel(svg: &mut String, at: (usize, usize), secret: u8, order: Order) {
    let counts = count(secret, order);
    let wrong = misfits(&counts);
    let name = if order == Order::MaskFirst { "mask first, as the rule says" } else { "mask last" };
    let title = format!("A = {secret:02x}, {name}: {} of {COUNT} points leave the table", wrong.len());
    label(svg, (at.0, at.1 - 18), 15, &title);
    put(svg, format_args!("<g transform=\"translate({},{})\">\n", at.0, at.1));
    bands(svg, &counts);
    marks(svg, &wrong);
    numbers(svg);
    put(svg, format_args!("</g>\n"));
}

/// All bands of one value are one path, which keeps the file small.
fn bands(svg: &mut String, counts: &Counts) {
    for value in 0..16 {
        put(svg, format_args!("<path fill=\"{}\" d=\"", colour(value)));
        for (index, of_point) in counts.iter().enumerate().filter(|(_, of_point)| of_point[value] > 0) {
            let below: u32 = of_point[..value].iter().sum();
            let (low, high) = (share(below), share(below + of_point[value]));
            put(svg, format_args!("M{} {low:.1}h{}V{high:.1}h-{}z", COLUMN * index, COLUMN - 2, COLUMN - 2));
        }
        put(svg, format_args!("\"/>\n"));
    }
}

/// The height above which this many settings stand, measured from the top.
fn share(settings: u32) -> f64 {
    HEIGHT * (1.0 - f64::from(settings) / SETTINGS)
}

fn marks(svg: &mut String, wrong: &[usize]) {
    put(svg, format_args!("<path fill=\"#d00\" d=\""));
    for point in wrong {
        put(svg, format_args!("M{} -10h8l-4 8z", COLUMN * (point - 1)));
    }
    put(svg, format_args!("\"/>\n"));
}

fn numbers(svg: &mut String) {
    put(svg, format_args!("<g font-size=\"10\" text-anchor=\"middle\">"));
    for point in LABELLED {
        let x = COLUMN * (point - 1) + COLUMN / 2 - 1;
        put(svg, format_args!("<text x=\"{x}\" y=\"{}\">{point}</text>", HEIGHT + 13.0));
    }
    let caption = "points 1-14 and 47-62 are nibbles, 15-46 pairs";
    put(svg, format_args!("<text x=\"{}\" y=\"{}\">{caption}</text></g>\n", WIDTH / 2, HEIGHT + 28.0));
}

fn legend(svg: &mut String) {
    label(svg, (40, 695), 13, "value:");
    for value in 0..16 {
        let x = 90 + 50 * value;
        put(svg, format_args!("<rect x=\"{x}\" y=\"683\" width=\"14\" height=\"14\" fill=\"{}\"/>", colour(value)));
        label(svg, (x + 18, 695), 13, &format!("{value:x}"));
    }
}

/// Neighbouring values differ in lightness, so that bands stay apart in print too.
fn colour(value: usize) -> String {
    let lightness = if value % 2 == 0 { 42 } else { 72 };
    format!("hsl({},55%,{lightness}%)", 210 + value * 20)
}
