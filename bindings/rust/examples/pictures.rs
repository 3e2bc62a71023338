//! Draws the pictures of docs/GRID.md from the library's own answers: every line of a picture is the edge of a cell that a code was read as.
//!
//!     cargo run --example pictures -- FOLDER      writes the SVG files there

use hailgully::{plane_read, space_read, PlaneCell};
use std::f64::consts::PI;
use std::fmt::Write;
use std::path::Path;

const DEGREE: f64 = 7_372_800.0;

/// Hues that tell neighbouring cells apart.
const FILLS: [&str; 6] = ["#dbe9f6", "#fbe6cf", "#dff0d8", "#f3dcea", "#f7f3cd", "#e2dff3"];

/// A picture that grows.
struct Svg {
    body: String,
    width: f64,
    height: f64,
}

impl Svg {
    fn new(width: f64, height: f64, title: &str) -> Svg {
        let mut svg = Svg { body: String::new(), width, height };
        svg.text(width / 2.0, 22.0, 15.0, title);
        svg
    }

    fn text(&mut self, x: f64, y: f64, size: f64, words: &str) {
        writeln!(self.body, r#"<text x="{x:.1}" y="{y:.1}" font-size="{size:.1}" text-anchor="middle">{words}</text>"#).unwrap();
    }

    fn shape(&mut self, path: &str, fill: &str) {
        writeln!(self.body, r##"<path d="{path}" fill="{fill}" stroke="#444" stroke-width="0.8"/>"##).unwrap();
    }

    fn arrow(&mut self, x: f64, y: f64, dx: f64, dy: f64) {
        let (tx, ty) = (x + dx, y + dy);
        let (ux, uy) = (dx / dx.hypot(dy) * 7.0, dy / dx.hypot(dy) * 7.0);
        let (ax, ay, bx, by) = (tx - ux - uy / 2.0, ty - uy + ux / 2.0, tx - ux + uy / 2.0, ty - uy - ux / 2.0);
        writeln!(
            self.body,
            r##"<path d="M{x:.1} {y:.1}L{tx:.1} {ty:.1}M{ax:.1} {ay:.1}L{tx:.1} {ty:.1}L{bx:.1} {by:.1}" fill="none" stroke="#b00" stroke-width="2"/>"##
        )
        .unwrap();
    }

    fn save(self, folder: &Path, name: &str) {
        let (w, h) = (self.width, self.height);
        let head =
            format!(r#"<svg xmlns="http://www.w3.org/2000/svg" viewBox="0 0 {w} {h}" width="{w}" height="{h}" font-family="sans-serif">"#);
        let text = format!("{head}\n<rect width=\"{w}\" height=\"{h}\" fill=\"white\"/>\n{}</svg>\n", self.body);
        let path = folder.join(name);
        std::fs::write(&path, text).unwrap_or_else(|e| panic!("{}: {e}", path.display()));
    }
}

fn cell(code: &str) -> PlaneCell {
    plane_read(code.as_bytes()).unwrap_or_else(|refusal| panic!("{code}: {refusal}"))
}

/// The codes that a code has one level further, in the characters' order: what the reader accepts of all that might follow.
fn children(parent: &str, characters: usize) -> Vec<String> {
    let digits: Vec<char> = "0123456789ABCDEFGHIJKLMNOPQRSTUV".chars().collect();
    let mut codes = vec![parent.to_string()];
    for _ in 0..characters {
        codes = codes.iter().flat_map(|code| digits.iter().map(move |digit| format!("{code}{digit}"))).collect();
    }
    codes.into_iter().filter(|code| plane_read(code.as_bytes()).is_ok()).collect()
}

/// The four sheets that meet at (0, 0), divided at level 2: columns and rows count outward in each.
fn quarters(folder: &Path) {
    let mut svg = Svg::new(900.0, 660.0, "Level 2 in the four sheets that meet where the prime meridian crosses the equator");
    let (x0, y0, scale) = (450.0, 340.0, 70.0);
    for (i, sheet) in ["N31A", "N30A", "S31A", "S30A"].iter().enumerate() {
        for code in children(sheet, 2) {
            let c = cell(&code);
            let (x, y) = (x0 + f64::from(c.west) / DEGREE * scale, y0 - (f64::from(c.south) + f64::from(c.height)) / DEGREE * scale);
            let (w, h) = (f64::from(c.width) / DEGREE * scale, f64::from(c.height) / DEGREE * scale);
            svg.shape(&format!("M{x:.1} {y:.1}h{w:.1}v{h:.1}h-{w:.1}z"), FILLS[i]);
            svg.text(x + w / 2.0, y + h / 2.0 + 4.0, 11.0, &code[4..]);
        }
        let c = cell(sheet);
        let (east, north) = (c.west >= 0, c.south >= 0);
        let (sx, sy) = (if east { 1.0 } else { -1.0 }, if north { -1.0 } else { 1.0 });
        svg.arrow(x0 + sx * 4.0, y0 + sy * 4.0, sx * 130.0, 0.0);
        svg.arrow(x0 + sx * 4.0, y0 + sy * 4.0, 0.0, sy * 130.0);
        svg.text(x0 + sx * 210.0, if north { 50.0 } else { 640.0 }, 14.0, sheet);
    }
    svg.save(folder, "quarters.svg");
}

/// A pole seen from above it, with the prime meridian downward in the north and upward in the south, so that east runs as on a globe.
struct Pole {
    north: bool,
    x: f64,
    y: f64,
    /// Picture units for one unit of distance from the pole.
    scale: f64,
}

impl Pole {
    fn at(&self, degrees: f64, distance: f64) -> (f64, f64) {
        let turn = degrees / 180.0 * PI;
        let (x, y) = (turn.sin() * distance * self.scale, turn.cos() * distance * self.scale);
        (self.x + x, if self.north { self.y + y } else { self.y - y })
    }

    /// How far from the pole the cell's nearer and farther edges are, and its edges in degrees eastward.
    fn edges(&self, c: &PlaneCell) -> (f64, f64, f64, f64) {
        let far = if self.north { 90.0 * DEGREE - f64::from(c.south) } else { 90.0 * DEGREE + f64::from(c.south) + f64::from(c.height) };
        let near = far - f64::from(c.height);
        let west = (f64::from(c.west) / DEGREE).rem_euclid(360.0);
        (near, far, west, west + f64::from(c.width) / DEGREE)
    }

    fn draw(&self, svg: &mut Svg, c: &PlaneCell, fill: &str, label: &str, size: f64) {
        let (near, far, west, east) = self.edges(c);
        let steps = ((east - west) / 3.0).ceil().max(1.0) as usize;
        let angle = |i: usize| west + (east - west) * i as f64 / steps as f64;
        let mut points: Vec<(f64, f64)> = (0..=steps).map(|i| self.at(angle(i), far)).collect();
        if near > 0.0 {
            points.extend((0..=steps).rev().map(|i| self.at(angle(i), near)));
        }
        let path: Vec<String> = points.iter().map(|(x, y)| format!("{x:.1} {y:.1}")).collect();
        svg.shape(&format!("M{}z", path.join("L")), fill);
        let whole = near == 0.0 && east - west >= 360.0;
        let (x, y) = if whole { (self.x, self.y) } else { self.at((west + east) / 2.0, (near + far) / 2.0) };
        svg.text(x, y + size / 3.0, size, label);
    }

    fn degrees(&self, svg: &mut Svg, distance: f64) {
        for d in (0..360).step_by(60) {
            let (x, y) = self.at(f64::from(d), distance);
            svg.text(x, y + 4.0, 12.0, &format!("{d}°"));
        }
    }
}

/// Both poles' cells of a level, side by side: each code with its last characters as its label.
fn poles(folder: &Path, name: &str, title: &str, codes: fn(&str) -> Vec<String>, size: f64) {
    let mut svg = Svg::new(1240.0, 680.0, title);
    for (north, x, letter) in [(true, 315.0, "N000"), (false, 925.0, "S000")] {
        let pole = Pole { north, x, y: 365.0, scale: 265.0 / (2.0 * DEGREE) };
        for (i, code) in codes(letter).iter().enumerate() {
            pole.draw(&mut svg, &cell(code), FILLS[i % FILLS.len()], &code[4..], size);
        }
        pole.degrees(&mut svg, 2.13 * DEGREE);
        svg.text(x, 60.0, 14.0, &format!("{letter}: from 88° to the pole, degrees eastward"));
    }
    svg.save(folder, name);
}

fn second(pole: &str) -> Vec<String> {
    children(pole, 2)
}

fn third(pole: &str) -> Vec<String> {
    second(pole).iter().flat_map(|code| children(code, 1)).collect()
}

/// What a cap divides into, with the last characters of each code.
fn cap(folder: &Path, name: &str, title: &str, parent: &str, characters: usize, size: f64) {
    let mut svg = Svg::new(680.0, 700.0, title);
    let whole = f64::from(cell(parent).height);
    let pole = Pole { north: true, x: 340.0, y: 365.0, scale: 300.0 / whole };
    for (i, code) in children(parent, characters).iter().enumerate() {
        pole.draw(&mut svg, &cell(code), FILLS[i % FILLS.len()], &code[parent.len()..], size);
    }
    pole.degrees(&mut svg, 1.06 * whole);
    svg.save(folder, name);
}

/// The layers of the first two levels about the ground, in edition 1.
fn layers(folder: &Path) {
    let mut svg = Svg::new(760.0, 640.0, "Height characters about the ground: sign and two digits of level 1, one digit of level 2");
    let scale = 250.0 / (2.0 * 29_491_200.0);
    let ground = 330.0;
    for (i, (sign, digits)) in [(0, "01"), (0, "00"), (1, "63"), (1, "62")].iter().enumerate() {
        let code = format!("N{sign}31A{digits}");
        let c = space_read(1, code.as_bytes()).unwrap_or_else(|refusal| panic!("{code}: {refusal}"));
        let (y, h) = (ground - (f64::from(c.floor) + f64::from(c.thickness)) * scale, f64::from(c.thickness) * scale);
        svg.shape(&format!("M150 {y:.1}h150v{h:.1}h-150z"), FILLS[i]);
        svg.text(225.0, y + h / 2.0 + 5.0, 14.0, &format!("{sign} {digits}"));
        svg.text(80.0, y + h + 4.0, 12.0, &format!("{}", c.floor));
        for k in 0..8 {
            let code = format!("N{sign}31A{digits}00{k}");
            let c = space_read(1, code.as_bytes()).unwrap_or_else(|refusal| panic!("{code}: {refusal}"));
            let (y, h) = (ground - (f64::from(c.floor) + f64::from(c.thickness)) * scale, f64::from(c.thickness) * scale);
            svg.shape(&format!("M330 {y:.1}h110v{h:.1}h-110z"), FILLS[(i + k) % FILLS.len()]);
            svg.text(385.0, y + h / 2.0 + 4.0, 10.0, &k.to_string());
            svg.text(520.0, y + h + 3.0, 10.0, &format!("{}", c.floor));
        }
    }
    svg.arrow(650.0, ground, 0.0, -60.0);
    svg.text(650.0, ground + 5.0 + 12.0, 13.0, "ground (layer 0)");
    svg.text(80.0, 55.0, 12.0, "floor, in layers");
    svg.text(225.0, 55.0, 12.0, "level 1");
    svg.text(385.0, 55.0, 12.0, "level 2");
    svg.text(520.0, 55.0, 12.0, "floor, in layers");
    svg.text(380.0, 625.0, 12.0, "Below ground the digits still count upward: the floor is always the lower face.");
    svg.save(folder, "layers.svg");
}

fn main() {
    let words: Vec<String> = std::env::args().skip(1).collect();
    let [folder] = words.as_slice() else {
        eprintln!("pictures: one word, the folder to write to");
        std::process::exit(2);
    };
    let folder = Path::new(folder);
    quarters(folder);
    poles(folder, "poles-2.svg", "The polar cells of level 2: the cap 00, the disc 01 to 03, the belt 10 to 33", second, 15.0);
    poles(folder, "poles-3.svg", "The polar cells of level 3: the last three characters of each code", third, 9.5);
    cap(folder, "cap-4.svg", "Level 4 of a cap: row 0 is the new cap, 00; rows 1 to 14 have 15 columns of 24°", "N000000", 2, 8.0);
    cap(
        folder,
        "cap-6.svg",
        "Level 6 of a cap: 0 is the new cap; 2 and 3 are the outer row's halves; 1 never occurs",
        "N0000000000",
        1,
        16.0,
    );
    layers(folder);
}
