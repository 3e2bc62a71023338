//! Layers a second time, plainly. No slip here. In edition 1 the list of
//! height cells at each level, from the coarsest, is looked through for the one
//! that holds a layer; in edition 2 the layer's binary digits are written out
//! and cut.

use crate::space::Edition;

/// Parts of each height cell at levels 2 to 10 of edition 1.
const PARTS: [i64; 9] = [8, 2, 15, 15, 2, 8, 8, 8, 8];
const CHARACTERS: [char; 15] = ['0', '1', '2', '3', '4', '5', '6', '7', '8', '9', 'A', 'B', 'C', 'D', 'E'];
/// "The rest cut 6, 3, 1, 4, 4, 1, 3, 3, 3, 3": edition 2.
const CUTS: [usize; 10] = [6, 3, 1, 4, 4, 1, 3, 3, 3, 3];

/// A height cell: its characters so far (the sign first), floor, thickness.
pub struct HeightCell {
    pub text: String,
    pub floor: i64,
    pub thickness: i64,
}

/// The height cell of this level that holds the layer.
pub fn height_cell(edition: Edition, level: usize, layer: i64) -> HeightCell {
    match edition {
        Edition::Ours => listed(level, layer),
        Edition::Theirs => cut(level, layer),
    }
}

/// "The cell's layer floor is always its lower face."
fn listed(level: usize, layer: i64) -> HeightCell {
    let thickness = 29_491_200;
    let mut list = Vec::new();
    for (sign, ground) in [(0, 0), (1, -1_887_436_800)] {
        for number in 0..64 {
            list.push(HeightCell { text: format!("{sign}{number:02}"), floor: ground + number * thickness, thickness });
        }
    }
    let mut at = the_one(list, layer);
    for parts in &PARTS[..level - 1] {
        let thickness = at.thickness / parts;
        assert_eq!(thickness * parts, at.thickness);
        let below = (0..*parts).map(|part| HeightCell {
            text: format!("{}{}", at.text, CHARACTERS[part as usize]),
            floor: at.floor + part * thickness,
            thickness,
        });
        at = the_one(below.collect(), layer);
    }
    at
}

fn the_one(list: Vec<HeightCell>, layer: i64) -> HeightCell {
    let holds = |cell: &HeightCell| cell.floor <= layer && layer < cell.floor + cell.thickness;
    let mut found = list.into_iter().filter(holds);
    let one = found.next().expect("no height cell holds the layer");
    assert!(found.next().is_none(), "two height cells hold the layer");
    one
}

/// "The layer is 32-bit two's complement, its top bit the sign." What is not
/// cut off is all the layers of the cell.
fn cut(level: usize, layer: i64) -> HeightCell {
    let all = format!("{:032b}", i32::try_from(layer).expect("32 bits hold the layer"));
    let (sign, mut rest) = all.split_at(1);
    let mut text = sign.to_string();
    for (at, &count) in CUTS[..level].iter().enumerate() {
        let (these, after) = rest.split_at(count);
        let number = u32::from_str_radix(these, 2).expect("binary digits");
        text += &if at == 0 { format!("{number:02}") } else { format!("{number:X}") };
        rest = after;
    }
    let lowest = format!("{}{}", &all[..32 - rest.len()], "0".repeat(rest.len()));
    let floor = u32::from_str_radix(&lowest, 2).expect("binary digits") as i32;
    HeightCell { text, floor: i64::from(floor), thickness: 2i64.pow(rest.len() as u32) }
}
