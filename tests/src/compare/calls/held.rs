//! The table of calls held against the header, and each entry's order against its parameters: what is forgotten there would otherwise be asked less, or
//! under another name. A parameter that is forgotten, or its length, shows by itself too: the call does not compile.

use super::{Call, What};

const HEADER: &str = include_str!("../../../../include/hailgully.h");

/// The calls that the header declares, each in a line that begins with the type of its answer: their names and parameters.
fn declared() -> impl Iterator<Item = (&'static str, &'static str)> {
    HEADER.lines().filter(|line| line.starts_with("hg_")).filter_map(|line| line.split_once(' ')?.1.split_once('('))
}

/// The names of parameters in C, but for the lengths, which stand behind what is lent.
fn names(parameters: &'static str) -> Vec<&'static str> {
    let mut names = Vec::new();
    let mut each = parameters.trim_end_matches(");").split(", ");
    while let Some(parameter) = each.next() {
        names.extend(parameter.split([' ', '*']).next_back());
        if parameter.contains('*') {
            each.next();
        }
    }
    names
}

/// What is wrong with the table, in words.
pub fn wrong() -> Vec<String> {
    let other = declared().filter_map(|(name, parameters)| {
        let Some(call) = Call::ALL.iter().find(|call| call.to_string() == name) else {
            return Some(format!("{name} is in the header and not in the table of calls"));
        };
        let same = call.parameters().iter().map(|parameter| parameter.name).eq(names(parameters));
        (!same).then(|| format!("{name}: its parameters in the header are {:?}", names(parameters)))
    });
    let undeclared = Call::ALL.iter().filter(|call| declared().all(|(name, _)| call.to_string() != name));
    let undeclared = undeclared.map(|call| format!("{call}: no line of the header declares it"));
    other.chain(undeclared).chain(Call::ALL.iter().flat_map(|call| misfits(*call))).collect()
}

/// A refusal of a code, an edition, a longitude or a latitude belongs to a parameter that is one, and such a parameter has its refusal.
fn misfits(call: Call) -> Vec<String> {
    let has = |number, ordinal| (0..call.count()).any(|place| call.refusal(place) == (number, ordinal));
    let takes = |kind: &dyn Fn(What) -> bool| call.parameters().iter().any(|parameter| kind(parameter.what));
    let longitude = |what| matches!(what, What::Longitude | What::LongitudeReading);
    let latitude = |what| matches!(what, What::Latitude | What::LatitudeReading);
    let fits = [
        ("a code", has(7, 1), takes(&|what| what.ordinal() == Some(1))),
        ("a second code", has(7, 2), takes(&|what| what.ordinal() == Some(2))),
        ("an edition", has(13, 1), takes(&|what| what == What::Edition)),
        ("a longitude", has(2, 1), takes(&longitude)),
        ("a latitude", has(3, 1), takes(&latitude)),
    ];
    let apart = fits.into_iter().filter(|(_, refused, taken)| refused != taken);
    apart.map(|(what, ..)| format!("{call}: its order and its parameters do not agree about {what}")).collect()
}
