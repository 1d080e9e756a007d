//! Flaws of two rules and more at once: the first rule that is broken is told. Paper 01, "The
//! verdict": "Judged in this order".

use super::{add_pointer, break_header, Flaw, Offenders};
use crate::shapes::passed_over;
use crate::volume::{put_bit, Volume};
use model::Number;

/// A change that breaks one rule, and none but later ones.
type Break = fn(&mut Volume) -> Option<Offenders>;

/// One change for each rule, in their order.
const BREAKS: [(Number, Break); 5] = [
    (Number::Files, |volume| {
        break_header(volume, volume.roles.plain);
        Some(vec![volume.roles.plain.into()])
    }),
    (Number::Links, |volume| {
        let chain = &volume.file(volume.roles.chained).headers;
        let last = chain[chain.len() - 1].number;
        volume.edit_header(last, |header| header.link = (65_535, 1));
        Some(vec![last.into()])
    }),
    (Number::Twice, |volume| {
        let control = volume.plan.control;
        add_pointer(volume, volume.roles.chained, control, 1)?;
        Some(vec![control])
    }),
    (Number::Badhome, |volume| {
        let positions = passed_over(volume.plan.blocks, volume.plan.home);
        let file = volume.file(3).clone();
        for header in &file.headers {
            volume.edit_header(header.number, |header| header.pointers.clear());
        }
        Some(positions).filter(|positions| !positions.is_empty())
    }),
    (Number::Map, |volume| {
        put_bit(volume.storage_map_mut(), 0, true);
        Some(vec![0])
    }),
];

/// Every set of two rules and more.
pub fn flaws() -> Vec<Flaw> {
    let mut all = Vec::new();
    for set in 1u32..1 << BREAKS.len() {
        if set.count_ones() < 2 {
            continue;
        }
        let has = move |place: &usize| set >> place & 1 == 1;
        let places: Vec<usize> = (0..BREAKS.len()).filter(has).collect();
        let names: Vec<&str> = places.iter().map(|&it| BREAKS[it].0.name()).collect();
        let name = format!("first of {}", names.join(", "));
        all.push(Flaw::new(BREAKS[places[0]].0, name, move |volume| {
            let mut told = None;
            // The changes of later rules come first.
            for &place in places.iter().rev() {
                told = Some((BREAKS[place].1)(volume)?);
            }
            told
        }));
    }
    all
}
