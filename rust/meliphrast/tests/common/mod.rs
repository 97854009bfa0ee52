//! What the tests share: the example's terms and full books.

#![allow(dead_code)]

use meliphrast::{Place, Point, Reading, Register, Terms};

/// Document 01's example terms.
pub const TERMS: Terms = Terms {
    distance: 100_000,
    height: 0,
    s_xy: 150,
    s_h: 250,
    sigma_xy: 20,
    sigma_h: 20,
    point_1: Point { x: 0, y: 0, h: 0 },
    point_2: Point {
        x: 100_000,
        y: 0,
        h: 0,
    },
};

pub const FIRST: Place = at(1, 1, 1);

pub const fn at(series: u64, set: u64, point: u64) -> Place {
    Place { series, set, point }
}

/// A reading off its place's point by this much.
pub fn off(place: Place, [x, y, h]: [i64; 3]) -> Reading {
    let x = if place.point == 2 { x + 100_000 } else { x };
    Reading { x, y, h }
}

/// Opens the book and enters all thirty readings, on their points but for these offsets.
pub fn fill<S: AsMut<[u8]>>(register: &mut Register<S>, book: u64, offsets: &[(Place, [i64; 3])]) {
    assert_eq!(register.open(book, TERMS), Ok(()));
    for place in Place::sheet() {
        let offset = offsets.iter().find(|(at, _)| *at == place);
        let reading = off(place, offset.map_or([0; 3], |(_, by)| *by));
        assert_eq!(register.enter(book, place, reading), Ok(()));
    }
}

pub fn filled(offsets: &[(Place, [i64; 3])]) -> Register {
    let mut register = Register::fresh();
    fill(&mut register, 1, offsets);
    register
}
