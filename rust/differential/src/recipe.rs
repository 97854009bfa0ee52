//! Full books: terms and thirty readings, drawn so that every verdict, every screening outcome
//! and every equality comes up.

use crate::call::{Reading, Terms};
use crate::dice::Dice;
use crate::image::PLACES;

const NOMINAL_AT_MOST: i64 = 500_000;
const DEVIATION_AT_MOST: i64 = 10_000;
const COORDINATE_AT_MOST: i64 = 100_000_000_000;
const OFFSET_AT_MOST: i64 = 100_000;

/// Added to a length that is in range: it falls back there if they are lost.
pub const HIGH_BITS: [i64; 3] = [1 << 32, 1 << 40, i64::MIN];

#[derive(Clone, Debug)]
pub struct Recipe {
    pub terms: Terms,
    pub readings: [Reading; PLACES],
}

impl Recipe {
    pub fn drawn(dice: &mut Dice) -> Recipe {
        match dice.below(10) {
            0 => at_a_verdict(dice),
            1 => at_a_limit(dice),
            2 => at_a_rounding(dice),
            3 => of_the_largest_sums(dice),
            4 => of_one_offset(dice),
            _ => scattered(dice),
        }
    }

    /// Every reading on its point.
    fn still(site: Site, s: [i64; 2], sigma: [i64; 2]) -> Recipe {
        let terms = site.terms(s, sigma);
        let readings = std::array::from_fn(|place| point(&terms, place));
        Recipe { terms, readings }
    }

    fn offset(&mut self, place: usize, axis: usize, by: i64) {
        self.readings[place][axis] += by;
    }

    /// Lays offsets of one axis on places of one point, each in a set of its own.
    fn scatter(&mut self, dice: &mut Dice, point: usize, axis: usize, offsets: &[i64]) {
        let mut sets: Vec<usize> = (0..PLACES / 2).collect();
        dice.shuffle(&mut sets);
        for (set, offset) in sets.iter().zip(offsets) {
            self.offset(set * 2 + point, axis, *offset);
        }
    }
}

/// The approximate values that a place's reading is held to.
pub fn point(terms: &Terms, place: usize) -> Reading {
    let start = 6 + place % 2 * 3;
    [terms[start], terms[start + 1], terms[start + 2]]
}

/// Two points: the first, and the second's distance from it on each axis.
#[derive(Clone, Copy, Debug)]
struct Site {
    first: Reading,
    apart: Reading,
}

impl Site {
    fn apart_by(dice: &mut Dice, apart: Reading) -> Site {
        let first = apart.map(|apart| {
            let low = -COORDINATE_AT_MOST + (-apart).max(0);
            let high = COORDINATE_AT_MOST - apart.max(0);
            match dice.below(6) {
                0 => low,
                1 => high,
                2 => dice.between(low, high),
                3 => dice.between(-700_000_000, 700_000_000),
                _ => 0,
            }
        });
        Site { first, apart }
    }

    fn drawn(dice: &mut Dice) -> Site {
        let mut side = || {
            let most = dice.pick(&[0, 1, 50, 20_000, 200_000, NOMINAL_AT_MOST]);
            let edge = dice.one_in(4);
            let length = if edge { most } else { dice.between(0, most) };
            length * dice.sign()
        };
        let apart = [side(), side(), side()];
        Site::apart_by(dice, apart)
    }

    /// Terms whose nominal values are those of the two points, as far as the range goes.
    fn terms(&self, s: [i64; 2], sigma: [i64; 2]) -> Terms {
        let [x1, y1, h1] = self.first;
        let [dx, dy, dh] = self.apart;
        let distance = ((dx * dx + dy * dy) as f64).sqrt().round() as i64;
        let [s_xy, s_h] = s.map(|s| s.clamp(1, DEVIATION_AT_MOST));
        let [sigma_xy, sigma_h] = sigma.map(|sigma| sigma.clamp(1, DEVIATION_AT_MOST));
        let distance = distance.clamp(1, NOMINAL_AT_MOST);
        let (x2, y2, h2) = (x1 + dx, y1 + dy, h1 + dh);
        [
            distance, dh, s_xy, s_h, sigma_xy, sigma_h, x1, y1, h1, x2, y2, h2,
        ]
    }
}

const WIDEST: [i64; 2] = [DEVIATION_AT_MOST; 2];

/// Somewhere from 1 to 10,000, the small numbers as often as the great ones.
fn deviation(dice: &mut Dice) -> i64 {
    let most = dice.pick(&[1, 10, 100, 1_000, DEVIATION_AT_MOST]);
    if dice.one_in(8) {
        most
    } else {
        dice.between(1, most)
    }
}

/// Offsets drawn from a width that lies about the verdicts' bounds, screened more or less well.
fn scattered(dice: &mut Dice) -> Recipe {
    let sigma = [deviation(dice), deviation(dice)];
    // An even spread of 1.41·sigma_xy or 2.1·sigma_h has about the deviation of the bound.
    let percent = [
        dice.pick(&[0, 60, 130, 138, 141, 144, 150, 400]),
        dice.pick(&[0, 60, 195, 205, 210, 215, 225, 400]),
    ];
    let width = [0, 1].map(|which| (sigma[which] * percent[which] / 100).min(OFFSET_AT_MOST));
    // Offsets of that width, on both points, pass the screening from about 0.8 of it on.
    let tight = dice.pick(&[30, 60, 80, 200, 400, 400, 1_000, 1_000]);
    let s = [0, 1].map(|which| sigma[which].max(width[which]) * tight / 100 + 1);
    let mut recipe = Recipe::still(Site::drawn(dice), s, sigma);
    for reading in &mut recipe.readings {
        for (axis, coordinate) in reading.iter_mut().enumerate() {
            let width = width[axis / 2];
            *coordinate += dice.between(-width, width);
        }
    }
    if dice.one_in(10) {
        let place = dice.index(PLACES);
        let (axis, by) = (dice.index(3), OFFSET_AT_MOST * dice.sign());
        recipe.readings[place][axis] = point(&recipe.terms, place)[axis] + by;
    }
    recipe
}

/// For sigma 20: exactly at the bound, beyond though the figures show equal, and next to it.
const XY_EDGES: [[i64; 3]; 4] = [[2, -53, 111], [2, -126, -20], [126, 0, 0], [127, 0, 0]];
const H_EDGES: [[i64; 3]; 4] = [[2, -76, 104], [0, -132, -29], [133, 0, 0], [134, 0, 0]];

fn at_a_verdict(dice: &mut Dice) -> Recipe {
    let times = dice.pick(&[1, 1, 2, 3, 50, 500]);
    let site = Site::drawn(dice);
    let mut recipe = Recipe::still(site, WIDEST, [20 * times; 2]);
    let edges = [
        (dice.index(2), dice.pick(&XY_EDGES)),
        (2, dice.pick(&H_EDGES)),
    ];
    for (axis, offsets) in edges {
        let point = dice.index(2);
        recipe.scatter(dice, point, axis, &offsets.map(|offset| offset * times));
    }
    recipe
}

/// The greatest d that passes: 2·d² <= 25·s².
fn limit(s: i64) -> i64 {
    (25 * s * s / 2).isqrt()
}

/// Sets whose distance or height difference is at the screening's limit or one past it.
fn at_a_limit(dice: &mut Dice) -> Recipe {
    let apart = [dice.between(60_000, NOMINAL_AT_MOST) * dice.sign(), 0, 0];
    let site = Site::apart_by(dice, apart);
    let s = [deviation(dice), deviation(dice)];
    let mut recipe = Recipe::still(site, s, [deviation(dice), deviation(dice)]);
    for _ in 0..dice.between(1, 3) {
        let which = dice.index(2);
        let by = limit(s[which]) + dice.pick(&[-1, 0, 0, 0, 1]);
        recipe.offset(dice.index(PLACES), which * 2, by * dice.sign());
    }
    recipe
}

/// Distances whose square lies between two whole roots, m² + m going to m; and D* such that the
/// rounding decides the screening.
fn at_a_rounding(dice: &mut Dice) -> Recipe {
    let side = dice.between(2, 700);
    let apart = [side * side, side, 0];
    let s = dice.between(1, 50);
    let mut recipe = Recipe::still(Site::apart_by(dice, apart), [s; 2], WIDEST);
    let distance = side * side + limit(s) * dice.sign();
    recipe.terms[0] = distance.clamp(1, NOMINAL_AT_MOST);
    if dice.one_in(2) {
        // y differs by one more or less: the square passes m² + m, or falls short of it.
        recipe.offset(dice.index(PLACES), 1, dice.sign());
    }
    recipe
}

/// Both points of a set as far off as can be on the same side, so that the screening passes.
fn of_the_largest_sums(dice: &mut Dice) -> Recipe {
    let sigma = [deviation(dice), deviation(dice)];
    let site = Site::apart_by(dice, [300_000, 0, -500_000]);
    let mut recipe = Recipe::still(site, WIDEST, sigma);
    let even = dice.one_in(2);
    for set in 0..PLACES / 2 {
        for axis in 0..3 {
            let sign = if even { [1, -1][set % 2] } else { dice.sign() };
            recipe.offset(set * 2, axis, OFFSET_AT_MOST * sign);
            recipe.offset(set * 2 + 1, axis, OFFSET_AT_MOST * sign);
        }
    }
    recipe
}

/// The same offset in every reading of a point: all sums are 0.
fn of_one_offset(dice: &mut Dice) -> Recipe {
    let mut recipe = Recipe::still(Site::drawn(dice), WIDEST, [deviation(dice); 2]);
    let by = dice.pick(&[0, 7, -7, 1_000, OFFSET_AT_MOST]);
    for place in 0..PLACES {
        for axis in 0..3 {
            recipe.offset(place, axis, by);
        }
    }
    recipe
}

/// Offsets of two readings of each point whose sum is 47, 59, 170 or 213 hundredths of that of
/// one offset 10.
const COMPARED: [[i64; 4]; 4] = [
    [-2, 1, -6, 2],
    [-2, 0, -7, 2],
    [-1, 0, -13, 0],
    [-3, 0, -14, 2],
];

/// K8's offsets against 100, and those of xy.
const SINGLE: [i64; 8] = [68, 69, 145, 146, 76, 77, 130, 131];

/// Two books to be compared, first against second, at or next to a limit on both axes.
pub fn compared(dice: &mut Dice) -> [Recipe; 2] {
    let mut first = Recipe::still(Site::drawn(dice), WIDEST, WIDEST);
    let mut second = Recipe::still(Site::drawn(dice), WIDEST, WIDEST);
    let times = dice.between(1, 20);
    for axis in [dice.index(2), 2] {
        let single = dice.one_in(2);
        let of_second = if single { 100 } else { 10 * times };
        second.scatter(dice, 0, axis, &[of_second]);
        if single {
            let by = dice.pick(&SINGLE);
            first.scatter(dice, 1, axis, &[by]);
        } else {
            let [a, b, c, d] = dice.pick(&COMPARED).map(|offset| offset * times);
            let aside = dice.pick(&[0, 0, 0, 1, -1]);
            first.scatter(dice, 0, axis, &[a, b]);
            first.scatter(dice, 1, axis, &[c, d + aside]);
        }
    }
    [first, second]
}

/// Terms with one out of its range, or a pair of points too far apart.
pub fn spoiled(dice: &mut Dice, mut terms: Terms) -> Terms {
    let at = dice.index(12);
    let edge = match at {
        0 => dice.pick(&[0, NOMINAL_AT_MOST + 1, -1]),
        1 => (NOMINAL_AT_MOST + 1) * dice.sign(),
        2..6 => dice.pick(&[0, DEVIATION_AT_MOST + 1, -1]),
        _ if dice.one_in(2) => (COORDINATE_AT_MOST + 1) * dice.sign(),
        6..9 => terms[at + 3] + (NOMINAL_AT_MOST + 1) * dice.sign(),
        _ => terms[at - 3] + (NOMINAL_AT_MOST + 1) * dice.sign(),
    };
    let fallen_back = terms[at].wrapping_add(dice.pick(&HIGH_BITS));
    terms[at] = dice.pick(&[edge, edge, edge, fallen_back, i64::MIN, i64::MAX]);
    terms
}

/// Terms at the edges of their ranges.
pub fn at_the_edges(dice: &mut Dice) -> Terms {
    let apart = [0; 3].map(|_| dice.pick(&[0, 1, NOMINAL_AT_MOST]) * dice.sign());
    let mut site = Site::apart_by(dice, apart);
    if dice.one_in(2) {
        site.first = apart.map(|apart| COORDINATE_AT_MOST * -apart.signum());
    }
    let mut edge = || dice.pick(&[1, DEVIATION_AT_MOST]);
    let mut terms = site.terms([edge(), edge()], [edge(), edge()]);
    terms[0] = dice.pick(&[1, NOMINAL_AT_MOST]);
    terms[1] = dice.pick(&[-NOMINAL_AT_MOST, 0, NOMINAL_AT_MOST]);
    terms
}

/// A reading at the edge of what is near, on one axis or another.
pub fn at_the_reach(dice: &mut Dice, terms: &Terms, place: usize) -> Reading {
    let mut reading = point(terms, place);
    for coordinate in &mut reading {
        let by = dice.pick(&[0, 1, OFFSET_AT_MOST, OFFSET_AT_MOST, OFFSET_AT_MOST]);
        *coordinate += by * dice.sign();
    }
    let past = dice.pick(&[0, 0, 1, 2]);
    let axis = dice.index(3);
    let away = reading[axis] - point(terms, place)[axis];
    reading[axis] += past * away.signum();
    reading
}
