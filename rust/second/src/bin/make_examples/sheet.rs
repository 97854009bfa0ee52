//! A field sheet that is written out as a field file.

const PLACES: usize = 30;
const PLACES_OF_A_SERIES: usize = 10;

#[derive(Clone)]
pub struct FieldSheet {
    /// D* h* s_xy s_h sigma_xy sigma_h
    pub stated: [i64; 6],
    pub points: [[i64; 3]; 2],
    pub readings: [Option<[i64; 3]>; PLACES],
}

impl FieldSheet {
    /// The terms of document 01's example, with every reading on its point.
    pub fn still() -> FieldSheet {
        let points = [[0, 0, 0], [100_000, 0, 0]];
        FieldSheet {
            stated: [100_000, 0, 150, 250, 20, 20],
            points,
            readings: std::array::from_fn(|place| Some(points[place % 2])),
        }
    }

    /// Moves one reading away from where it is by an offset on x, y and h.
    pub fn moved(mut self, series: usize, set: usize, point: usize, by: [i64; 3]) -> FieldSheet {
        let place = (series - 1) * PLACES_OF_A_SERIES + (set - 1) * 2 + point - 1;
        let reading = self.readings[place].as_mut().expect("a reading to move");
        for axis in 0..3 {
            reading[axis] += by[axis];
        }
        self
    }

    pub fn without(mut self, series: usize, set: usize, point: usize) -> FieldSheet {
        self.readings[(series - 1) * PLACES_OF_A_SERIES + (set - 1) * 2 + point - 1] = None;
        self
    }

    /// Puts another value in the place of one of the first six terms.
    pub fn with_stated(mut self, index: usize, value: i64) -> FieldSheet {
        self.stated[index] = value;
        self
    }

    pub fn file(&self) -> Vec<u8> {
        let mut text = String::from("CONTENTS 4\nTERMS 1\n");
        for (series, body) in self.bodies().enumerate() {
            let lines = body.iter().flatten().count();
            text += &format!("SERIES{} {lines}\n", series + 1);
        }
        let terms = self.stated.iter().chain(self.points.iter().flatten());
        let terms: Vec<String> = terms.map(i64::to_string).collect();
        text += &(terms.join(" ") + "\n");
        for body in self.bodies() {
            for (place, reading) in body.iter().enumerate() {
                if let Some([x, y, h]) = reading {
                    text += &format!("{} {} {x} {y} {h}\n", place / 2 + 1, place % 2 + 1);
                }
            }
        }
        text.into_bytes()
    }

    fn bodies(&self) -> impl Iterator<Item = &[Option<[i64; 3]>]> {
        self.readings.chunks(PLACES_OF_A_SERIES)
    }
}
