//! Calibration from the panel (paper 02, Change 1): the registers of the figures, over the waiting copy.

use crate::sheet::most;
use crate::value::{magnitude, Range, PARTS, STEPS, WHOLE};
use crate::Figures;

/// Neighbouring registers of one kind of figure: a table's column has one for each point.
pub struct Row {
    pub first: u16,
    pub last: u16,
    pub range: Range,
    read: fn(&Figures, usize) -> i64,
    write: fn(&mut Figures, usize, i64),
}

/// A row: its registers, its range, and where the figure stands, for point i of a table.
macro_rules! row {
    ($first:literal to $last:literal, $range:expr, |$figures:ident, $i:pat_param| $place:expr) => {
        Row {
            first: $first,
            last: $last,
            range: $range,
            read: |$figures, $i| i64::from($place),
            write: |$figures, $i, count| $place = count as _,
        }
    };
    ($number:literal, $($rest:tt)*) => { row!($number to $number, $($rest)*) };
}

/// 004's registers of the figures, with the ranges of 01's sheet table. CTG stands before CTO here.
pub const ROWS: [Row; 17] = [
    row!(40, magnitude(PARTS, most::CGAI), |f, _| f.cgai),
    row!(41, magnitude(STEPS, most::COFS), |f, _| f.cofs),
    row!(44, magnitude(STEPS, most::CELL), |f, _| f.cmin),
    row!(45, magnitude(STEPS, most::CELL), |f, _| f.cmax),
    row!(50, Range { scale: WHOLE, least: 2, most: 7 }, |f, _| f.cln),
    row!(51 to 57, magnitude(STEPS, most::CELL), |f, i| f.linearity[i].clx),
    row!(61 to 67, magnitude(STEPS, most::CLK), |f, i| f.linearity[i].clk),
    row!(70, magnitude(PARTS, most::SGAI), |f, _| f.sgai),
    row!(71, magnitude(STEPS, most::SYSTEM), |f, _| f.sofs),
    row!(74, magnitude(STEPS, most::SYSTEM), |f, _| f.smin),
    row!(75, magnitude(STEPS, most::SYSTEM), |f, _| f.smax),
    row!(92, Range { scale: STEPS, least: 0, most: most::FFLV }, |f, _| f.fflv),
    row!(93, Range { scale: WHOLE, least: 0, most: most::FFST }, |f, _| f.ffst),
    row!(110, Range { scale: WHOLE, least: 2, most: 5 }, |f, _| f.ctn),
    row!(111 to 115, magnitude(STEPS, most::CT), |f, i| f.temperature[i].ct),
    row!(116 to 120, magnitude(PARTS, most::CTG), |f, i| f.temperature[i].ctg),
    row!(121 to 125, magnitude(STEPS, most::CTO), |f, i| f.temperature[i].cto),
];

/// The register of one figure: its row, and its point in a table. Two bytes, for speed.
#[derive(Clone, Copy)]
pub struct Figure {
    row: u8,
    point: u8,
}

/// How many numbers there are up to the last row's, with 0.
const NUMBERS: usize = ROWS[ROWS.len() - 1].last as usize + 1;

/// The figures by their registers' numbers.
static BY_NUMBER: [Option<Figure>; NUMBERS] = {
    let mut figures = [None; NUMBERS];
    let mut row = 0;
    while row < ROWS.len() {
        let mut number = ROWS[row].first;
        while number <= ROWS[row].last {
            figures[number as usize] = Some(Figure { row: row as u8, point: (number - ROWS[row].first) as u8 });
            number += 1;
        }
        row += 1;
    }
    figures
};

impl Figure {
    pub fn at(number: u16) -> Option<Figure> {
        *BY_NUMBER.get(usize::from(number))?
    }

    fn row(self) -> &'static Row {
        &ROWS[usize::from(self.row)]
    }

    pub fn range(self) -> Range {
        self.row().range
    }

    /// In counts.
    pub fn read(self, figures: &Figures) -> i64 {
        (self.row().read)(figures, self.point.into())
    }

    pub fn write(self, figures: &mut Figures, count: i64) {
        (self.row().write)(figures, self.point.into(), count);
    }
}
