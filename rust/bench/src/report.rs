//! The report: each row over several runs, with the spread of its ratio and what that says of its
//! claim.

use std::fmt::{self, Display, Formatter};

use crate::rows::Row;

/// One row of the table: what the runs measured of the same thing.
pub struct Line {
    runs: Vec<Row>,
}

impl Line {
    /// The lines of several runs, each of which has the same rows in the same order.
    pub fn all(runs: Vec<Vec<Row>>) -> Vec<Line> {
        let mut lines: Vec<Line> = Vec::new();
        for run in runs {
            lines.resize_with(run.len(), || Line { runs: Vec::new() });
            for (line, row) in lines.iter_mut().zip(run) {
                line.runs.push(row);
            }
        }
        lines
    }

    /// The middle one of the numbers, between the lowest and the highest.
    fn spread(&self, number: fn(&Row) -> f64) -> [f64; 3] {
        let mut numbers: Vec<f64> = self.runs.iter().map(number).collect();
        numbers.sort_by(f64::total_cmp);
        let last = numbers.len() - 1;
        [numbers[0], numbers[last / 2], numbers[last]]
    }
}

impl Display for Line {
    fn fmt(&self, f: &mut Formatter) -> fmt::Result {
        let Row {
            what,
            beside,
            claim,
            ..
        } = &self.runs[0];
        let [_, proved, _] = self.spread(|row| row.proved);
        let [_, other, _] = self.spread(|row| row.other);
        let [lowest, ratio, highest] = self.spread(|row| row.proved / row.other);
        let verdict = match claim {
            None => "not claimed".into(),
            Some(most) if highest <= *most => format!("at most {most:.1}: met"),
            Some(most) if lowest > *most => format!("at most {most:.1}: missed"),
            Some(most) => format!("at most {most:.1}: within the noise"),
        };
        write!(
            f,
            "| {what} | {proved:.1} ns | {beside} | {other:.1} ns | {ratio:.2} | {lowest:.2} to {highest:.2} | {verdict} |"
        )
    }
}
