//! Where a number lies along an axis, and which numbers are written beside it.

/// An axis from 0 up to its last mark, in equal steps.
pub struct Linear {
    pub marks: Vec<f64>,
}

impl Linear {
    /// Some five marks, the last at or past the greatest number.
    pub fn new(greatest: f64) -> Linear {
        let steps = [1.0, 2.0, 4.0, 8.0, 16.0, 20.0, 64.0, 128.0, 1_000.0];
        let step = steps.into_iter().find(|step| greatest / step <= 8.0);
        let step = step.unwrap_or(greatest);
        let marks = (0..).map(|mark| f64::from(mark) * step);
        let below = marks.clone().take_while(|mark| *mark < greatest).count();
        Linear { marks: marks.take(below + 1).collect() }
    }

    /// From 0 at the first mark to 1 at the last.
    pub fn at(&self, number: f64) -> f64 {
        number / self.marks[self.marks.len() - 1]
    }
}

/// An axis of powers of ten, with marks at 1, 2 and 5 of each.
pub struct Powers {
    pub marks: Vec<f64>,
}

impl Powers {
    /// Marks around the least and the greatest number.
    pub fn new(least: f64, greatest: f64) -> Powers {
        let marks = (0..12).flat_map(|power| [1.0, 2.0, 5.0].map(|of| of * 10f64.powi(power)));
        let marks: Vec<f64> = marks.collect();
        let first = marks.iter().rposition(|mark| *mark <= least).unwrap_or(0);
        let last = marks.iter().position(|mark| *mark >= greatest);
        let last = last.unwrap_or(marks.len() - 1);
        Powers { marks: marks[first..=last].to_vec() }
    }

    pub fn at(&self, number: f64) -> f64 {
        let (first, last) = (self.marks[0], self.marks[self.marks.len() - 1]);
        (number / first).ln() / (last / first).ln()
    }
}
