//! Figures with their spread: the median, and the lowest and the highest of them; and how they are
//! written.

/// A figure, or what it is over: a run that reached its time limit says no more.
#[derive(Clone, Copy)]
pub struct Figure {
    pub value: f64,
    pub over: bool,
}

impl Figure {
    pub fn shown(self) -> String {
        format!(
            "{}{}",
            if self.over { "over " } else { "" },
            number(self.value)
        )
    }
}

/// At least one figure, sorted.
pub struct Spread(Vec<Figure>);

impl Spread {
    pub fn new(values: impl IntoIterator<Item = f64>) -> Spread {
        Spread::of(
            values
                .into_iter()
                .map(|value| Figure { value, over: false })
                .collect(),
        )
    }

    pub fn of(mut figures: Vec<Figure>) -> Spread {
        assert!(!figures.is_empty(), "nothing was measured");
        figures.sort_by(|one, other| one.value.total_cmp(&other.value));
        Spread(figures)
    }

    /// The figure in the middle, or the mean of the two there.
    pub fn median(&self) -> Figure {
        let after = self.0[self.0.len() / 2];
        let before = self.0[(self.0.len() - 1) / 2];
        Figure {
            value: (before.value + after.value) / 2.0,
            over: before.over || after.over,
        }
    }

    /// How far apart the highest and the lowest are, as a factor.
    pub fn factor(&self) -> f64 {
        self.0[self.0.len() - 1].value / self.0[0].value
    }

    /// "median (lowest to highest)", or the one figure that there is.
    pub fn shown(&self) -> String {
        self.written(Figure::shown)
    }

    /// The same of counts, which are written whole, as is the mean of two counts in the middle.
    pub fn counts(&self) -> String {
        self.written(|count| commas(count.value.round() as u64))
    }

    fn written(&self, figure: fn(Figure) -> String) -> String {
        let last = self.0.len() - 1;
        if last == 0 {
            return figure(self.0[0]);
        }
        format!(
            "{} ({} to {})",
            figure(self.median()),
            figure(self.0[0]),
            figure(self.0[last])
        )
    }
}

/// The median of figures of which none is over.
pub fn median(values: impl IntoIterator<Item = f64>) -> f64 {
    Spread::new(values).median().value
}

/// Rounded to three digits that count, with commas between thousands.
pub fn number(value: f64) -> String {
    if value < 0.001 {
        return "0".to_string();
    }
    let before = value.log10().floor() as i32;
    if before >= 3 {
        let unit = 10f64.powi(before - 2);
        return commas(((value / unit).round() * unit).round() as u64);
    }
    format!("{:.*}", (2 - before).clamp(0, 3) as usize, value)
}

pub fn commas(value: u64) -> String {
    let digits = value.to_string();
    let mut written = String::new();
    for (place, digit) in digits.chars().enumerate() {
        if place > 0 && (digits.len() - place) % 3 == 0 {
            written.push(',');
        }
        written.push(digit);
    }
    written
}
