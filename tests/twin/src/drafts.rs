//! Job texts drafted by chance from the form itself, if wanted with slips in what they say.

use crate::chance::Chance;

/// A text before it is written down. With slips, faults of every later refusal come in.
pub struct Draft<'chance> {
    chance: &'chance mut Chance,
    slips: bool,
    deepest: usize,
    columns: Vec<Vec<u8>>,
    lines: Vec<u8>,
}

impl<'chance> Draft<'chance> {
    pub fn new(chance: &'chance mut Chance, slips: bool) -> Self {
        let deepest = if slips && chance.one_in(8) { 9 } else { 8 };
        Draft {
            chance,
            slips,
            deepest,
            columns: Vec::new(),
            lines: Vec::new(),
        }
    }

    fn slip(&mut self, times: usize) -> bool {
        self.slips && self.chance.one_in(times)
    }

    /// A count up to the most that may be, or with a slip some more.
    fn count(&mut self, least: usize, most: usize) -> usize {
        if self.slip(12) {
            most + self.chance.from_to(1, 3)
        } else {
            self.chance.count(least, most)
        }
    }

    pub fn text(mut self) -> Vec<u8> {
        self.columns_line();
        let forbids = self.count(0, 32);
        for _ in 0..forbids {
            self.forbid_line();
        }
        let needs = self.count(0, 8);
        for _ in 0..needs {
            self.need_line();
        }
        let end = self.end_number(forbids + needs);
        self.lines.extend(format!("end={end}\n").into_bytes());
        self.lines
    }

    fn columns_line(&mut self) {
        for _ in 0..self.count(1, 16) {
            let name = self.new_name();
            self.columns.push(name);
        }
        self.lines.extend(b"columns=");
        self.lines.extend(self.columns.join(&b','));
        self.lines.push(b'\n');
    }

    fn new_name(&mut self) -> Vec<u8> {
        loop {
            let name = name(self.chance, self.slips);
            if !self.columns.contains(&name) || self.slip(20) {
                return name;
            }
        }
    }

    fn forbid_line(&mut self) {
        let most = self.columns.len();
        let mut names: Vec<Vec<u8>> = Vec::new();
        for _ in 0..self.chance.count(1, most) {
            let name = self.known_name();
            if !names.contains(&name) || self.slip(20) {
                names.push(name);
            }
        }
        self.lines.extend(b"forbid=");
        self.lines.extend(names.join(&b'+'));
        self.lines.push(b'\n');
    }

    fn need_line(&mut self) {
        let names = self.count(1, 32);
        self.lines.extend(b"need=");
        self.or_list(names, 0);
        self.lines.push(b'\n');
    }

    fn or_list(&mut self, names: usize, depth: usize) {
        let mut left = names;
        while left > 0 {
            let taken = self.chance.from_to(1, left);
            self.and_list(taken, depth);
            left -= taken;
            self.lines.extend((left > 0).then_some(b'|'));
        }
    }

    fn and_list(&mut self, names: usize, depth: usize) {
        let mut left = names;
        while left > 0 {
            let most = if depth < self.deepest { left } else { 1 };
            let taken = self.chance.from_to(1, most);
            self.item(taken, depth);
            left -= taken;
            self.lines.extend((left > 0).then_some(b'&'));
        }
    }

    fn item(&mut self, names: usize, depth: usize) {
        if depth < self.deepest && (names > 1 || self.chance.one_in(12)) {
            let brackets = match self.chance.below(8) {
                0 => self.deepest - depth,
                _ => 1,
            };
            self.lines.extend(vec![b'('; brackets]);
            self.or_list(names, depth + brackets);
            self.lines.extend(vec![b')'; brackets]);
        } else {
            let name = self.known_name();
            self.lines.extend(name);
        }
    }

    /// A column, or with a slip an unknown name, which may be nearly one.
    fn known_name(&mut self) -> Vec<u8> {
        let mut known = self.columns[self.chance.below(self.columns.len())].clone();
        if self.slip(60) {
            match self.chance.below(3) {
                0 => known.push(b'x'),
                1 if known.len() > 1 => known.truncate(known.len() - 1),
                _ => known = name(self.chance, true),
            }
        }
        known
    }

    fn end_number(&mut self, right: usize) -> String {
        if !self.slip(5) {
            return right.to_string();
        }
        match self.chance.below(5) {
            0 => self.chance.pick(&["", "0", "00", "01", "99", "100"]).into(),
            1 => format!("0{right}"),
            2 => format!("{right}0"),
            3 => (right + 1).to_string(),
            _ => self.chance.below(100).to_string(),
        }
    }
}

/// A name, often one of the keys or of the longest length; with slips one byte longer.
pub fn name(chance: &mut Chance, slips: bool) -> Vec<u8> {
    let length = match chance.below(10) {
        0 => return chance.pick(&["end", "need", "forbid", "columns"]).into(),
        1 if slips && chance.one_in(8) => 13,
        1 => 12,
        _ => chance.from_to(1, 4),
    };
    let mut name = vec![b'a' + chance.below(26) as u8];
    for _ in 1..length {
        name.push(chance.pick(b"abcxyz0189"));
    }
    name
}
