//! Reads a job text: form, counts, names and the end number in one pass over the bytes.
//!
//! A plain recursive-descent reader. A byte that breaks the form ends the pass at once, because
//! refusal 2 comes before all that follow. The faults of the later refusals are only noted, each
//! kind at its first place, and the pass goes on, since a broken form may still come.

const LONGEST_TEXT: usize = 8192;
const LONGEST_NAME: usize = 12;
const MOST_COLUMNS: usize = 16;
const MOST_FORBIDDEN: usize = 32;
const MOST_NEEDS: usize = 8;
const MOST_NAMES_IN_A_NEED: usize = 32;
const DEEPEST_BRACKET: usize = 8;

/// The marks that are no columns.
pub const AND: u16 = 16;
pub const OR: u16 = 17;
pub const END_OF_NEED: u16 = 18;

/// What a job text says. After a refusal there are no columns, sets, marks or names.
#[derive(Clone, Debug, Default, PartialEq, Eq)]
pub struct Reading {
    pub refusal: u16,
    pub place: usize,
    pub columns: usize,
    pub forbidden: Vec<u16>,
    pub marks: Vec<u16>,
    pub needs: usize,
    pub names: Vec<Vec<u8>>,
}

impl Reading {
    fn refused(refusal: u16, place: usize) -> Reading {
        Reading {
            refusal,
            place,
            ..Reading::default()
        }
    }
}

/// Reads a whole job text.
pub fn read(text: &[u8]) -> Reading {
    if text.len() > LONGEST_TEXT {
        return Reading::refused(1, LONGEST_TEXT);
    }
    let mut reader = Reader::new(text);
    match reader.job() {
        Err(place) => Reading::refused(2, place),
        Ok(wrong_end) => reader.answer(wrong_end),
    }
}

/// The part of the form that was read, or the place of the byte that broke it.
type Formed<T> = Result<T, usize>;

struct Reader<'text> {
    text: &'text [u8],
    at: usize,
    columns: Vec<&'text [u8]>,
    forbidden: Vec<u16>,
    marks: Vec<u16>,
    forbid_lines: usize,
    need_lines: usize,
    names_in_need: usize,
    too_many: Option<usize>,
    bad_name: Option<(u16, usize)>,
}

impl<'text> Reader<'text> {
    fn new(text: &'text [u8]) -> Self {
        Reader {
            text,
            at: 0,
            columns: Vec::with_capacity(MOST_COLUMNS),
            forbidden: Vec::new(),
            marks: Vec::new(),
            forbid_lines: 0,
            need_lines: 0,
            names_in_need: 0,
            too_many: None,
            bad_name: None,
        }
    }

    /// Reads all lines; answers the place of the end number if that number is wrong.
    fn job(&mut self) -> Formed<Option<usize>> {
        self.word(b"columns=")?;
        self.columns_line()?;
        while self.peek() == Some(b'f') {
            self.forbid_line()?;
        }
        while self.peek() == Some(b'n') {
            self.need_line()?;
        }
        self.word(b"end=")?;
        let place = self.at;
        let number = self.end_number()?;
        self.word(b"\n")?;
        if self.at < self.text.len() {
            return Err(self.at);
        }
        let right = number == self.forbid_lines + self.need_lines;
        Ok(if right { None } else { Some(place) })
    }

    /// Chooses among the noted faults in the order of the refusals.
    fn answer(self, wrong_end: Option<usize>) -> Reading {
        if let Some(place) = self.too_many {
            return Reading::refused(3, place);
        }
        if let Some((refusal, place)) = self.bad_name {
            return Reading::refused(refusal, place);
        }
        if let Some(place) = wrong_end {
            return Reading::refused(6, place);
        }
        Reading {
            refusal: 0,
            place: 0,
            columns: self.columns.len(),
            forbidden: self.forbidden,
            marks: self.marks,
            needs: self.need_lines,
            names: self.columns.iter().map(|name| name.to_vec()).collect(),
        }
    }

    fn columns_line(&mut self) -> Formed<()> {
        loop {
            let place = self.at;
            let name = self.name()?;
            if self.columns.contains(&name) {
                self.note_name(4, place);
            }
            // A 17th column is refused whatever follows, so none past the 16th is kept.
            if self.columns.len() == MOST_COLUMNS {
                self.note_count(place);
            } else {
                self.columns.push(name);
            }
            if !self.taken(b',') {
                return self.word(b"\n");
            }
        }
    }

    fn forbid_line(&mut self) -> Formed<()> {
        if self.forbid_lines == MOST_FORBIDDEN {
            self.note_count(self.at);
        }
        self.forbid_lines += 1;
        self.word(b"forbid=")?;
        let mut set = 0;
        loop {
            let place = self.at;
            if let Some(column) = self.column()? {
                if set & 1 << column != 0 {
                    self.note_name(4, place);
                }
                set |= 1 << column;
            }
            if !self.taken(b'+') {
                break;
            }
        }
        self.forbidden.push(set);
        self.word(b"\n")
    }

    fn need_line(&mut self) -> Formed<()> {
        if self.need_lines == MOST_NEEDS {
            self.note_count(self.at);
        }
        self.need_lines += 1;
        self.names_in_need = 0;
        self.word(b"need=")?;
        self.or_list(0)?;
        self.marks.push(END_OF_NEED);
        self.word(b"\n")
    }

    fn or_list(&mut self, depth: usize) -> Formed<()> {
        self.and_list(depth)?;
        while self.taken(b'|') {
            self.and_list(depth)?;
            self.marks.push(OR);
        }
        Ok(())
    }

    fn and_list(&mut self, depth: usize) -> Formed<()> {
        self.item(depth)?;
        while self.taken(b'&') {
            self.item(depth)?;
            self.marks.push(AND);
        }
        Ok(())
    }

    fn item(&mut self, depth: usize) -> Formed<()> {
        if depth < DEEPEST_BRACKET && self.taken(b'(') {
            self.or_list(depth + 1)?;
            return self.word(b")");
        }
        let place = self.at;
        let column = self.column()?;
        if self.names_in_need == MOST_NAMES_IN_A_NEED {
            self.note_count(place);
        }
        self.names_in_need += 1;
        // An unknown name was noted and the job will be refused, so its mark may be any.
        self.marks.push(column.unwrap_or(0));
        Ok(())
    }

    /// A name that should be one of the columns; an unknown one is noted.
    fn column(&mut self) -> Formed<Option<u16>> {
        let place = self.at;
        let name = self.name()?;
        let found = self.columns.iter().position(|column| *column == name);
        if found.is_none() {
            self.note_name(5, place);
        }
        Ok(found.map(|column| column as u16))
    }

    fn name(&mut self) -> Formed<&'text [u8]> {
        let start = self.at;
        if !matches!(self.peek(), Some(b'a'..=b'z')) {
            return Err(start);
        }
        while matches!(self.peek(), Some(b'a'..=b'z' | b'0'..=b'9')) {
            if self.at == start + LONGEST_NAME {
                return Err(self.at);
            }
            self.at += 1;
        }
        Ok(&self.text[start..self.at])
    }

    fn end_number(&mut self) -> Formed<usize> {
        let first = self.digit()?;
        if first == 0 || !matches!(self.peek(), Some(b'0'..=b'9')) {
            return Ok(first);
        }
        Ok(10 * first + self.digit()?)
    }

    fn digit(&mut self) -> Formed<usize> {
        match self.peek() {
            Some(byte @ b'0'..=b'9') => {
                self.at += 1;
                Ok(usize::from(byte - b'0'))
            }
            _ => Err(self.at),
        }
    }

    fn word(&mut self, word: &[u8]) -> Formed<()> {
        for &byte in word {
            if !self.taken(byte) {
                return Err(self.at);
            }
        }
        Ok(())
    }

    fn taken(&mut self, byte: u8) -> bool {
        let here = self.peek() == Some(byte);
        if here {
            self.at += 1;
        }
        here
    }

    fn peek(&self) -> Option<u8> {
        self.text.get(self.at).copied()
    }

    // Places rise through the pass, so the first fault noted is the one with the smallest place.
    fn note_count(&mut self, place: usize) {
        self.too_many.get_or_insert(place);
    }

    fn note_name(&mut self, refusal: u16, place: usize) {
        self.bad_name.get_or_insert((refusal, place));
    }
}
