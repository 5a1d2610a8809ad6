//! The lines of a state's text, read back: what each of them says, in the order in which they must stand.

use crate::engine::Lock;
use std::str::Split;

/// `P t r o`.
#[derive(Clone, Debug, PartialEq, Eq)]
pub struct RowLine {
    pub save: usize,
    pub runs: u32,
    pub outcome: char,
}

/// `O k v w`.
#[derive(Clone, Debug, PartialEq, Eq)]
pub struct SheetLine {
    pub content: u32,
    pub wct: u32,
}

/// `S t p r f w q`.
#[derive(Clone, Debug, PartialEq, Eq)]
pub struct SaveLine {
    pub save: usize,
    pub phase: char,
    pub runs: u32,
    pub failed: bool,
    pub wide: bool,
    pub place: Option<usize>,
}

/// `L q t x`.
#[derive(Clone, Debug, PartialEq, Eq)]
pub struct PlaceLine {
    pub save: usize,
    pub last: bool,
}

/// `C t k c m v w b`.
#[derive(Clone, Debug, PartialEq, Eq)]
pub struct CopyLine {
    pub save: usize,
    pub sheet: usize,
    pub claim: Option<Lock>,
    pub copy: Option<CopyFields>,
}

#[derive(Clone, Debug, PartialEq, Eq)]
pub struct CopyFields {
    pub written: bool,
    pub content: u32,
    pub wct_seen: u32,
    pub behind: bool,
}

/// `Q k t c g u ..`.
#[derive(Clone, Debug, PartialEq, Eq)]
pub struct EntryLine {
    pub sheet: usize,
    pub save: usize,
    pub lock: Lock,
    pub granted: bool,
    pub in_the_way: Vec<usize>,
}

#[derive(Clone, Debug, Default, PartialEq, Eq)]
pub struct Lines {
    pub rows: Vec<RowLine>,
    pub sheets: Vec<SheetLine>,
    pub tally: [u32; 3],
    pub saves: Vec<SaveLine>,
    pub places: Vec<PlaceLine>,
    /// By node.
    pub taken: Vec<usize>,
    pub copies: Vec<CopyLine>,
    pub entries: Vec<EntryLine>,
}

const KINDS: &str = "POTSLNCQ";

impl Lines {
    /// The lines of a text, or the first that is not as it must be.
    pub fn read(text: &str) -> Result<Lines, String> {
        let mut lines = Lines::default();
        let mut kind = 0;
        for line in text.split_inclusive('\n') {
            let new = line.chars().next().and_then(|letter| KINDS.find(letter));
            let fields = line.strip_suffix('\n').and_then(|line| line.get(1..)?.strip_prefix(' '));
            // A tally stands alone.
            let in_order = new.is_some_and(|new| new > kind || new == kind && new != 2);
            let read = fields.filter(|_| in_order).and_then(|fields| {
                kind = new?;
                let mut fields = Fields(fields.split(' '));
                lines.add(kind, &mut fields).filter(|()| fields.0.next().is_none())
            });
            read.ok_or_else(|| format!("form: {line:?}"))?;
        }
        Ok(lines)
    }

    /// Adds a line of the kind at this place of all kinds; sheets, places and nodes count from 0.
    fn add(&mut self, kind: usize, fields: &mut Fields) -> Option<()> {
        match &KINDS[kind..=kind] {
            "P" => self.rows.push(RowLine {
                save: fields.figure()?,
                runs: fields.figure()?,
                outcome: fields.letter("CDU")?,
            }),
            "O" => {
                fields.number(self.sheets.len())?;
                self.sheets.push(SheetLine { content: fields.figure()?, wct: fields.figure()? });
            }
            "T" => self.tally = [fields.figure()?, fields.figure()?, fields.figure()?],
            "S" => self.saves.push(fields.save_line()?),
            "L" => {
                fields.number(self.places.len())?;
                let save = fields.figure()?;
                self.places.push(PlaceLine { save, last: fields.letter("LF")? == 'L' });
            }
            "N" => {
                fields.number(self.taken.len())?;
                self.taken.push(fields.figure()?);
            }
            "C" => self.copies.push(fields.copy_line()?),
            _ => self.entries.push(fields.entry_line()?),
        }
        Some(())
    }
}

/// What is left of a line.
struct Fields<'a>(Split<'a, char>);

impl Fields<'_> {
    /// A figure without a sign or leading zeros.
    fn figure<T: std::str::FromStr>(&mut self) -> Option<T> {
        let field = self.0.next()?;
        let plain = field == "0" || matches!(field.bytes().next(), Some(b'1'..=b'9'));
        field.parse().ok().filter(|_| plain)
    }

    fn number(&mut self, expected: usize) -> Option<()> {
        (self.figure::<usize>()? == expected).then_some(())
    }

    /// One of these letters.
    fn letter(&mut self, letters: &str) -> Option<char> {
        let field = self.0.next()?;
        letters.chars().find(|letter| field.len() == 1 && field.starts_with(*letter))
    }

    /// The last of these letters is the - of a mark that is not set.
    fn mark(&mut self, letters: &str) -> Option<bool> {
        self.letter(letters).map(|letter| letter != '-')
    }

    fn lock(&mut self, letters: &str) -> Option<Option<Lock>> {
        Some(match self.letter(letters)? {
            'S' => Some(Lock::S),
            'X' => Some(Lock::X),
            _ => None,
        })
    }

    fn save_line(&mut self) -> Option<SaveLine> {
        let (save, phase, runs) = (self.figure()?, self.letter("FSLCD")?, self.figure()?);
        let (failed, wide) = (self.mark("F-")?, self.mark("W-")?);
        let mut ahead = self.0.clone();
        let place = if ahead.next() == Some("-") {
            self.0 = ahead;
            None
        } else {
            Some(self.figure()?)
        };
        Some(SaveLine { save, phase, runs, failed, wide, place })
    }

    fn copy_line(&mut self) -> Option<CopyLine> {
        let (save, sheet, claim) = (self.figure()?, self.figure()?, self.lock("SX-")?);
        let copy = match self.letter("RW-")? {
            '-' => None,
            letter => Some(CopyFields {
                written: letter == 'W',
                content: self.figure()?,
                wct_seen: self.figure()?,
                behind: self.mark("B-")?,
            }),
        };
        Some(CopyLine { save, sheet, claim, copy })
    }

    fn entry_line(&mut self) -> Option<EntryLine> {
        let (sheet, save, lock) = (self.figure()?, self.figure()?, self.lock("SX")??);
        let granted = self.letter("GW")? == 'G';
        let mut in_the_way = Vec::new();
        while self.0.clone().next().is_some() {
            in_the_way.push(self.figure()?);
        }
        Some(EntryLine { sheet, save, lock, granted, in_the_way })
    }
}
