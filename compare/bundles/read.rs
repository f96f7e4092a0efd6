//! Cases and answers as compare/FORMAT.md has them, read side by side: of the letters that the sets `bundles*` have.
use std::str::Lines;

/// What does not fit, in one line.
pub type Read<T> = Result<T, String>;

/// A case `p`: its number, the payload, and its bodies as they are answered.
pub struct Payload<'a> {
    pub number: u64,
    pub bytes: &'a [u8],
    pub bodies: Vec<Body<'a>>,
}

/// A frame's fields and its MPDU's sum: direction, region, channel, speed, RSSI, beams, MPDU length, sum.
pub type Frame<'a> = Vec<&'a str>;
const FRAME: usize = 8;

/// A body: its place in the payload, its length, and its frame, which has no fields where there is none.
#[derive(Clone, PartialEq)]
pub struct Body<'a> {
    pub place: usize,
    pub length: &'a str,
    pub frame: Frame<'a>,
}

/// What the case `f` asks: the page from 2,048 with a count of 500.
const ASKED: [u64; 2] = [2048, 500];

/// A case `T` and the page of the case `f` after it.
pub struct Page<'a> {
    pub number: u64,
    pub trace: &'a [u8],
    pub rows: Vec<Row<'a>>,
}

/// A row: its record's offset, its position there, its time, the gap, and its frame.
pub struct Row<'a> {
    pub offset: u64,
    pub position: u64,
    pub time: u64,
    pub gap: &'a str,
    pub frame: Frame<'a>,
}

impl Body<'_> {
    pub fn text(&self) -> String {
        format!("{} {} {}", self.place, self.length, if self.frame.is_empty() { "-".into() } else { self.frame.join(" ") })
    }
}

/// The beam count of a frame.
pub fn beams(frame: &[&str]) -> Read<u64> {
    number(frame[5])
}

fn number(text: &str) -> Read<u64> {
    text.parse().map_err(|_| format!("{text} is no number"))
}

/// Cases that are not read yet, and the answers to them.
pub struct Both<'a> {
    cases: &'a [u8],
    lines: std::iter::Peekable<Lines<'a>>,
    /// The number of the next case.
    pub number: u64,
}

impl<'a> Both<'a> {
    pub fn new(cases: &'a [u8], answers: &'a str) -> Self {
        Both { cases, lines: answers.lines().peekable(), number: 0 }
    }

    /// The letter of the next case, if there is one.
    pub fn letter(&self) -> Option<u8> {
        self.cases.first().copied()
    }

    fn take(&mut self, n: usize) -> Read<&'a [u8]> {
        let (taken, rest) = self.cases.split_at_checked(n).ok_or("the cases end within a case")?;
        self.cases = rest;
        Ok(taken)
    }

    fn bytes(&mut self) -> Read<&'a [u8]> {
        let n = u32::from_le_bytes(self.take(4)?.try_into().unwrap());
        self.take(n as usize)
    }

    /// The next case's letter, which has to be this one.
    fn expect(&mut self, letter: u8) -> Read<()> {
        if self.take(1)? != [letter] {
            return Err(format!("case {} is not {}, which is next in a group", self.number, letter as char));
        }
        Ok(())
    }

    /// The next answer: the rest of its first line, which opens with the letter, and the lines under it.
    fn answer(&mut self, letter: &str) -> Read<(&'a str, Vec<&'a str>)> {
        let first = self.lines.next().and_then(|l| l.strip_prefix(letter));
        let first = first.ok_or_else(|| format!("the answer to case {} is not one to {letter}", self.number))?;
        let mut under = Vec::new();
        while let Some(line) = self.lines.next_if(|l| l.starts_with(' ')) {
            under.push(line);
        }
        self.number += 1;
        Ok((first.trim(), under))
    }

    /// The kind table: which end bytes are of a PTI kind.
    pub fn kinds(&mut self) -> Read<&'a [u8]> {
        self.expect(b'K')?;
        let (_version, kinds) = (self.take(4)?, self.take(256)?);
        self.answer("K")?;
        Ok(kinds)
    }

    pub fn payload(&mut self) -> Read<Payload<'a>> {
        let case = self.number;
        self.expect(b'p')?;
        let bytes = self.bytes()?;
        let (count, lines) = self.answer("p")?;
        let bodies: Vec<Body> = lines.into_iter().map(body).collect::<Read<_>>().map_err(|e| format!("case {case}: {e}"))?;
        if number(count)? != bodies.len() as u64 {
            return Err(format!("case {case}: {count} bodies, and {} lines", bodies.len()));
        }
        Ok(Payload { number: case, bytes, bodies })
    }

    /// A trace and its page.
    pub fn page(&mut self) -> Read<Page<'a>> {
        self.expect(b'T')?;
        let trace = self.bytes()?;
        self.answer("T")?;
        let case = self.number;
        self.expect(b'f')?;
        if self.take(16)? != ASKED.map(u64::to_le_bytes).concat() {
            return Err(format!("case {case} asks for another page"));
        }
        let (_, mut lines) = self.answer("f")?;
        let last: Vec<&str> = lines.pop().unwrap_or("").split_whitespace().collect();
        let rows: Vec<Row> = lines.into_iter().map(row).collect::<Read<_>>().map_err(|e| format!("case {case}: {e}"))?;
        match last[..] {
            ["page", _, n, _] if number(n)? == rows.len() as u64 => Ok(Page { number: case, trace, rows }),
            _ => Err(format!("case {case}: no page, or another number of rows")),
        }
    }

    /// The last line, when all cases are read.
    pub fn end(&mut self) -> Read<()> {
        match self.lines.next() {
            Some(line) if line == format!("end {}", self.number) && self.lines.next().is_none() => Ok(()),
            _ => Err(format!("the answers do not end with the {} cases", self.number)),
        }
    }
}

fn body(line: &str) -> Read<Body<'_>> {
    let fields: Vec<&str> = line.split_whitespace().collect();
    let frame = match fields.get(2..) {
        Some(["-"]) => Vec::new(),
        Some(frame) if frame.len() == FRAME => frame.to_vec(),
        _ => return Err(format!("no body: {line}")),
    };
    Ok(Body { place: number(fields[0])? as usize, length: fields[1], frame })
}

fn row(line: &str) -> Read<Row<'_>> {
    let fields: Vec<&str> = line.split_whitespace().collect();
    let [offset, position, time, gap, frame @ ..] = &fields[..] else { return Err(format!("no row: {line}")) };
    if frame.len() != FRAME {
        return Err(format!("no row: {line}"));
    }
    Ok(Row { offset: number(offset)?, position: number(position)?, time: number(time)?, gap, frame: frame.to_vec() })
}
