//! "The sheet": its bytes, and the refusals that are found in the header and the lines.

/// The greatest number of kinds.
pub const MOST_KINDS: usize = 32;
/// The greatest number of codes.
pub const MOST_CODES: usize = 64;
/// The greatest number of lines.
pub const MOST_LINES: usize = 256;
/// The greatest number of fields.
pub const MOST_FIELDS: usize = 64;
/// The bytes of a header; the lines start there.
pub const HEADER_BYTES: usize = 20;
/// The bytes of the largest sheet that can be accepted.
pub const MOST_BYTES: usize = HEADER_BYTES + MOST_LINES * (2 + MOST_KINDS) + 2 * MOST_KINDS * MOST_FIELDS;

/// A refusal: its number in the table and its place.
#[derive(Clone, Copy, Debug, PartialEq, Eq, Hash)]
pub struct Refusal {
    pub number: u32,
    pub place: u32,
}

/// The refusal of that number at that place.
pub fn refused<T>(number: u32, place: usize) -> Result<T, Refusal> {
    Err(Refusal { number, place: place as u32 })
}

/// A line: "one X goes, the counts come, the code is read".
#[derive(Clone, Copy, Debug)]
pub struct Line<'a> {
    pub kind: usize,
    pub code: usize,
    /// "The tokens left behind": a part of the sheet's own bytes.
    pub left: &'a [u8],
}

/// A sheet that passed the checks of its header and its lines.
#[derive(Clone, Debug)]
pub struct Card<'a> {
    pub kinds: usize,
    pub codes: usize,
    pub lines: Vec<Line<'a>>,
    /// The number of fields.
    pub fields: usize,
    field_bytes: &'a [u8],
}

impl<'a> Card<'a> {
    /// The counts of a field, by kind.
    pub fn field(&self, number: usize) -> Vec<u64> {
        let width = 2 * self.kinds;
        self.field_bytes[number * width..(number + 1) * width]
            .chunks_exact(2)
            .map(|count| u64::from(u16::from_le_bytes([count[0], count[1]])))
            .collect()
    }

    /// The bytes of this card's sheet, which are given, with one field more, where there is room for it and its counts are
    /// those of a field.
    pub fn with_field<C: Copy + TryInto<u16>>(&self, bytes: &[u8], counts: &[C]) -> Option<Vec<u8>> {
        let counts: Vec<u16> = counts.iter().map(|&count| count.try_into().ok()).collect::<Option<_>>()?;
        let fields = self.fields + 1;
        if fields > MOST_FIELDS {
            return None;
        }
        let mut more = bytes.to_vec();
        more.extend(counts.iter().flat_map(|count| count.to_le_bytes()));
        let total = more.len() as u32;
        more[6..8].copy_from_slice(&(fields as u16).to_le_bytes());
        more[16..20].copy_from_slice(&total.to_le_bytes());
        Some(more)
    }

    /// Refusal 11: "field or kind number too large", a place for each number in turn.
    pub fn check_fields(&self, numbers: &[usize]) -> Result<(), Refusal> {
        match numbers.iter().position(|&number| number >= self.fields) {
            Some(place) => refused(11, place),
            None => Ok(()),
        }
    }
}

/// The number that two bytes hold, low byte first.
fn number_of_two(bytes: &[u8], at: usize) -> usize {
    usize::from(u16::from_le_bytes([bytes[at], bytes[at + 1]]))
}

/// The number that four bytes hold, low byte first.
fn number_of_four(bytes: &[u8], at: usize) -> usize {
    u32::from_le_bytes([bytes[at], bytes[at + 1], bytes[at + 2], bytes[at + 3]]) as usize
}

/// The card that the bytes hold, or the first of refusals 1 to 8 that applies.
pub fn read(bytes: &[u8]) -> Result<Card<'_>, Refusal> {
    if bytes.len() < HEADER_BYTES {
        return refused(1, 0);
    }
    let kinds = number_of_two(bytes, 0);
    let codes = number_of_two(bytes, 2);
    let lines = number_of_two(bytes, 4);
    let fields = number_of_two(bytes, 6);
    if !(1..=MOST_KINDS).contains(&kinds) {
        return refused(2, 0);
    }
    if !(1..=MOST_CODES).contains(&codes) {
        return refused(3, 0);
    }
    if lines > MOST_LINES {
        return refused(4, 0);
    }
    if fields > MOST_FIELDS {
        return refused(5, 0);
    }
    let fields_offset = HEADER_BYTES + lines * (2 + kinds);
    let total = fields_offset + 2 * kinds * fields;
    let layout = [
        (number_of_four(bytes, 8), HEADER_BYTES),
        (number_of_four(bytes, 12), fields_offset),
        (number_of_four(bytes, 16), total),
        (bytes.len(), total),
    ];
    if let Some(place) = layout.iter().position(|(given, asked)| given != asked) {
        return refused(6, place);
    }
    let lines = read_lines(&bytes[HEADER_BYTES..fields_offset], kinds, codes)?;
    Ok(Card { kinds, codes, lines, fields, field_bytes: &bytes[fields_offset..] })
}

/// The numbers of a sheet, as its header has them.
#[derive(Clone, Copy, Debug, PartialEq, Eq)]
pub struct Numbers {
    pub kinds: usize,
    pub codes: usize,
    pub lines: usize,
    pub fields: usize,
}

/// The numbers of kinds, codes, lines and fields. It checks 1 to 8.
pub fn numbers(bytes: &[u8]) -> Result<Numbers, Refusal> {
    let card = read(bytes)?;
    Ok(Numbers { kinds: card.kinds, codes: card.codes, lines: card.lines.len(), fields: card.fields })
}

/// The lines, or refusal 7 or 8 at the first line that has one.
fn read_lines(bytes: &[u8], kinds: usize, codes: usize) -> Result<Vec<Line<'_>>, Refusal> {
    let mut lines = Vec::with_capacity(bytes.len() / (2 + kinds));
    for (place, line) in bytes.chunks_exact(2 + kinds).enumerate() {
        let (kind, code) = (usize::from(line[0]), usize::from(line[1]));
        if kind >= kinds {
            return refused(7, place);
        }
        if code >= codes {
            return refused(8, place);
        }
        lines.push(Line { kind, code, left: &line[2..] });
    }
    Ok(lines)
}
