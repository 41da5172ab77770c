//! One row of a text: a letter, eight fields of four columns and a newline.

/// Bytes of a row.
pub const WIDTH: usize = 34;
/// Fields of a row.
pub const FIELDS: usize = 8;
/// Columns of a field.
pub const COLUMNS: usize = 4;
/// Most links of an atom or context.
pub const PORTS: usize = 6;
/// Largest joint number.
pub const LAST_JOINT: u16 = 9999;
/// Largest mark and largest name.
pub const LAST_MARK: u16 = 999;
/// Largest context number.
pub const LAST_CONTEXT: u16 = 4;

/// A row that was read; fields that stay blank are 0.
#[derive(Debug, Clone, Copy, PartialEq, Eq)]
pub struct Row {
    pub letter: u8,
    pub fields: [u16; FIELDS],
}

/// What a letter asks of its fields: ranges of the first two, and whether the second counts the joints after it.
struct Rule {
    letter: u8,
    first: (u16, u16),
    second: (u16, u16),
    counts: bool,
}

const JOINT: (u16, u16) = (1, LAST_JOINT);
const NAME: (u16, u16) = (1, LAST_MARK);
const NUMBER: (u16, u16) = (1, LAST_CONTEXT);
const COUNT: (u16, u16) = (0, PORTS as u16);

const fn rule(letter: u8, first: (u16, u16), second: (u16, u16), counts: bool) -> Rule {
    Rule { letter, first, second, counts }
}

const RULES: [Rule; 5] = [
    rule(b'S', NAME, COUNT, true),
    rule(b'B', NUMBER, COUNT, true),
    rule(b'F', JOINT, JOINT, false),
    rule(b'E', JOINT, NAME, false),
    rule(b'H', NUMBER, COUNT, false),
];

/// Reads the fields of a whole row; `None` for a bad column or a letter without a rule.
pub fn read_row(bytes: &[u8; WIDTH]) -> Option<Row> {
    let letter = bytes[0];
    let rule = RULES.iter().find(|rule| rule.letter == letter)?;
    let mut fields = [0; FIELDS];
    fields[0] = number(bytes, 0, rule.first)?;
    fields[1] = number(bytes, 1, rule.second)?;
    let joints = if rule.counts { fields[1] as usize } else { 0 };
    for (i, place) in fields.iter_mut().enumerate().skip(2) {
        if i < 2 + joints {
            *place = number(bytes, i, JOINT)?;
        } else if column(bytes, i) != [b' '; COLUMNS] {
            return None;
        }
    }
    Some(Row { letter, fields })
}

/// The columns of field `i`.
fn column(bytes: &[u8; WIDTH], i: usize) -> [u8; COLUMNS] {
    let at = 1 + COLUMNS * i;
    [bytes[at], bytes[at + 1], bytes[at + 2], bytes[at + 3]]
}

/// The number in field `i`: right-justified, without leading zeros, within the range.
fn number(bytes: &[u8; WIDTH], i: usize, range: (u16, u16)) -> Option<u16> {
    let columns = column(bytes, i);
    let start = columns.iter().position(|&c| c != b' ')?;
    if columns[start] == b'0' && start != COLUMNS - 1 {
        return None;
    }
    let mut value = 0;
    for &c in &columns[start..] {
        if !c.is_ascii_digit() {
            return None;
        }
        value = 10 * value + (c - b'0') as u16;
    }
    (range.0 <= value && value <= range.1).then_some(value)
}

/// Writes a row whose first fields are given and whose other fields are blank; numbers have at most four digits.
pub fn write_row(bytes: &mut [u8; WIDTH], letter: u8, fields: &[u16]) {
    *bytes = [b' '; WIDTH];
    bytes[0] = letter;
    bytes[WIDTH - 1] = b'\n';
    for (i, &field) in fields.iter().enumerate().take(FIELDS) {
        let mut at = COLUMNS * (i + 1);
        let mut rest = field;
        loop {
            bytes[at] = b'0' + (rest % 10) as u8;
            rest /= 10;
            at -= 1;
            if rest == 0 || at == COLUMNS * i {
                break;
            }
        }
    }
}
