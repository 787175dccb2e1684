//! What the codes of a row do (R2), and the colour in force before one of them (R3).

/// Conceal, as table 4 prints it.
pub const CONCEAL: u8 = 0x1B;
pub const MAGENTA: u8 = 0x05;
/// One of the colours other than magenta, and of graphics.
pub const WHITE: u8 = 0x07;
pub const MOSAIC: u8 = 0x17;
/// The colours that a sign `+` stands for.
pub const COLOURS: [u8; 6] = [0x01, 0x02, 0x03, 0x04, 0x06, 0x07];

#[derive(Clone, Copy, Debug, PartialEq, Eq)]
pub enum Sign {
    /// `+`, any but magenta.
    Colour,
    /// `:`.
    Magenta,
    /// `%`.
    Conceal,
    Graphics,
    /// Figures, letters and all that has no effect.
    Other,
}

pub fn sign(code: u8) -> Sign {
    match code {
        MAGENTA => Sign::Magenta,
        CONCEAL => Sign::Conceal,
        0x10..=0x17 => Sign::Graphics,
        _ if COLOURS.contains(&code) => Sign::Colour,
        _ => Sign::Other,
    }
}

/// A code that starts formats, that ends one, and that makes a pair.
pub fn is_sign(code: u8) -> bool {
    matches!(sign(code), Sign::Colour | Sign::Magenta | Sign::Conceal)
}

/// Two equal codes side by side, of which this column is the first.
pub fn is_pair(row: &[u8], column: usize) -> bool {
    is_sign(row[column]) && row.get(column + 1) == Some(&row[column])
}

#[derive(Clone, Copy, Debug, PartialEq, Eq)]
pub enum Force {
    Plain,
    Magenta,
    Graphics,
}

/// The last code before the column that sets one decides; a row begins plain.
pub fn force_before(row: &[u8], column: usize) -> Force {
    let sets = |&code: &u8| match sign(code) {
        Sign::Colour => Some(Force::Plain),
        Sign::Magenta => Some(Force::Magenta),
        Sign::Graphics => Some(Force::Graphics),
        Sign::Conceal | Sign::Other => None,
    };
    row[..column].iter().rev().find_map(sets).unwrap_or(Force::Plain)
}

/// The code of a sign in the clause's notation: `+` is white, `:` magenta, `%` conceal; besides, `&` is green, another colour, `#`
/// graphics, `@` black and `^` the code 18, which have no effect. The rest stands for itself.
pub fn code(sign: u8) -> u8 {
    match sign {
        b'+' => WHITE,
        b':' => MAGENTA,
        b'%' => CONCEAL,
        b'&' => 0x02,
        b'#' => MOSAIC,
        b'@' => 0x00,
        b'^' => 0x18,
        _ => sign,
    }
}

/// A row in these signs.
pub fn noted(row: &str) -> Vec<u8> {
    row.bytes().map(code).collect()
}

/// A page of such rows from the top, filled up with spaces.
pub fn page(rows: &[&str]) -> Vec<u8> {
    let mut page = vec![b' '; super::PAGE];
    for (line, row) in page.chunks_mut(super::COLUMNS).zip(rows) {
        let codes = noted(row);
        line[..codes.len()].copy_from_slice(&codes);
    }
    page
}

#[cfg(test)]
mod tests {
    use super::*;

    /// All that table 4 does not list has no effect: black, 18, the codes beside graphics, escape's neighbours.
    #[test]
    fn every_code() {
        let of = |which: Sign| (0..=255).filter(|&code| sign(code) == which).collect::<Vec<u8>>();
        assert_eq!(of(Sign::Colour), [1, 2, 3, 4, 6, 7]);
        assert_eq!(of(Sign::Magenta), [5]);
        assert_eq!(of(Sign::Conceal), [0x1B]);
        assert_eq!(of(Sign::Graphics), [0x10, 0x11, 0x12, 0x13, 0x14, 0x15, 0x16, 0x17]);
        assert_eq!(of(Sign::Other).len(), 256 - 16);
    }

    #[test]
    fn the_colour_in_force() {
        let row = noted("%a:%b#%c+%d&");
        let force: Vec<Force> = (0..row.len()).map(|column| force_before(&row, column)).collect();
        let (p, m, g) = (Force::Plain, Force::Magenta, Force::Graphics);
        assert_eq!(force, [p, p, p, m, m, m, g, g, g, p, p, p]);
        // black sets nothing
        assert_eq!(force_before(&[MAGENTA, 0, CONCEAL], 2), m);
    }

    #[test]
    fn pairs_are_of_equal_codes() {
        let row = noted("+&&::+%%##aa%+");
        let pairs: Vec<usize> = (0..row.len()).filter(|&column| is_pair(&row, column)).collect();
        assert_eq!(pairs, [1, 3, 6]);
        // the second would be beyond the row
        assert!(!is_pair(&noted("+"), 0));
    }
}
