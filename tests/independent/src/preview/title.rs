//! The title of a row (R6, R7).
use super::codes::{force_before, is_pair, sign, Force, Sign};
use super::figures::Figures;

/// 'The first one encountered applies': the column of the leftmost title's pair, beside the formats of its row.
pub fn title(row: &[u8], figures: &[Figures]) -> Option<usize> {
    (0..row.len()).find(|&column| stands(row, column, figures))
}

fn stands(row: &[u8], pair: usize, figures: &[Figures]) -> bool {
    // of a longer run the last two open
    if !opens(row, pair) || row.get(pair + 2) == Some(&row[pair]) {
        return false;
    }
    let from = pair + 2;
    let to = (from..row.len()).find(|&column| is_pair(row, column)).unwrap_or(row.len());
    let fits = |&code: &u8| !matches!(sign(code), Sign::Graphics | Sign::Magenta);
    // figures win over a title
    let holds_figures = figures.iter().any(|figures| (pair + 1..to).contains(&figures.column));
    from < to && row[from..to].iter().all(fits) && !holds_figures
}

/// Two equal colours, or two concealed ones where the writing is alphanumeric and not magenta.
fn opens(row: &[u8], pair: usize) -> bool {
    is_pair(row, pair)
        && match sign(row[pair]) {
            Sign::Colour => true,
            Sign::Conceal => force_before(row, pair) == Force::Plain,
            _ => false,
        }
}

#[cfg(test)]
mod tests {
    use super::super::codes::noted;
    use super::super::figures::figures_in;
    use super::*;

    /// The column of the title's first code, two behind that of its pair.
    fn text(row: &str) -> Option<usize> {
        let row = noted(row);
        title(&row, &figures_in(&row)).map(|pair| pair + 2)
    }

    fn texts<const N: usize>(rows: [&str; N], expected: [Option<usize>; N]) {
        assert_eq!(rows.map(text), expected, "{rows:?}");
    }

    #[test]
    fn what_opens_a_title() {
        texts(["++X", "&&X", "%%X", "  ++X", "#%%++X"], [Some(2), Some(2), Some(2), Some(4), Some(5)]);
        texts(["+X", "+&X", "%X", "::X", "##X", "+%X", "X"], [None; 7]);
        // concealed in plain only
        texts([":%%X", "#%%X", ":+%%X", "#:&%%X", ":++X", "#++X"], [None, None, Some(4), Some(5), Some(3), Some(3)]);
    }

    #[test]
    fn the_last_two_of_a_run_open() {
        texts(["+++X", "%%%X", "++++++X", "++&&X", "++&&&X"], [Some(3), Some(3), Some(6), Some(4), Some(5)]);
        texts(["++%%X", "%%++X", "+%%X", "++:::X"], [Some(4), Some(4), Some(3), None]);
    }

    #[test]
    fn a_title_has_a_code() {
        texts(["++", "+++", "++++", "++%%", "++::", "a++"], [None; 6]);
        texts(["++ ", "++X++", "++ %%", "++&", "++%", "++&::", "%%+"], [Some(2); 7]);
        let black = [7, 7, 0];
        assert_eq!(title(&black, &[]), Some(0));
    }

    #[test]
    fn what_a_title_may_hold() {
        texts(["++a+b", "++a%b", "++a&b", "++20.15 b", "++a+20.15 b", "++2000++", "++a+9.30+"], [Some(2); 7]);
        texts(["++a:b", "++a#b", "++#", "++:", "%%a:b", "%%a#b", "++a: ::"], [None; 7]);
        // a later pair may open one
        texts(["++a:b++X", "++a#b%%X", "++a#b+%%X", "++a:b::c++X"], [Some(7), None, Some(8), Some(10)]);
        // what is behind the closing pair is not the title's
        texts(["++a++#", "++a::", "++a:::b", "++a%%:", "++a:: :"], [Some(2); 5]);
    }

    /// `++20.15+` is a time, and so is what stands inside.
    #[test]
    fn figures_win() {
        texts(["++20.15+", "%%20.15+", "++20.15-21.00+", "++20.15", "++a+20.15", "++a%20.15+", "++a+20.15+b"], [None; 7]);
        texts(["++a+20.15++b", "++20.15++b", "++20.15+&&b"], [Some(11), Some(9), Some(10)]);
        // in front of the pair, and behind the closing one, they do no harm
        texts(["+20.00++X", "++X++20.15+", "++X%%20.15+", "++X::2000+"], [Some(8), Some(2), Some(2), Some(2)]);
        // 2000 and 81 are none in plain
        texts(["++2000+", "%%2000+", "%%81%b"], [Some(2); 3]);
    }

    #[test]
    fn the_leftmost_counts() {
        texts(["++a++b", "++a  ++b++c", "++a%%b", "%%a++b"], [Some(2); 4]);
        texts(["++#++b++c", "++20.15++b++c"], [Some(5), Some(9)]);
    }
}
