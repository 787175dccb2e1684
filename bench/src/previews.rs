//! The preview pages that are timed.
use independent::preview::codes::page;
use independent::previews;
use independent::random::Random;

/// Spaces alone; so many programmes, each in a row; one to six of them, set in many ways; and those with pages that are damaged, or of
/// codes at random.
pub const KINDS: [&str; 6] = ["blank", "1", "12", "24", "evening", "mixed"];

pub fn preview(r: &mut Random, kind: &str) -> Vec<u8> {
    match kind {
        "blank" => page(&[]),
        "evening" => evening(r),
        "mixed" => previews::page(r.next()),
        count => alike(r, count.parse().expect("a kind of page, or a count of programmes")),
    }
}

fn evening(r: &mut Random) -> Vec<u8> {
    loop {
        let (page, programmes) = previews::made(r.next());
        if programmes.len() <= 6 {
            return page;
        }
    }
}

/// A programme in each of the first rows, all set alike: network and date stand before the first, the protection word behind the last.
fn alike(r: &mut Random, count: usize) -> Vec<u8> {
    let mut rows: Vec<String> = (0..count).map(|n| programme(r, if n == 0 { 1 } else { 8 })).collect();
    if let Some(first) = rows.first_mut() {
        first.insert_str(0, ":%1D101:150702");
    }
    if let Some(last) = rows.last_mut() {
        last.push_str("::%00+");
    }
    let mut page = page(&rows.iter().map(|row| &row[..]).collect::<Vec<&str>>());
    previews::put_right(&mut page);
    page
}

/// A double time, its original time and a title of so many letters.
fn programme(r: &mut Random, letters: u64) -> String {
    let [(hour, minute), (to_hour, to_minute)] = [(); 2].map(|()| (r.below(24), r.below(60)));
    let title: String = (0..letters).map(|_| (b'a' + r.below(26) as u8) as char).collect();
    format!("+{hour:02}.{minute:02}-{to_hour:02}.{to_minute:02}:{hour:02}{minute:02}++{title}")
}
