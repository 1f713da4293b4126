//! A smaller request that still fails: fields, elements, characters and options are left out as long as it does.
use std::sync::Arc;

use crate::oracle::Request;
use crate::trees::field;

type Field = (u8, Vec<u8>);

fn fields(sheet: &[u8]) -> Option<Vec<Field>> {
    let mut out = vec![];
    let mut rest = sheet;
    while !rest.is_empty() {
        let (head, tail) = rest.split_at_checked(3)?;
        let (body, tail) = tail.split_at_checked(usize::from(head[1]) * 256 + usize::from(head[2]))?;
        out.push((head[0], body.to_vec()));
        rest = tail;
    }
    Some(out)
}

fn bytes(fields: &[Field]) -> Vec<u8> {
    fields.iter().flat_map(|(tag, body)| field(*tag, body)).collect()
}

/// The close of the element that opens at `open`.
fn close_of(fields: &[Field], open: usize) -> Option<usize> {
    let mut depth = 0;
    for (k, (tag, _)) in fields.iter().enumerate().skip(open) {
        depth += i32::from(*tag == 1) - i32::from(*tag == 6);
        if depth == 0 {
            return Some(k);
        }
    }
    None
}

/// What can be left out of a sheet.
#[derive(Clone, Copy)]
enum Less {
    /// Bytes, or fields, from here to there.
    Stretch(usize, usize),
    /// An element, but not what stands in it.
    Around(usize),
    /// Characters of a field, from here to there.
    Chars(usize, usize, usize),
}

/// Stretches of `length` things, the longest first.
fn stretches(length: usize) -> impl Iterator<Item = (usize, usize)> {
    let sizes = std::iter::successors(Some(length), |size| Some(size / 2)).take_while(|&size| size > 0);
    sizes.flat_map(move |size| (0..length).step_by(size.div_ceil(2)).map(move |k| (k, (k + size).min(length))))
}

/// One sheet with less in it, or none where nothing is there to leave out.
fn without(sheet: &[u8], fields: Option<&[Field]>, less: Less) -> Option<Vec<u8>> {
    let Some(all) = fields else {
        let Less::Stretch(from, to) = less else { return None };
        return Some([&sheet[..from], &sheet[to..]].concat());
    };
    match less {
        Less::Stretch(from, to) => Some(bytes(&[&all[..from], &all[to..]].concat())),
        Less::Around(k) => {
            let end = close_of(all, k)?;
            let inside = k + 1 + all[k + 1..end].iter().take_while(|f| matches!(f.0, 2 | 3)).count();
            Some(bytes(&[&all[..k], &all[inside..end], &all[end + 1..]].concat()))
        }
        Less::Chars(k, from, to) => {
            let chars: Vec<char> = std::str::from_utf8(&all[k].1).ok()?.chars().collect();
            let left: String = chars[..from].iter().chain(&chars[to..]).collect();
            let mut all = all.to_vec();
            all[k].1 = left.into_bytes();
            Some(bytes(&all))
        }
    }
}

/// Sheets with less in them, made one by one.
fn smaller(sheet: &[u8]) -> impl Iterator<Item = Vec<u8>> {
    let all = fields(sheet);
    let mut ways: Box<dyn Iterator<Item = Less>> =
        Box::new(stretches(all.as_ref().map_or(sheet.len(), Vec::len)).map(|(a, b)| Less::Stretch(a, b)));
    if let Some(all) = &all {
        let (mut whole, mut around, mut chars) = (vec![], vec![], vec![]);
        for (k, (tag, body)) in all.iter().enumerate().take(1000) {
            if let (1, Some(end)) = (tag, close_of(all, k)) {
                whole.push(Less::Stretch(k, end + 1));
                around.push(Less::Around(k));
            }
            if *tag == 2 {
                whole.push(Less::Stretch(k, (k + 2).min(all.len())));
            }
            let count = std::str::from_utf8(body).map_or(0, |text| text.chars().count());
            chars.push((k, count));
        }
        let chars = chars.into_iter().flat_map(|(k, count)| stretches(count).map(move |(a, b)| Less::Chars(k, a, b)));
        ways = Box::new(ways.chain(whole).chain(around).chain(chars));
    }
    let sheet = sheet.to_vec();
    ways.filter_map(move |less| without(&sheet, all.as_deref(), less))
}

/// How many requests are tried, and how many bytes they may have together.
const TRIES: usize = 50_000;
const BYTES: usize = 1 << 30;

pub fn shrink(mut request: Request, mut fails: impl FnMut(&Request) -> bool) -> Request {
    let (mut tries, mut spent) = (0, 0);
    let mut tried = |smaller: &Request| {
        tries += 1;
        spent += smaller.sheet.len();
        if tries > TRIES || spent > BYTES { None } else { Some(fails(smaller)) }
    };
    'again: loop {
        let now = request.clone();
        let options = [
            now.run.is_some().then(|| Request { run: None, ..now.clone() }),
            now.include.then(|| Request { include: false, ..now.clone() }),
            (now.start > 0).then(|| Request { start: 0, ..now.clone() }),
        ];
        let sheets = smaller(&now.sheet).flat_map(|sheet| {
            let sheet: Arc<[u8]> = sheet.into();
            let now = &now;
            (now.start.saturating_sub(3)..=now.start).map(move |start| Request { sheet: sheet.clone(), start, ..now.clone() })
        });
        for less in options.into_iter().flatten().chain(sheets) {
            match tried(&less) {
                None => return request,
                Some(false) => (),
                Some(true) => {
                    request = less;
                    continue 'again;
                }
            }
        }
        return request;
    }
}

/// The sheet as its fields, for a reader.
pub fn told(sheet: &[u8]) -> String {
    match fields(sheet) {
        None => "no fields".to_string(),
        Some(all) => all.iter().map(|(tag, body)| format!("{tag} \"{}\"", body.escape_ascii())).collect::<Vec<_>>().join(", "),
    }
}

#[cfg(test)]
mod tests {
    use super::*;
    use crate::trees::{el, text, with};

    fn request(sheet: Vec<u8>) -> Request {
        Request { sheet: sheet.into(), start: 2, include: true, run: Some(Arc::new([])), number: 0, salt: 0 }
    }

    #[test]
    fn the_smallest_is_found() {
        let item = with("li", &[("value", "3"), ("id", "k")], &[text("a"), el("b", &[text("seen")]), text("c")]);
        let sheet = [text("before"), el("ul", &[el("li", &[]), item]), el("p", &[text("behind")])].concat();
        let holds = |r: &Request, what: &[u8]| r.sheet.windows(what.len()).any(|w| w == what) && fields(&r.sheet).is_some();
        let smallest = shrink(request(sheet.clone()), |r| holds(r, b"ee"));
        assert_eq!(smallest.sheet[..], text("ee"));
        assert_eq!((smallest.start, smallest.include, smallest.run.is_none()), (0, false, true));
        let smallest = shrink(request(sheet), |r| r.start == 2 && holds(r, &el("b", &[text("n")])[..4]) && holds(r, b"n"));
        assert_eq!(smallest.sheet[..], [field(1, "b"), text("n")].concat());
    }

    #[test]
    fn bytes_that_are_no_fields() {
        let smallest = shrink(request(vec![9; 500]), |r| r.sheet.len() > 7);
        assert_eq!(smallest.sheet[..], [9; 8]);
    }
}
