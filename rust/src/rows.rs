//! How many rows of each table a recovery will need, by the headers of a log's entries.
use crate::ffi::View;
use crate::Refusal;
use std::collections::VecDeque;

/// What the entries so far need, and the most that was needed after any of them.
#[derive(Default)]
struct Needs {
    pending: VecDeque<u64>,
    unprocessed: usize,
    committed: usize,
    index: usize,
    most: [usize; 4],
}

impl Needs {
    fn apply(&mut self, position: u64, tag: u32, payload: &[u8]) {
        match tag {
            1 | 2 => self.pending.push_back(position),
            3 => self.drop_before(payload),
            4 => self.unprocessed = 0,
            5 => self.committed += payload.len() / REFERENCE,
            _ => (),
        }
        if tag == 1 || tag == 3 {
            self.unprocessed += 1;
            self.index += 1;
        }
        for (most, now) in self.most.iter_mut().zip([self.pending.len(), self.unprocessed, self.committed, self.index]) {
            *most = now.max(*most);
        }
    }

    /// An own block drops what is pending before its next entry.
    fn drop_before(&mut self, own_block: &[u8]) {
        let next = own_block.first_chunk().map_or(0, |bytes| u64::from_le_bytes(*bytes));
        while self.pending.front().is_some_and(|p| *p < next) {
            self.pending.pop_front();
        }
    }
}

/// Bytes of an encoded reference, of which a commit's list has as many as it names blocks.
const REFERENCE: usize = 56;

/// Makes a call that recovers, with as many rows for each table as the log's entries can need, and again with more each time that they
/// are too few. An entry has 16 bytes at least, so that no table needs more than a row for each 16 bytes.
pub(crate) fn sized<T, E>(view: View, call: impl Fn([usize; 4]) -> Result<T, E>, refusal: impl Fn(&E) -> Refusal) -> Result<T, E> {
    let most = view.image.len().min(view.used as usize) / 16;
    let mut rows = needed(view);
    loop {
        match call(rows) {
            Err(refused) if refusal(&refused) == Refusal::Rows && rows.iter().any(|n| *n < most) => {
                rows = rows.map(|n| most.min(2 * n + 16))
            }
            answer => return answer,
        }
    }
}

/// Rows for pending, unprocessed, committed and index: as many as the entries can need whose headers lead to one another. No checksum is
/// computed. It decides nothing but how much memory is lent: where it is too little, recovery says so by 15 and is lent more.
fn needed(view: View) -> [usize; 4] {
    let mut needs = Needs::default();
    let used = view.image.len().min(usize::try_from(view.used).unwrap_or(usize::MAX));
    if (6..=28).contains(&view.k) {
        let (log, region) = (&view.image[..used], 1 << view.k);
        let mut at = 0;
        while let Some(entry) = next_entry(log, region, at) {
            let (tag, payload) = (u32_at(log, entry.start + 12), &log[entry.start + 16..entry.end]);
            needs.apply(entry.start as u64, tag, payload);
            at = entry.end;
        }
    }
    needs.most
}

/// The place of the entry that a walk from `at` comes to, by its length alone.
fn next_entry(log: &[u8], region: usize, at: usize) -> Option<std::ops::Range<usize>> {
    let mut start = at;
    loop {
        // A region's size is a power of two.
        let left = region - (start & (region - 1));
        let here = left >= 16;
        if here && log.len() < start + 16 {
            return None;
        }
        let length = if here { u32_at(log, start + 8) as usize } else { 0 };
        if (16..=left).contains(&length) {
            return (start + length <= log.len()).then_some(start..start + length);
        }
        // A region that begins with no entry ends the walk; so does a length that cannot be.
        if length != 0 || left == region || log.len() <= start {
            return None;
        }
        start += left;
    }
}

fn u32_at(bytes: &[u8], at: usize) -> u32 {
    bytes[at..].first_chunk().map_or(0, |four| u32::from_le_bytes(*four))
}

#[cfg(test)]
mod tests {
    use super::*;

    /// The rows of each try of a call that wants more than it is lent, up to `enough` of each.
    fn tried(used: u64, enough: usize) -> (Vec<[usize; 4]>, Result<(), Refusal>) {
        let (image, tries) = ([0; 1000], std::cell::RefCell::new(Vec::new()));
        let call = |rows: [usize; 4]| {
            tries.borrow_mut().push(rows);
            if rows.iter().all(|n| *n >= enough) {
                Ok(())
            } else {
                Err(Refusal::Rows)
            }
        };
        let answer = sized(View { k: 10, image: &image, used }, call, |refusal| *refusal);
        (tries.into_inner(), answer)
    }

    #[test]
    fn too_few_rows_are_followed_by_more() {
        assert_eq!(tried(1000, 0), (vec![[0; 4]], Ok(())));
        assert_eq!(tried(1000, 20), (vec![[0; 4], [16; 4], [48; 4]], Ok(())));
        // A row for each 16 bytes is the most, of a length past the image too, and then the refusal stands.
        assert_eq!(tried(1000, 62), (vec![[0; 4], [16; 4], [48; 4], [62; 4]], Ok(())));
        assert_eq!(tried(u64::MAX, 63), (vec![[0; 4], [16; 4], [48; 4], [62; 4]], Err(Refusal::Rows)));
        assert_eq!(tried(0, 1), (vec![[0; 4]], Err(Refusal::Rows)));
    }

    #[test]
    fn another_refusal_is_answered_at_once() {
        let call = |_| Err::<(), _>(Refusal::Store);
        assert_eq!(sized(View { k: 10, image: &[0; 1000], used: 1000 }, call, |refusal| *refusal), Err(Refusal::Store));
    }
}
