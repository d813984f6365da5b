//! Reports, views of all nodes' reports, and figures and pages of them.
use crate::lent;
use crate::refusal::{accepted, Refusal};
use crate::{LINE, REPORT, VIEW};

/// What a node (document 01's cabinet) posts: four counts.
///
/// ```
/// use snapshot::Report;
///
/// let report = Report { extensions: 1, lines: 2, waiting: 3, wakeups: 4 };
/// assert_eq!(report.to_bytes(), [0, 1, 0, 2, 0, 3, 0, 4]);
/// assert_eq!(Report::from_bytes(report.to_bytes()), report);
/// ```
#[derive(Clone, Copy, Debug, Default, PartialEq, Eq)]
pub struct Report {
    /// Extensions busy.
    pub extensions: u16,
    /// Outside lines busy.
    pub lines: u16,
    /// Calls waiting.
    pub waiting: u16,
    /// Wake-up calls set.
    pub wakeups: u16,
}

impl Report {
    /// The report in these bytes of the wire; any eight bytes are one.
    pub fn from_bytes(bytes: [u8; REPORT]) -> Report {
        let count = |i: usize| u16::from_be_bytes([bytes[i], bytes[i + 1]]);
        Report { extensions: count(0), lines: count(2), waiting: count(4), wakeups: count(6) }
    }

    /// Its bytes of the wire.
    pub fn to_bytes(self) -> [u8; REPORT] {
        let mut bytes = [0; REPORT];
        let counts = [self.extensions, self.lines, self.waiting, self.wakeups];
        for (place, count) in bytes.chunks_exact_mut(2).zip(counts) {
            place.copy_from_slice(&count.to_be_bytes());
        }
        bytes
    }
}

/// What a view shows of a node that has reported.
#[derive(Clone, Copy, Debug, PartialEq, Eq)]
pub struct Entry {
    /// The report's tag (document 01's stamp), 1 or more.
    pub tag: u64,
    /// The report.
    pub report: Report,
}

/// The bytes of an entry: tag and report.
const ENTRY: usize = 16;

/// The reports of all nodes together, as a scan shows them.
///
/// ```
/// use snapshot::{Refusal, View};
///
/// let mut bytes = [0; 32];
/// bytes[16..].copy_from_slice(&[0, 0, 0, 0, 0, 0, 0, 9, 0, 1, 0, 2, 0, 3, 0, 4]);
/// let view = View::from_bytes(2, &bytes)?;
/// assert_eq!(view.entry(1), None);
/// assert_eq!(view.entry(2).unwrap().tag, 9);
/// assert_eq!(view.entry(2).unwrap().report.waiting, 3);
/// assert_eq!(view.figures().waiting, 3);
/// # Ok::<(), Refusal>(())
/// ```
#[derive(Clone, Copy, Debug, PartialEq, Eq)]
pub struct View {
    nodes: usize,
    /// Zeros past the entries of the nodes.
    bytes: [u8; VIEW],
}

impl View {
    /// The view of n nodes in these bytes, 16 for each. Refusals: 12, 1, 7, as for [`figures`].
    pub fn from_bytes(n: usize, bytes: &[u8]) -> Result<View, Refusal> {
        figures(n, bytes)?;
        let mut all = [0; VIEW];
        all[..bytes.len()].copy_from_slice(bytes);
        Ok(View { nodes: n, bytes: all })
    }

    /// What an event has shown.
    pub(crate) fn shown(nodes: usize, bytes: &[u8; VIEW]) -> View {
        View { nodes, bytes: *bytes }
    }

    /// How many nodes it is of.
    pub fn nodes(&self) -> usize {
        self.nodes
    }

    /// Its bytes: for each node the tag, then the report, 8 bytes each, zeros where there is no report.
    pub fn as_bytes(&self) -> &[u8] {
        &self.bytes[..ENTRY * self.nodes]
    }

    /// What it shows of a node, 1 to n; none where there is no report.
    pub fn entry(&self, node: usize) -> Option<Entry> {
        let at = ENTRY.checked_mul(node.checked_sub(1)?)?;
        let (tag, report) = self.as_bytes().get(at..)?.first_chunk::<ENTRY>()?.split_at(8);
        let tag = u64::from_be_bytes(tag.try_into().unwrap());
        (tag > 0).then(|| Entry { tag, report: Report::from_bytes(report.try_into().unwrap()) })
    }

    /// The house figures over its reports.
    pub fn figures(&self) -> Figures {
        figures(self.nodes, self.as_bytes()).expect("a view has figures")
    }

    /// Its page for the desk, with a line feed after each line; [`page`] says what a line has.
    ///
    /// ```
    /// use snapshot::{Refusal, View};
    ///
    /// let mut bytes = [0; 32];
    /// bytes[..16].copy_from_slice(&[0, 0, 0, 0, 0, 0, 0, 9, 0, 1, 0, 2, 0, 3, 0, 4]);
    /// let text = View::from_bytes(2, &bytes)?.page();
    /// let lines: Vec<&str> = text.lines().collect();
    /// assert_eq!(
    ///     lines,
    ///     [
    ///         " 1       1       2       3       4", // node 1 has reported
    ///         " 2       -       -       -       -", // and node 2 has not
    ///         "==       1       2       3       4", // the figures
    ///     ]
    /// );
    /// # Ok::<(), Refusal>(())
    /// ```
    pub fn page(&self) -> String {
        let mut text = vec![0; page_size(self.nodes)];
        page(self.nodes, self.as_bytes(), &mut text).expect("a view has a page");
        String::from_utf8(text).expect("a page is ASCII")
    }
}

/// The house figures over the reports of a view. A node without a report counts for nothing; all are 0 where no node
/// has reported.
#[derive(Clone, Copy, Debug, Default, PartialEq, Eq)]
pub struct Figures {
    /// Extensions busy, added up.
    pub extensions: u32,
    /// Outside lines busy, added up.
    pub lines: u32,
    /// Calls waiting, the largest count: all nodes watch one queue.
    pub waiting: u32,
    /// Wake-up calls set, added up.
    pub wakeups: u32,
}

/// The house figures over a view of n nodes in these bytes.
///
/// Refusals: 12 (not 16n bytes), 1 (n is not 1 to 16), 7 (a tag above its limit, or a report beside tag 0).
///
/// ```
/// use snapshot::{figures, Refusal};
///
/// let bytes = [[0, 0, 0, 0, 0, 0, 0, 9, 0, 1, 0, 2, 0, 3, 0, 4], [0, 0, 0, 0, 0, 0, 0, 8, 0, 1, 0, 2, 0, 5, 0, 4]];
/// let bytes = bytes.concat();
/// assert_eq!(figures(2, &bytes)?.lines, 4);
/// assert_eq!(figures(2, &bytes)?.waiting, 5);
/// assert_eq!(figures(1, &bytes), Err(Refusal::Length));
/// # Ok::<(), Refusal>(())
/// ```
pub fn figures(n: usize, view: &[u8]) -> Result<Figures, Refusal> {
    let mut figures = [0; 4];
    accepted(lent::figures(n, view, &mut figures))?;
    let [extensions, lines, waiting, wakeups] = figures;
    Ok(Figures { extensions, lines, waiting, wakeups })
}

/// The bytes of the desk's page of n nodes, a line for each and one for the figures; 0 where n is not 1 to 16.
pub const fn page_size(n: usize) -> usize {
    match n {
        1..=16 => LINE * (n + 1),
        _ => 0,
    }
}

/// Writes the desk's page of a view of n nodes, in these bytes, at the front of `out`, and answers its length, that of
/// [`page_size`]; the other bytes of `out` stay.
///
/// A line has the node right in 2 columns, then each of its four counts right in 7 after one space, and a line feed; a
/// node without a report has `-` for each count. The last line has `==` and the [`Figures`]. All is ASCII. Tags are not
/// shown.
///
/// Refusals: those of [`figures`], 12, 1, 7; then 15 (`out` is shorter than the page).
///
/// ```
/// use snapshot::{page, page_size, Refusal};
///
/// let bytes = [0, 0, 0, 0, 0, 0, 0, 9, 255, 255, 0, 2, 0, 0, 0, 4];
/// let mut out = [0; page_size(1)];
/// assert_eq!(page(1, &bytes, &mut out)?, 70);
/// assert_eq!(out[..35], *b" 1   65535       2       0       4\n");
/// assert_eq!(out[35..], *b"==   65535       2       0       4\n");
/// assert_eq!(page(1, &bytes, &mut out[..69]), Err(Refusal::Page));
/// # Ok::<(), Refusal>(())
/// ```
pub fn page(n: usize, view: &[u8], out: &mut [u8]) -> Result<usize, Refusal> {
    let mut length = 0;
    accepted(lent::page(n, view, out, &mut length))?;
    Ok(length)
}

#[cfg(test)]
mod tests {
    use super::*;

    /// A view of n nodes, in which node k has tag k and four counts of 100k and more, but every third has no report.
    fn some_view(n: usize) -> Vec<u8> {
        let mut bytes = vec![0; ENTRY * n];
        for (k, entry) in (1..).zip(bytes.chunks_exact_mut(ENTRY)).filter(|(k, _)| k % 3 > 0) {
            let report = Report { extensions: 100 * k, lines: 100 * k + 1, waiting: 100 * k + 2, wakeups: 100 * k + 3 };
            entry[..8].copy_from_slice(&u64::from(k).to_be_bytes());
            entry[8..].copy_from_slice(&report.to_bytes());
        }
        bytes
    }

    #[test]
    fn a_view_shows_each_node() {
        for n in 1..=16 {
            let bytes = some_view(n);
            let view = View::from_bytes(n, &bytes).unwrap();
            assert_eq!(view.nodes(), n);
            assert_eq!(view.as_bytes(), bytes);
            let mut lines = 0;
            for k in 1..=n {
                let entry = view.entry(k);
                assert_eq!(entry.is_some(), k % 3 > 0);
                if let Some(Entry { tag, report }) = entry {
                    assert_eq!(tag, k as u64);
                    assert_eq!(report.lines as usize, 100 * k + 1);
                    lines += u32::from(report.lines);
                }
            }
            assert_eq!(view.figures().lines, lines);
            for k in [0, n + 1, 17, usize::MAX / ENTRY, usize::MAX] {
                assert_eq!(view.entry(k), None);
            }
        }
    }

    #[test]
    fn figures_of_the_greatest_counts_fit() {
        let all = [[0, 0, 0, 0, 0, 0, 0, 1], [255; 8]].concat().repeat(16);
        let sum = 16 * 65535;
        let figures = figures(16, &all).unwrap();
        assert_eq!(figures, Figures { extensions: sum, lines: sum, waiting: 65535, wakeups: sum });
    }

    #[test]
    fn calls_waiting_are_the_largest_count() {
        let three = [[0, 0, 0, 0, 0, 0, 0, 1], [0, 1, 0, 2, 0, 3, 0, 4]].concat();
        let five = [[0, 0, 0, 0, 0, 0, 0, 2], [0, 10, 0, 20, 0, 5, 0, 40]].concat();
        let both = Figures { extensions: 11, lines: 22, waiting: 5, wakeups: 44 };
        assert_eq!(figures(2, &[&three[..], &five].concat()), Ok(both));
        assert_eq!(figures(3, &[&five[..], &[0; 16], &three].concat()), Ok(both));
        for n in 1..=16 {
            assert_eq!(figures(n, &vec![0; ENTRY * n]), Ok(Figures::default()));
        }
    }

    #[test]
    fn other_bytes_are_refused() {
        assert_eq!(View::from_bytes(3, &[0; 47]), Err(Refusal::Length));
        assert_eq!(View::from_bytes(0, &[]), Err(Refusal::Size));
        assert_eq!(View::from_bytes(17, &[0; 272]), Err(Refusal::Size));
        let mut bytes = [0; 16];
        bytes[15] = 1;
        assert_eq!(View::from_bytes(1, &bytes), Err(Refusal::Layout));
        bytes[0] = 128;
        assert_eq!(View::from_bytes(1, &bytes), Err(Refusal::Layout));
    }
}
