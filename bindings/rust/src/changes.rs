//! What inputs changed, line by line.

/// An event that was sent: which value a node's field sent, at which input. The field may have been
/// set again after that: read its value to draw it.
#[derive(Clone, Copy, Debug, PartialEq, Eq)]
pub struct Change<'a> {
    pub input: u64,
    /// In microseconds.
    pub time: i64,
    pub node: u32,
    pub field: u16,
    /// The text of the value, as `0 1.5 0`.
    pub value: &'a str,
}

/// The lines of a trace, by the numbers of nodes and fields. Iterate over a reference to it.
#[derive(Clone, Debug, PartialEq, Eq)]
pub struct Changes {
    pub(crate) text: String,
}

impl<'a> IntoIterator for &'a Changes {
    type Item = Change<'a>;
    type IntoIter = Lines<'a>;

    fn into_iter(self) -> Lines<'a> {
        Lines { rest: &self.text }
    }
}

/// The lines that are left.
#[derive(Clone, Debug)]
pub struct Lines<'a> {
    rest: &'a str,
}

impl<'a> Iterator for Lines<'a> {
    type Item = Change<'a>;

    fn next(&mut self) -> Option<Change<'a>> {
        let end = line_end(self.rest)?;
        let line = &self.rest[..end];
        self.rest = &self.rest[end + 1..];
        change_of(line)
    }
}

/// Where the first line ends: at the first line feed that stands in no string.
fn line_end(text: &str) -> Option<usize> {
    let (mut quoted, mut escaped) = (false, false);
    for (place, byte) in text.bytes().enumerate() {
        match byte {
            _ if escaped => escaped = false,
            b'\\' if quoted => escaped = true,
            b'"' => quoted = !quoted,
            b'\n' if !quoted => return Some(place),
            _ => {}
        }
    }
    None
}

fn change_of(line: &str) -> Option<Change<'_>> {
    let mut words = line.splitn(5, ' ');
    Some(Change {
        input: words.next()?.parse().ok()?,
        time: microseconds(words.next()?)?,
        node: words.next()?.parse().ok()?,
        field: words.next()?.parse().ok()?,
        value: words.next()?,
    })
}

/// A number of seconds, of up to six decimals, as whole microseconds.
fn microseconds(text: &str) -> Option<i64> {
    let (whole, part) = text.split_once('.').unwrap_or((text, ""));
    let parts: i64 = format!("{part:0<6}").parse().ok()?;
    let whole: i64 = whole.parse().ok()?;
    whole.checked_mul(1_000_000)?.checked_add(parts)
}
