//! Sheets and logs as bytes, by the records of documents 01 and 02.

pub fn record(kind: u16, body: &[u8]) -> Vec<u8> {
    let mut bytes = Vec::with_capacity(4 + body.len());
    bytes.extend((body.len() as u16).to_le_bytes());
    bytes.extend(kind.to_le_bytes());
    bytes.extend(body);
    bytes
}

pub fn clocks(count: u8) -> Vec<u8> {
    record(1, &[count])
}

/// A sporadic t on B.
pub fn sporadic(a: u8, t: i16, b: u8) -> Vec<u8> {
    let t = t.to_le_bytes();
    record(16, &[a, b, t[0], t[1]])
}

/// A = p × B + q.
pub fn relation(a: u8, p: i16, b: u8, q: i16) -> Vec<u8> {
    let (p, q) = (p.to_le_bytes(), q.to_le_bytes());
    record(17, &[a, b, p[0], p[1], q[0], q[1]])
}

pub fn implies(a: u8, b: u8) -> Vec<u8> {
    record(18, &[a, b])
}

pub fn excludes(a: u8, b: u8) -> Vec<u8> {
    record(19, &[a, b])
}

/// A delayed by d on B implies D.
pub fn delayed(a: u8, by: u16, b: u8, d: u8) -> Vec<u8> {
    let by = by.to_le_bytes();
    record(20, &[a, b, d, by[0], by[1]])
}

pub fn weakly(a: u8, b: u8) -> Vec<u8> {
    record(21, &[a, b])
}

pub fn strictly(a: u8, b: u8) -> Vec<u8> {
    record(22, &[a, b])
}

pub fn kills(a: u8, b: u8) -> Vec<u8> {
    record(23, &[a, b])
}

/// D ticks at B's n-th tick after a tick of A.
pub fn counted(a: u8, n: u8, b: u8, d: u8) -> Vec<u8> {
    record(24, &[a, b, d, n])
}

/// Puts lines in the order of a sheet: rising by kind, then by the bytes of
/// the body.
pub fn sort_lines(lines: &mut [Vec<u8>]) {
    lines.sort_by(|a, b| (a[3], a[2], &a[4..]).cmp(&(b[3], b[2], &b[4..])));
}

pub const IDLE: u8 = 0;
pub const TICK: u8 = 1;
pub const UNSEEN: u8 = 2;

pub fn instant(cells: &[(u8, i16)]) -> Vec<u8> {
    let mut body = Vec::with_capacity(3 * cells.len());
    for (tick, tag) in cells {
        body.push(*tick);
        body.extend(tag.to_le_bytes());
    }
    record(32, &body)
}

/// The same instant with a number, kind 33; it may have one already.
pub fn numbered(number: u16, instant: &[u8]) -> Vec<u8> {
    let mut body = number.to_le_bytes().to_vec();
    body.extend(&instant[cells_at(instant)..]);
    record(33, &body)
}

/// The same instant without a number, kind 32.
pub fn unnumbered(instant: &[u8]) -> Vec<u8> {
    record(32, &instant[cells_at(instant)..])
}

pub fn is_numbered(instant: &[u8]) -> bool {
    instant.get(2) == Some(&33)
}

/// Where the cells of an instant's record begin: behind the head, or behind
/// the number. A damaged record may end before.
pub fn cells_at(instant: &[u8]) -> usize {
    let at = if is_numbered(instant) { 6 } else { 4 };
    at.min(instant.len())
}
