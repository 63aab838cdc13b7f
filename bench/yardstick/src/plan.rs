//! Reads a plan's text, and gives each contact its light time. It takes each plan that `cgrlist` takes if no line
//! deletes, and refuses only what it can't go on with.

pub const LAST: u64 = 253_370_764_799;

#[derive(Clone, Copy, Debug)]
pub struct Contact {
    pub start: u64,
    pub end: u64,
    /// light plus margin, or NO_LIGHT
    pub cost: u32,
    /// dense node numbers
    pub from: u32,
    pub to: u32,
}

pub const NO_LIGHT: u32 = u32::MAX;

#[derive(Clone, Copy, Debug)]
struct Range {
    one: u32,
    other: u32,
    start: u64,
    end: u64,
    light: u32,
}

/// Contacts by number less one; nodes by dense number.
pub struct Plan {
    pub contacts: Vec<Contact>,
    pub nodes: Vec<u64>,
    map: NodeMap,
}

impl Plan {
    pub fn node(&self, name: u64) -> Option<u32> {
        self.map.get(&self.nodes, name)
    }
}

/// Open addressing from node names to dense numbers.
struct NodeMap {
    slots: Vec<u32>,
    mask: usize,
}

impl NodeMap {
    fn new(bits: u32) -> NodeMap {
        NodeMap { slots: vec![u32::MAX; 1 << bits], mask: (1 << bits) - 1 }
    }
    #[inline]
    fn hash(name: u64) -> usize {
        (name.wrapping_mul(0x9E37_79B9_7F4A_7C15) >> 32) as usize
    }
    #[inline]
    fn get(&self, nodes: &[u64], name: u64) -> Option<u32> {
        let mut i = Self::hash(name) & self.mask;
        loop {
            let s = self.slots[i];
            if s == u32::MAX {
                return None;
            }
            if nodes[s as usize] == name {
                return Some(s);
            }
            i = (i + 1) & self.mask;
        }
    }
    #[inline]
    fn intern(&mut self, nodes: &mut Vec<u64>, name: u64) -> u32 {
        let mut i = Self::hash(name) & self.mask;
        loop {
            let s = self.slots[i];
            if s == u32::MAX {
                let id = nodes.len() as u32;
                nodes.push(name);
                self.slots[i] = id;
                if nodes.len() * 2 > self.slots.len() {
                    self.grow(nodes);
                }
                return id;
            }
            if nodes[s as usize] == name {
                return s;
            }
            i = (i + 1) & self.mask;
        }
    }
    fn grow(&mut self, nodes: &[u64]) {
        let n = self.slots.len() * 2;
        self.slots.clear();
        self.slots.resize(n, u32::MAX);
        self.mask = n - 1;
        for (id, &name) in nodes.iter().enumerate() {
            let mut i = Self::hash(name) & self.mask;
            while self.slots[i] != u32::MAX {
                i = (i + 1) & self.mask;
            }
            self.slots[i] = id as u32;
        }
    }
}

#[inline]
fn two(b: &[u8]) -> u64 {
    (b[0].wrapping_sub(b'0') as u64) * 10 + b[1].wrapping_sub(b'0') as u64
}

pub fn days_from_civil(y: i64, m: i64, d: i64) -> i64 {
    let y = if m <= 2 { y - 1 } else { y };
    let era = y.div_euclid(400);
    let yoe = y - era * 400;
    let doy = (153 * (if m > 2 { m - 3 } else { m + 9 }) + 2) / 5 + d - 1;
    let doe = yoe * 365 + yoe / 4 - yoe / 100 + doy;
    era * 146_097 + doe - 719_468
}

/// The 19-byte spelling; None where it isn't one.
pub fn absolute_time(b: &[u8]) -> Option<u64> {
    if b.len() != 19 || b[4] != b'/' || b[7] != b'/' || b[10] != b'-' || b[13] != b':' || b[16] != b':' {
        return None;
    }
    for &i in &[0usize, 1, 2, 3, 5, 6, 8, 9, 11, 12, 14, 15, 17, 18] {
        if !b[i].is_ascii_digit() {
            return None;
        }
    }
    let y = two(&b[0..]) * 100 + two(&b[2..]);
    let mo = two(&b[5..]);
    let d = two(&b[8..]);
    let (h, mi, s) = (two(&b[11..]), two(&b[14..]), two(&b[17..]));
    let leap = (y % 4 == 0 && y % 100 != 0) || y % 400 == 0;
    let dim = match mo {
        1 | 3 | 5 | 7 | 8 | 10 | 12 => 31,
        4 | 6 | 9 | 11 => 30,
        2 => 28 + leap as u64,
        _ => return None,
    };
    if !(1970..=9998).contains(&y) || d < 1 || d > dim || h > 23 || mi > 59 || s > 59 {
        return None;
    }
    let days = days_from_civil(y as i64, mo as i64, d as i64) as u64;
    Some(days * 86_400 + h * 3600 + mi * 60 + s)
}

/// One pass over bytes that end with LFs; nothing but `skip_line` goes past an LF.
struct Cursor<'a> {
    b: &'a [u8],
    i: usize,
}

impl<'a> Cursor<'a> {
    #[inline(always)]
    fn peek(&self) -> u8 {
        debug_assert!(self.i < self.b.len());
        // i stands at or before the last LF
        unsafe { *self.b.get_unchecked(self.i) }
    }
    #[inline(always)]
    fn blanks(&mut self) {
        while self.peek() == b' ' || self.peek() == b'\t' {
            self.i += 1;
        }
    }
    /// The rest of the line and its LF.
    #[inline]
    fn skip_line(&mut self) {
        while self.peek() != b'\n' {
            self.i += 1;
        }
        self.i += 1;
    }
    /// A decimal number after blanks, up to a blank or the line's end.
    #[inline(always)]
    fn number(&mut self) -> Option<u64> {
        self.blanks();
        self.digits()
    }
    /// Digits eight at a time; the text has eight bytes after its last LF.
    #[inline(always)]
    fn digits(&mut self) -> Option<u64> {
        let s = self.i;
        let mut v: u64 = 0;
        loop {
            debug_assert!(self.i + 8 <= self.b.len());
            let x = unsafe { (self.b.as_ptr().add(self.i) as *const u64).read_unaligned() }.to_le()
                ^ 0x3030_3030_3030_3030;
            // the lowest flag stands at the first byte that is no digit
            let flags = (x.wrapping_add(0x7676_7676_7676_7676) | x) & 0x8080_8080_8080_8080;
            let len = flags.trailing_zeros() / 8;
            if len > 0 {
                let d = x << (64 - 8 * len);
                let d = d.wrapping_mul(10).wrapping_add(d >> 8);
                let d = ((d & 0x0000_00FF_0000_00FF).wrapping_mul(0x000F_4240_0000_0064))
                    .wrapping_add(((d >> 16) & 0x0000_00FF_0000_00FF).wrapping_mul(0x0000_2710_0000_0001))
                    >> 32;
                const TEN: [u64; 9] = [1, 10, 100, 1000, 10_000, 100_000, 1_000_000, 10_000_000, 100_000_000];
                v = v.wrapping_mul(TEN[len as usize]).wrapping_add(d);
                self.i += len as usize;
            }
            if len < 8 {
                break;
            }
        }
        if self.i == s || self.peek() > b' ' {
            return None;
        }
        if self.i - s > 19 {
            return std::str::from_utf8(&self.b[s..self.i]).ok()?.parse().ok();
        }
        Some(v)
    }
    #[inline(always)]
    fn abs(&mut self) -> Option<u64> {
        self.blanks();
        let w = self.b.get(self.i..self.i + 19)?;
        let t = absolute_time(w)?;
        self.i += 19;
        if self.peek() > b' ' {
            return None;
        }
        Some(t)
    }
    #[inline(always)]
    fn time(&mut self, reference: Option<u64>) -> Option<u64> {
        self.blanks();
        let t = if self.peek() == b'+' {
            self.i += 1;
            self.digits()?.checked_add(reference?)?
        } else {
            self.abs()?
        };
        if t <= LAST {
            Some(t)
        } else {
            None
        }
    }
    /// The word, where it stands next.
    #[inline(always)]
    fn word(&mut self, w: &[u8]) -> bool {
        self.blanks();
        if self.b[self.i..].starts_with(w) {
            let i = self.i;
            self.i += w.len();
            if self.peek() <= b' ' {
                return true;
            }
            self.i = i;
        }
        false
    }
}

/// The file's bytes, with room for a few more.
pub fn read_file(path: &str) -> std::io::Result<Vec<u8>> {
    use std::io::Read;
    let mut f = std::fs::File::open(path)?;
    let len = f.metadata()?.len() as usize;
    let mut v = Vec::with_capacity(len + 64);
    f.read_to_end(&mut v)?;
    Ok(v)
}

/// Reads the text; on a bad line its number and a reason.
#[inline(never)]
pub fn read_plan(mut text: Vec<u8>, margin_ppm: u64) -> Result<Plan, (usize, &'static str)> {
    if text.last() != Some(&b'\n') {
        text.push(b'\n');
    }
    let len = text.len();
    text.extend_from_slice(&[b'\n'; 8]);
    let text = &text[..];
    let mut nodes: Vec<u64> = Vec::new();
    let mut map = NodeMap::new(12);
    let mut contacts: Vec<Contact> = Vec::with_capacity((len / 32).min(20_000));
    let mut ranges: Vec<Range> = Vec::with_capacity((len / 64).min(20_000));
    let mut reference: Option<u64> = None;
    let mut line_no = 0;
    let mut c = Cursor { b: text, i: 0 };
    while c.i < len {
        line_no += 1;
        if c.peek() == b'#' {
            c.skip_line();
            continue;
        }
        c.blanks();
        if c.peek() == b'\n' {
            c.i += 1;
            continue;
        }
        if c.word(b"@") {
            reference = Some(c.abs().ok_or((line_no, "BadTime"))?);
            c.skip_line();
            continue;
        }
        if !c.word(b"a") {
            return Err((line_no, "UnknownCommand"));
        }
        let is_contact = c.word(b"contact");
        if !is_contact && !c.word(b"range") {
            return Err((line_no, "UnknownCommand"));
        }
        let start = c.time(reference).ok_or((line_no, "BadTime"))?;
        let end = c.time(reference).ok_or((line_no, "BadTime"))?;
        let from = c.number().filter(|&n| n > 0).ok_or((line_no, "BadNode"))?;
        let to = c.number().filter(|&n| n > 0).ok_or((line_no, "BadNode"))?;
        let last = c.number().ok_or((line_no, "BadNumber"))?;
        c.blanks();
        if c.peek() != b'\n' {
            return Err((line_no, "WrongOperands"));
        }
        c.i += 1;
        if start >= end {
            return Err((line_no, "EmptyWindow"));
        }
        if from == to {
            return Err((line_no, "SelfPair"));
        }
        let from = map.intern(&mut nodes, from);
        let to = map.intern(&mut nodes, to);
        if is_contact {
            contacts.push(Contact { from, to, start, end, cost: NO_LIGHT });
        } else {
            if last > 1_000_000 {
                return Err((line_no, "BadNumber"));
            }
            ranges.push(Range { one: from, other: to, start, end, light: last as u32 });
        }
    }
    set_light(&mut contacts, ranges, &nodes, margin_ppm);
    Ok(Plan { contacts, nodes, map })
}

/// Ranges of an ordered pair stand together, rising by start; a hash table leads to them.
fn set_light(contacts: &mut [Contact], ranges: Vec<Range>, nodes: &[u64], ppm: u64) {
    let bits = usize::BITS - (ranges.len() * 2).max(16).leading_zeros();
    let mask = (1usize << bits) - 1;
    let pair = |a: u32, b: u32| ((a as u64) << 32) | b as u64;
    let hash = |p: u64| (p.wrapping_mul(0x9E37_79B9_7F4A_7C15) >> 32) as usize & mask;
    // pair, place of its group
    let mut table: Vec<(u64, u32)> = vec![(u64::MAX, 0); 1 << bits];
    let mut group_of: Vec<u32> = Vec::with_capacity(ranges.len());
    let mut size: Vec<u32> = Vec::new();
    for r in &ranges {
        let p = pair(r.one, r.other);
        let mut h = hash(p);
        while table[h].0 != u64::MAX && table[h].0 != p {
            h = (h + 1) & mask;
        }
        if table[h].0 == u64::MAX {
            table[h] = (p, size.len() as u32);
            size.push(0);
        }
        group_of.push(table[h].1);
        size[table[h].1 as usize] += 1;
    }
    let mut first = vec![0u32; size.len() + 1];
    for g in 0..size.len() {
        first[g + 1] = first[g] + size[g];
    }
    let mut at = first.clone();
    // start, end, light
    let mut sorted: Vec<(u64, u64, u32)> = vec![(0, 0, 0); ranges.len()];
    for (r, &g) in ranges.iter().zip(&group_of) {
        let p = &mut at[g as usize];
        sorted[*p as usize] = (r.start, r.end, r.light);
        *p += 1;
    }
    for g in 0..size.len() {
        let s = &mut sorted[first[g] as usize..first[g + 1] as usize];
        if s.len() > 1 && !s.is_sorted() {
            s.sort_unstable();
        }
    }
    let find = |one: u32, other: u32, at: u64| -> Option<u32> {
        let p = pair(one, other);
        let mut h = hash(p);
        while table[h].0 != p {
            if table[h].0 == u64::MAX {
                return None;
            }
            h = (h + 1) & mask;
        }
        let g = table[h].1 as usize;
        let s = &sorted[first[g] as usize..first[g + 1] as usize];
        let k = if s.len() == 1 { (s[0].0 <= at) as usize } else { s.partition_point(|r| r.0 <= at) };
        if k > 0 && at < s[k - 1].1 {
            Some(s[k - 1].2)
        } else {
            None
        }
    };
    for c in contacts.iter_mut() {
        let light = if nodes[c.from as usize] > nodes[c.to as usize] {
            find(c.from, c.to, c.start).or_else(|| find(c.to, c.from, c.start))
        } else {
            find(c.from, c.to, c.start)
        };
        if let Some(l) = light {
            let margin = (l as u64 * ppm).div_ceil(1_000_000);
            c.cost = l + margin as u32;
        }
    }
}
