//! The report, as `cgrlist first` prints it.

use crate::plan::Plan;

fn push_num(out: &mut Vec<u8>, mut v: u64) {
    let mut b = [0u8; 20];
    let mut i = 20;
    loop {
        i -= 1;
        b[i] = b'0' + (v % 10) as u8;
        v /= 10;
        if v == 0 {
            break;
        }
    }
    out.extend_from_slice(&b[i..]);
}

pub struct Times {
    day: u64,
    text: [u8; 11],
}

impl Default for Times {
    fn default() -> Self {
        Times { day: u64::MAX, text: [0; 11] }
    }
}

impl Times {
    pub fn push(&mut self, out: &mut Vec<u8>, t: u64) {
        let day = t / 86_400;
        if day != self.day {
            let z = day as i64 + 719_468;
            let era = z.div_euclid(146_097);
            let doe = z - era * 146_097;
            let yoe = (doe - doe / 1460 + doe / 36_524 - doe / 146_096) / 365;
            let doy = doe - (365 * yoe + yoe / 4 - yoe / 100);
            let mp = (5 * doy + 2) / 153;
            let d = doy - (153 * mp + 2) / 5 + 1;
            let m = if mp < 10 { mp + 3 } else { mp - 9 };
            let y = yoe + era * 400 + (m <= 2) as i64;
            let dig = |v: i64| b'0' + (v % 10) as u8;
            self.text = [
                dig(y / 1000),
                dig(y / 100),
                dig(y / 10),
                dig(y),
                b'/',
                dig(m / 10),
                dig(m),
                b'/',
                dig(d / 10),
                dig(d),
                b'-',
            ];
            self.day = day;
        }
        out.extend_from_slice(&self.text);
        let s = t % 86_400;
        let (h, m, s) = (s / 3600, s / 60 % 60, s % 60);
        let dig = |v: u64| b'0' + (v % 10) as u8;
        out.extend_from_slice(&[dig(h / 10), dig(h), b':', dig(m / 10), dig(m), b':', dig(s / 10), dig(s)]);
    }
}

/// Routes are lists of contact numbers less one, with their delivery.
pub fn report<'a, I>(plan: &Plan, routes: I, more: bool) -> Vec<u8>
where
    I: Iterator<Item = (u64, &'a [u32])>,
{
    let mut out = Vec::with_capacity(1 << 16);
    let mut deliveries = Times::default();
    let mut ends = Times::default();
    for (i, (delivery, list)) in routes.enumerate() {
        push_num(&mut out, i as u64 + 1);
        out.extend_from_slice(b" delivery ");
        deliveries.push(&mut out, delivery);
        out.extend_from_slice(b" hops ");
        push_num(&mut out, list.len() as u64);
        out.extend_from_slice(b" entry ");
        push_num(&mut out, plan.nodes[plan.contacts[list[0] as usize].to as usize]);
        out.extend_from_slice(b" until ");
        let until = list.iter().map(|&c| plan.contacts[c as usize].end).min().unwrap();
        ends.push(&mut out, until);
        out.extend_from_slice(b" contacts");
        for &c in list {
            out.push(b' ');
            push_num(&mut out, c as u64 + 1);
        }
        out.push(b'\n');
    }
    out.extend_from_slice(if more { b"more\n" } else { b"end\n" });
    out
}
