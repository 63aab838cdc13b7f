//! The yardstick against all routes by brute force over small drawn plans, and against itself without tables over middle
//! ones; and rows worked out by hand. CASES and MIDDLE set how many plans are drawn, SEED which.

use yardstick::{brute, partition, plan, report, search};

struct Rng(u64);
impl Rng {
    fn next(&mut self) -> u64 {
        self.0 ^= self.0 << 13;
        self.0 ^= self.0 >> 7;
        self.0 ^= self.0 << 17;
        self.0.wrapping_mul(0x2545_F491_4F6C_DD1D)
    }
    fn below(&mut self, n: u64) -> u64 {
        (self.next() >> 33) % n
    }
}

const T0: u64 = 1_893_456_000;

struct Question<'a> {
    from: u64,
    to: u64,
    at: u64,
    count: usize,
    margin_ppm: u64,
    max_hops: usize,
    avoided: &'a [u64],
    with_tables: bool,
}

/// What is asked if nothing else is said.
const PLAIN: Question = Question {
    from: 1,
    to: 3,
    at: T0,
    count: 9,
    margin_ppm: 0,
    max_hops: 20_000,
    avoided: &[],
    with_tables: true,
};

fn given(name: &str, otherwise: u64) -> u64 {
    std::env::var(name).ok().and_then(|text| text.parse().ok()).unwrap_or(otherwise)
}

fn answer(text: &str, asked: &Question) -> String {
    let plan = plan::read_plan(text.as_bytes().to_vec(), asked.margin_ppm).unwrap();
    let mut found = partition::Found::default();
    if let (Some(from), Some(to)) = (plan.node(asked.from), plan.node(asked.to)) {
        let avoided: Vec<u32> = asked.avoided.iter().filter_map(|&node| plan.node(node)).collect();
        if let Some(mut finder) = search::Finder::new(&plan, from, to, asked.at, &avoided) {
            if !asked.with_tables {
                finder.leave_out_tables();
            }
            found = partition::best_routes(&plan, &mut finder, from, asked.at, asked.count, asked.max_hops);
        }
    }
    String::from_utf8(report::report(&plan, found.routes(), found.more)).unwrap()
}

/// What must be answered over a small plan.
fn wanted(text: &str, asked: &Question) -> String {
    let plan = plan::read_plan(text.as_bytes().to_vec(), asked.margin_ppm).unwrap();
    let limits = brute::Limits { max_hops: asked.max_hops, avoided: asked.avoided };
    let all = brute::all_routes(&plan, asked.from, asked.to, asked.at, &limits);
    let count = asked.count.min(all.len());
    let routes = all[..count].iter().map(|(delivery, numbers)| (*delivery, &numbers[..]));
    String::from_utf8(report::report(&plan, routes, all.len() > count)).unwrap()
}

fn random_plan(r: &mut Rng) -> String {
    let n = 2 + r.below(5);
    // names in no order, some great
    let names: Vec<u64> =
        (0..n).map(|i| if r.below(8) == 0 { u64::MAX - i } else { 1 + (i * 7 + r.below(7)) }).collect();
    let span = [2, 4, 8, 20, 60][r.below(5) as usize];
    let maxlight = [0, 0, 1, 3, 9][r.below(5) as usize];
    let mut text = String::from("@ 2030/01/01-00:00:00\n");
    let mut lines: Vec<String> = Vec::new();
    // ranges
    for a in 0..n as usize {
        for b in 0..n as usize {
            if names[a] == names[b] {
                continue;
            }
            let two = names[a] < names[b];
            if if two { r.below(40) == 0 } else { r.below(6) != 0 } {
                continue;
            }
            if r.below(4) == 0 {
                let cut = 1 + r.below(span);
                for (s, e) in [(0, cut), (cut + (r.below(3) == 0) as u64, 2 * span + 3)] {
                    lines.push(format!(
                        "a range +{} +{} {} {} {}",
                        s,
                        e,
                        names[a],
                        names[b],
                        r.below(maxlight + 1)
                    ));
                }
            } else {
                lines.push(format!(
                    "a range +0 +{} {} {} {}",
                    2 * span + 1,
                    names[a],
                    names[b],
                    r.below(maxlight + 1)
                ));
            }
        }
    }
    let top = [13, 20, 30, 40][r.below(4) as usize];
    let m = r.below(top);
    // contacts mostly between few pairs, or from everywhere
    let dead = r.below(3) == 0;
    let mut seen = std::collections::HashSet::new();
    for _ in 0..m {
        let a = r.below(n) as usize;
        let b = r.below(n) as usize;
        if dead && a > b && r.below(4) != 0 {
            continue;
        }
        if names[a] == names[b] {
            continue;
        }
        let s = r.below(span);
        let e = if r.below(3) == 0 { 2 * span } else { s + 1 + r.below(span) };
        if seen.insert((s, a, b)) {
            lines.push(format!("a contact +{} +{} {} {} 100", s, e, names[a], names[b]));
        }
    }
    // shuffle
    for i in (1..lines.len()).rev() {
        let j = r.below(i as u64 + 1) as usize;
        lines.swap(i, j);
    }
    for l in lines {
        text.push_str(&l);
        text.push('\n');
    }
    text.push_str(&format!("# names {:?}\n", names));
    text
}

#[test]
fn small_plans_by_brute_force() {
    let mut draws = Rng(0x1234_5678_9ABC_DEF1 ^ (given("SEED", 1) << 7));
    let mut routes = 0;
    for case in 0..given("CASES", 20_000) {
        let text = random_plan(&mut draws);
        let nodes = plan::read_plan(text.as_bytes().to_vec(), 0).unwrap().nodes;
        for _ in 0..8 {
            if nodes.is_empty() {
                break;
            }
            let from = nodes[draws.below(nodes.len() as u64) as usize];
            let to = nodes[draws.below(nodes.len() as u64) as usize];
            let is_limited = draws.below(3) == 0;
            let is_avoided = |node: &u64| *node != from && *node != to;
            let avoided: Vec<u64> =
                nodes.iter().copied().filter(is_avoided).filter(|_| draws.below(5) == 0).collect();
            let asked = Question {
                from,
                to,
                at: T0 + if draws.below(3) == 0 { draws.below(12) } else { 0 },
                count: [1, 2, 1 + draws.below(20) as usize, 10_000][draws.below(4) as usize],
                margin_ppm: [0, 0, 1, 250_000, 1_000_000][draws.below(5) as usize],
                max_hops: if is_limited { 1 + draws.below(5) as usize } else { 20_000 },
                avoided: if is_limited { &avoided } else { &[] },
                with_tables: draws.below(2) == 0,
            };
            if from != to {
                let must = wanted(&text, &asked);
                routes += must.lines().count() - 1;
                assert_eq!(answer(&text, &asked), must, "case {case}, from {from} to {to}\n{text}");
            }
        }
    }
    assert!(routes > 0);
}

const A: &str = "@ 2030/01/01-00:00:00
a range +0 +1000 1 2 10
a range +0 +1000 2 3 5
a range +0 +1000 1 3 40
a contact +0 +100 1 2 1000
a contact +20 +60 2 3 1000
a contact +50 +90 1 3 1000
a contact +0 +200 2 3 1000
";

const C: &str = "@ 2030/01/01-00:00:00
a range +0 +1000 1 2 0
a range +0 +1000 2 3 0
a range +0 +1000 1 3 0
a range +0 +1000 1 4 0
a range +0 +1000 3 4 0
a contact +0 +100 1 2 1000
a contact +10 +100 2 3 1000
a contact +10 +100 1 3 1000
a contact +0 +100 1 4 1000
a contact +10 +100 4 3 1000
a range +0 +1000 2 4 0
a contact +0 +100 2 4 1000
a contact +0 +100 4 2 1000
";

/// The contact numbers of each route, and the last line.
fn lists(text: &str, asked: &Question) -> Vec<String> {
    answer(text, asked).lines().map(|line| line.split("contacts ").last().unwrap().to_string()).collect()
}

#[test]
fn rows_by_hand() {
    assert_eq!(
        answer(A, &PLAIN),
        "1 delivery 2030/01/01-00:00:15 hops 2 entry 2 until 2030/01/01-00:01:40 contacts 1 4
2 delivery 2030/01/01-00:00:25 hops 2 entry 2 until 2030/01/01-00:01:00 contacts 1 2
3 delivery 2030/01/01-00:01:30 hops 1 entry 3 until 2030/01/01-00:01:30 contacts 3
end
"
    );
    assert_eq!(lists(A, &Question { count: 2, ..PLAIN }), ["1 4", "1 2", "more"]);
    assert_eq!(lists(A, &Question { at: T0 + 60, ..PLAIN }), ["1 4", "3", "end"]);
    assert_eq!(lists(A, &Question { at: T0 + 100, ..PLAIN }), ["end"]);
    assert_eq!(lists(A, &Question { max_hops: 1, ..PLAIN }), ["3", "end"]);
    assert_eq!(lists(A, &Question { avoided: &[2], ..PLAIN }), ["3", "end"]);
    assert_eq!(lists(C, &PLAIN), ["3", "1 2", "4 5", "1 6 5", "4 7 2", "end"]);
    assert_eq!(lists(C, &Question { max_hops: 2, ..PLAIN }), ["3", "1 2", "4 5", "end"]);
    assert_eq!(lists(C, &Question { avoided: &[4], ..PLAIN }), ["3", "1 2", "end"]);
    assert_eq!(lists("", &PLAIN), ["end"]);
}

/// Light times, margins, and the last second of all.
#[test]
fn costs_by_hand() {
    for (light, margin_ppm, cost) in
        [(1, 1, 2), (40, 250_000, 50), (0, 1_000_000, 0), (3, 333_333, 4), (3, 333_334, 5)]
    {
        let text = format!("@ 2030/01/01-00:00:00\na range +0 +1000 1 2 {light}\na contact +0 +100 1 2 1\n");
        let found = answer(&text, &Question { to: 2, margin_ppm, ..PLAIN });
        assert!(
            found.starts_with(&format!("1 delivery 2030/01/01-00:00:{cost:02} hops 1 ")),
            "{light} {margin_ppm}"
        );
    }
    let late = "@ 9998/12/31-00:00:00\na contact +86398 +86399 1 2 1\na range +0 +86399 1 2 1000000\n";
    let at = plan::absolute_time(b"9998/12/31-00:00:00").unwrap();
    let found = answer(late, &Question { to: 2, at, margin_ppm: 1_000_000, ..PLAIN });
    assert!(found
        .starts_with("1 delivery 9999/01/24-03:33:18 hops 1 entry 2 until 9998/12/31-23:59:59 contacts 1\n"));
    let one_way =
        "@ 2030/01/01-00:00:00\na range +0 +1000 1 2 10\na range +0 +1000 2 1 30\na contact +0 +9 1 2 1\n";
    let back = format!("{one_way}a contact +0 +9 2 1 1\n");
    assert!(answer(&back, &Question { to: 2, ..PLAIN }).starts_with("1 delivery 2030/01/01-00:00:10 "));
    assert!(
        answer(&back, &Question { from: 2, to: 1, ..PLAIN }).starts_with("1 delivery 2030/01/01-00:00:30 ")
    );
}

fn middle_plan(r: &mut Rng) -> (String, u64) {
    let n = 6 + r.below(25);
    let span = [3, 30, 300][r.below(3) as usize];
    let maxlight = [0, 0, 2, 20][r.below(4) as usize];
    let degree = 1 + r.below(5);
    let mut text = String::from("@ 2030/01/01-00:00:00\n");
    let mut pairs = Vec::new();
    // few nodes and many parallel contacts: long exclusions
    let parallel = r.below(4) == 0;
    let n = if parallel { 3 + r.below(3) } else { n };
    match r.below(3) {
        // ring with chords, both ways
        0 => {
            for a in 0..n {
                for d in 1..=degree.min(3) {
                    pairs.push((a, (a + d) % n));
                    pairs.push(((a + d) % n, a));
                }
            }
        }
        // rows of a grid
        1 => {
            let w = 2 + r.below(4);
            for a in 0..n {
                if a % w + 1 < w && a + 1 < n {
                    pairs.push((a, a + 1));
                    pairs.push((a + 1, a));
                }
                if a + w < n {
                    pairs.push((a, a + w));
                    pairs.push((a + w, a));
                }
            }
        }
        _ => {
            for _ in 0..n * degree {
                pairs.push((r.below(n), r.below(n)));
            }
        }
    }
    let mut lights = std::collections::HashSet::new();
    let mut seen = std::collections::HashSet::new();
    let mut contacts = Vec::new();
    for (a, b) in pairs {
        let (a, b) = (a + 1, b + 1);
        if a == b {
            continue;
        }
        if lights.insert((a.min(b), a.max(b))) {
            let l = r.below(maxlight + 1);
            let cut = span / 2 + 1;
            text.push_str(&format!("a range +0 +{} {} {} {}\n", cut, a.min(b), a.max(b), l));
            text.push_str(&format!(
                "a range +{} +{} {} {} {}\n",
                cut,
                3 * span + 9,
                a.min(b),
                a.max(b),
                r.below(maxlight + 1)
            ));
        }
        let m = if parallel { 8 + r.below(20) } else { 1 + r.below(4) };
        for _ in 0..m {
            let s = r.below(span);
            let e = if r.below(4) == 0 { 3 * span } else { s + 1 + r.below(span) };
            if seen.insert((s, a, b)) {
                contacts.push(format!("a contact +{s} +{e} {a} {b} 1\n"));
            }
        }
    }
    for i in (1..contacts.len()).rev() {
        if r.below(2) == 0 {
            let j = r.below(i as u64 + 1) as usize;
            contacts.swap(i, j);
        }
    }
    for c in contacts {
        text.push_str(&c);
    }
    (text, n)
}

/// Greater plans, where the tables come into play.
#[test]
fn middle_plans_with_tables_and_without() {
    let mut draws = Rng(0xABCD_5678_9ABC_DEF1 ^ (given("SEED", 1) << 9));
    let mut routes = 0;
    for case in 0..given("MIDDLE", 400) {
        let (text, nodes) = middle_plan(&mut draws);
        let (from, to) = (1 + draws.below(nodes), 1 + draws.below(nodes));
        let count = [30, 300, 1000][draws.below(3) as usize];
        let margin_ppm = [0, 0, 300_000][draws.below(3) as usize];
        if from != to {
            let plain = Question { from, to, count, margin_ppm, with_tables: false, ..PLAIN };
            let must = answer(&text, &plain);
            routes += must.lines().count() - 1;
            let found = answer(&text, &Question { with_tables: true, ..plain });
            assert_eq!(found, must, "case {case}, from {from} to {to}\n{text}");
        }
    }
    assert!(routes > 0);
}
