//! The words of `first`.

use crate::plan::absolute_time;

pub struct Asked {
    pub plan: String,
    pub from: u64,
    pub to: u64,
    pub at: u64,
    pub count: usize,
    pub margin_ppm: u64,
    pub max_hops: usize,
    pub avoided: Vec<u64>,
}

const USAGE: &str = "usage: yardstick first --plan FILE --from NODE --to NODE --at TIME --count K \
    [--margin-ppm PPM] [--max-hops HOPS] [--avoid NODES]";

pub fn fail(message: &str, status: i32) -> ! {
    eprintln!("yardstick: {message}");
    std::process::exit(status)
}

fn number(word: &str) -> u64 {
    word.parse().unwrap_or_else(|_| fail(USAGE, 2))
}

pub fn read() -> Asked {
    let mut given = std::env::args().skip(1);
    let mut asked = Asked {
        plan: String::new(),
        from: 0,
        to: 0,
        at: u64::MAX,
        count: 0,
        margin_ppm: 0,
        max_hops: 20_000,
        avoided: Vec::new(),
    };
    if given.next().as_deref() != Some("first") {
        fail(USAGE, 2);
    }
    while let Some(option) = given.next() {
        let value = given.next().unwrap_or_else(|| fail(USAGE, 2));
        match option.as_str() {
            "--plan" => asked.plan = value,
            "--from" => asked.from = number(&value),
            "--to" => asked.to = number(&value),
            "--at" => asked.at = absolute_time(value.as_bytes()).unwrap_or_else(|| fail(USAGE, 2)),
            "--count" => asked.count = number(&value) as usize,
            "--margin-ppm" => asked.margin_ppm = number(&value),
            "--max-hops" => asked.max_hops = number(&value) as usize,
            "--avoid" => asked.avoided = value.split(',').map(number).collect(),
            _ => fail(USAGE, 2),
        }
    }
    if asked.plan.is_empty() || asked.from == 0 || asked.to == 0 || asked.at == u64::MAX {
        fail(USAGE, 2);
    }
    if asked.count == 0 || asked.max_hops == 0 || asked.from == asked.to {
        fail(USAGE, 2);
    }
    asked
}
