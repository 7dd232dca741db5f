// The same operations on plain fractions: products of i128 that aren't tested, and one gcd for each result.
use std::env;

const NUMBERS: u64 = 64;

#[derive(Clone, Copy)]
struct Plain {
    num: i128,
    den: i128,
}

fn gcd(a: i128, b: i128) -> i128 {
    let (mut x, mut y) = (a.unsigned_abs(), b.unsigned_abs());
    while y != 0 {
        (x, y) = (y, x % y);
    }
    x as i128
}

impl Plain {
    fn new(num: i128, den: i128) -> Plain {
        let common = gcd(num, den);
        Plain { num: num / common, den: den / common }
    }

    fn add(self, other: Plain) -> Plain {
        Plain::new(self.num * other.den + other.num * self.den, self.den * other.den)
    }

    fn mul(self, other: Plain) -> Plain {
        Plain::new(self.num * other.num, self.den * other.den)
    }
}

struct Generator {
    state: u64,
}

impl Generator {
    fn below(&mut self, limit: u64) -> u64 {
        self.state = self.state.wrapping_mul(6364136223846793005).wrapping_add(1442695040888963407);
        (self.state >> 20) % limit
    }
}

fn numbers(kind: &str) -> Vec<Plain> {
    let (num_limit, den_limit) = match kind {
        "whole" => (1000, 1),
        "small" => (1000, 1000),
        _ => (1 << 40, 1 << 40),
    };
    let mut generator = Generator { state: 1 };
    (0..NUMBERS)
        .map(|_| {
            let num = i128::from(generator.below(num_limit)) - i128::from(num_limit / 2);
            let den = i128::from(generator.below(den_limit)) + 1;
            Plain::new(num, den)
        })
        .collect()
}

fn checksum(answer: Plain) -> u64 {
    (answer.num.unsigned_abs() & 0xffff_ffff) as u64 ^ (answer.den.unsigned_abs() & 0xffff_ffff) as u64
}

fn run(numbers: &[Plain], count: u64, answer: impl Fn(Plain, Plain) -> u64) -> u64 {
    let mut sum: u64 = 0;
    for turn in 0..count {
        let a = numbers[(turn % NUMBERS) as usize];
        let b = numbers[(turn / NUMBERS % NUMBERS) as usize];
        sum = sum.wrapping_add(answer(a, b));
    }
    sum
}

fn main() {
    let words: Vec<String> = env::args().collect();
    let numbers = numbers(&words[1]);
    let count: u64 = words[3].parse().unwrap();
    let sum = match words[2].as_str() {
        "add" => run(&numbers, count, |a, b| checksum(a.add(b))),
        "mul" => run(&numbers, count, |a, b| checksum(a.mul(b))),
        "compare" => run(&numbers, count, |a, b| u64::from(a.num * b.den < b.num * a.den)),
        _ => run(&numbers, count, |a, _| checksum(a)),
    };
    println!("{sum}");
}
