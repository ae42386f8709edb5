//! The same steps in plain Rust.
use std::hint::black_box;

#[derive(Clone, Copy)]
struct Frac {
    num: i128,
    den: i128,
}

fn gcd(mut a: u128, mut b: u128) -> u128 {
    while b != 0 {
        if let (Ok(mut x), Ok(mut y)) = (u64::try_from(a), u64::try_from(b)) {
            while y != 0 {
                (x, y) = (y, x % y);
            }
            return x.into();
        }
        (a, b) = (b, a % b);
    }
    a
}

fn divided(n: i128, d: i128) -> i128 {
    match (i64::try_from(n), i64::try_from(d)) {
        (Ok(n), Ok(d)) if d > 0 => i128::from(n / d),
        _ => n / d,
    }
}

impl Frac {
    fn new(num: i128, den: i128) -> Option<Frac> {
        if den == 0 {
            return None;
        }
        let common = gcd(num.unsigned_abs(), den.unsigned_abs()) as i128;
        let sign = if den < 0 { -1 } else { 1 };
        Some(Frac {
            num: sign * divided(num, common),
            den: sign * divided(den, common),
        })
    }

    fn sum(self, other: Frac, minus: bool) -> Option<Frac> {
        let join = |a: i128, b: i128| {
            let c = if minus { a.checked_sub(b) } else { a.checked_add(b) };
            c.filter(|c| *c != i128::MIN)
        };
        if self.den == 1 && other.den == 1 {
            return Some(Frac { num: join(self.num, other.num)?, den: 1 });
        }
        let common = if self.den == other.den {
            self.den
        } else {
            gcd(self.den as u128, other.den as u128) as i128
        };
        let mine = divided(self.den, common);
        let theirs = divided(other.den, common);
        let num = join(self.num.checked_mul(theirs)?, other.num.checked_mul(mine)?)?;
        let again = gcd(num.unsigned_abs(), common as u128) as i128;
        let den = divided(self.den, again).checked_mul(theirs)?;
        Some(Frac { num: divided(num, again), den })
    }

    fn mul(self, other: Frac) -> Option<Frac> {
        let first = gcd(self.num.unsigned_abs(), other.den as u128) as i128;
        let second = gcd(other.num.unsigned_abs(), self.den as u128) as i128;
        let num = divided(self.num, first).checked_mul(divided(other.num, second))?;
        let den = divided(self.den, second).checked_mul(divided(other.den, first))?;
        if num == i128::MIN { None } else { Some(Frac { num, den }) }
    }

    fn div(self, other: Frac) -> Option<Frac> {
        let sign = if other.num < 0 { -1 } else { 1 };
        self.mul(Frac { num: sign * other.den, den: sign * other.num })
    }
}

fn next(seed: u64) -> u64 {
    seed.wrapping_mul(6364136223846793005).wrapping_add(1442695040888963407)
}

fn operand(turn: u64, seed: u64, other: u64) -> Frac {
    let (num, den) = match turn % 3 {
        0 => (i128::from(seed >> 58) - 32, i128::from(other >> 59) + 1),
        1 => (i128::from(seed >> 2) - 2305843009213693952, i128::from(other >> 2) + 1),
        _ => (i128::from(seed >> 2) * 36028797018963968, i128::from(other >> 2) + 1),
    };
    Frac::new(num, den).unwrap_or(Frac { num: 0, den: 1 })
}

fn mark(result: Option<Frac>) -> u64 {
    match result {
        Some(value) if value.num > value.den => 1,
        Some(_) => 2,
        None => 3,
    }
}

fn step(turn: u64, left: Frac, right: Frac) -> u64 {
    match turn % 4 {
        0 => mark(left.sum(right, false)),
        1 => mark(left.sum(right, true)),
        2 => mark(left.mul(right)),
        _ if right.num == 0 => 4,
        _ => mark(left.div(right)),
    }
}

fn main() {
    let mut operands = Vec::new();
    let mut seed = 1;
    for turn in 0..256 {
        let other = next(seed);
        operands.push(operand(turn, seed, other));
        seed = next(other);
    }
    let mut sum: u64 = 0;
    for turn in 0..10_000_000u64 {
        let left = operands[(turn & 255) as usize];
        let right = operands[((turn >> 3) & 255) as usize];
        sum = sum.wrapping_mul(31).wrapping_add(step(black_box(turn), left, right));
    }
    println!("{sum}");
}
