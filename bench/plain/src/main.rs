//! The same job as layrun, in plain Rust: a baseline for speed and a second opinion on every byte.

mod kernel;
mod plan;

use kernel::{Answer, Kernel};
use std::io::{Read, Write};

fn vector(field: &[u8]) -> Option<u64> {
    if field.is_empty() || field.len() > 16 {
        return None;
    }
    field.iter().try_fold(0u64, |v, b| Some(v << 4 | (*b as char).to_digit(16)? as u64))
}

fn number(field: &[u8]) -> Option<u16> {
    if field.is_empty() || field.len() > 3 {
        return None;
    }
    field.iter().try_fold(0u16, |n, b| Some(n * 10 + (*b as char).to_digit(10)? as u16))
}

fn call(kernel: &mut Kernel, record: &[u8]) -> Option<Answer> {
    let mut fields = record.split(|b| *b == b',');
    let verb = fields.next()?;
    let (first, second) = (fields.next(), fields.next());
    if fields.next().is_some() {
        return None;
    }
    let given = match second {
        Some(field) => Some(vector(field)?),
        None => None,
    };
    Some(match (verb, first, second) {
        (b"exit", None, None) => kernel.exit(),
        (b"release", Some(v), None) => kernel.release(vector(v)?),
        (b"lock", Some(n), None) => kernel.lock(number(n)?),
        (b"unlock", Some(n), None) => kernel.unlock(number(n)?),
        (b"test", Some(n), None) => kernel.test(number(n)?),
        (b"signal", Some(n), _) => kernel.signal(number(n)?, given),
        (b"signalrelease", Some(n), _) => kernel.signal_release(number(n)?, given),
        _ => return None,
    })
}

fn decimal(out: &mut Vec<u8>, mut n: u32) {
    let mut digits = [0; 10];
    let mut at = 10;
    loop {
        at -= 1;
        digits[at] = b'0' + (n % 10) as u8;
        n /= 10;
        if n == 0 {
            break;
        }
    }
    out.extend_from_slice(&digits[at..]);
}

fn optional(out: &mut Vec<u8>, n: Option<u8>) {
    if let Some(n) = n {
        decimal(out, n as u32);
    }
    out.push(b',');
}

fn hex(out: &mut Vec<u8>, v: u64) {
    let mut digits = [0; 16];
    for (i, d) in digits.iter_mut().enumerate() {
        *d = b"0123456789abcdef"[(v >> (60 - 4 * i) & 15) as usize];
    }
    out.extend_from_slice(&digits);
}

fn line(out: &mut Vec<u8>, n: u32, kernel: &Kernel, answer: Option<Answer>) {
    let (result, mark) = match answer {
        None => (22, None),
        Some(Err(why)) => (why, None),
        Some(Ok(mark)) => (0, mark),
    };
    decimal(out, n);
    out.push(b',');
    decimal(out, result as u32);
    out.push(b',');
    optional(out, kernel.running());
    hex(out, kernel.waiting());
    out.push(b',');
    optional(out, kernel.ceiling());
    if let Some(mark) = mark {
        out.push(b'0' + mark as u8);
    }
    out.extend_from_slice(b"\r\n");
}

fn records(input: &[u8]) -> impl Iterator<Item = &[u8]> {
    let body = input.strip_suffix(b"\n").unwrap_or(input);
    let lines = if input.is_empty() { None } else { Some(body.split(|b| *b == b'\n')) };
    let closed = body.len() < input.len();
    let count = body.iter().filter(|b| **b == b'\n').count() + 1;
    lines.into_iter().flatten().enumerate().map(move |(i, l)| {
        let ended = closed || i + 1 < count;
        if ended { l.strip_suffix(b"\r").unwrap_or(l) } else { l }
    })
}

fn main() -> std::io::Result<()> {
    let text = std::fs::read("plan.oil").unwrap_or_default();
    let mut input = Vec::new();
    std::io::stdin().read_to_end(&mut input)?;
    let mut out = b"call,result,running,waiting,ceiling,mark\r\n".to_vec();
    match plan::read(&text) {
        Err((number, place)) => write!(out, "plan,{number},{place},,,\r\n")?,
        Ok(plan) => {
            let mut kernel = Kernel::new(plan);
            for (i, record) in records(&input).take(1_000_000).enumerate() {
                let answer = call(&mut kernel, record);
                line(&mut out, i as u32 + 1, &kernel, answer);
            }
        }
    }
    std::io::stdout().write_all(&out)
}
