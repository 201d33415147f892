//! `quote` in plain Rust, with no proof: what the proved program's speed is held against.
//!   plain < in > out        one quote
//!   plain --bench N < in    N quotes in process, prints the mean and least time
//!   plain --check F...      each F (path of NNN.in) against NNN.out; prints what differs
use std::io::{Read, Write};
use std::time::Instant;

const MAX_BYTES: usize = 32_768;
const MAX_RECORDS: usize = 2_048;

struct Fault(u32, usize, usize, usize);

#[derive(Clone, Copy)]
struct Record {
    next: u8,
    share: u16,
    amount: i32,
}

struct Lines<'a> {
    data: &'a [u8],
    pos: usize,
    line: usize,
}

struct Fields<'a> {
    part: [&'a [u8]; 6],
    count: usize,
}

impl<'a> Lines<'a> {
    /// The next line, cut at its tabs. 26 where it is missing or unended.
    #[inline]
    fn next(&mut self) -> Result<Fields<'a>, Fault> {
        let rest = &self.data[self.pos..];
        let mut f = Fields { part: [&[]; 6], count: 0 };
        let mut from = 0;
        let mut i = 0;
        while i < rest.len() {
            let b = rest[i];
            if b <= 10 && (b == 9 || b == 10) {
                if f.count < 6 {
                    f.part[f.count] = &rest[from..i];
                }
                f.count += 1;
                from = i + 1;
                if b == 10 {
                    self.pos += i + 1;
                    return Ok(f);
                }
            }
            i += 1;
        }
        Err(Fault(26, self.line, 0, 0))
    }
}

#[inline]
fn counted(f: &Fields, want: usize, line: usize) -> Result<(), Fault> {
    if f.count == want { Ok(()) } else { Err(Fault(21, line, 0, 0)) }
}

#[inline]
fn digits(t: &[u8], line: usize, field: usize) -> Result<Option<u32>, Fault> {
    let bad = Err(Fault(22, line, field, 0));
    if t.is_empty() || (t[0] == b'0' && t.len() > 1) {
        return bad;
    }
    if t.len() > 7 {
        return if t.iter().all(|b| b.is_ascii_digit()) { Ok(None) } else { bad };
    }
    let mut x = 0u32;
    for &b in t {
        let d = b.wrapping_sub(b'0');
        if d > 9 {
            return bad;
        }
        x = x * 10 + d as u32;
    }
    Ok(Some(x))
}

#[inline]
fn natural(f: &Fields, field: usize, line: usize, low: u32, high: u32) -> Result<u32, Fault> {
    match digits(f.part[field - 1], line, field)? {
        Some(x) if low <= x && x <= high => Ok(x),
        _ => Err(Fault(23, line, field, 0)),
    }
}

#[inline]
fn signed(f: &Fields, field: usize, line: usize) -> Result<i32, Fault> {
    let t = f.part[field - 1];
    let minus = t.first() == Some(&b'-');
    let t = if minus { &t[1..] } else { t };
    match digits(t, line, field)? {
        Some(0) if minus => Err(Fault(22, line, field, 0)),
        Some(x) if x <= 1_000_000 => Ok(if minus { -(x as i32) } else { x as i32 }),
        _ => Err(Fault(23, line, field, 0)),
    }
}

struct Book {
    c: usize,
    r: usize,
    parts: u32,
    records: Vec<Record>,
    starts: [u16; 32 * 8 + 1], // records of row s * r + a are starts[row]..starts[row + 1]
    worths: [i32; 32],
}

fn read(lines: &mut Lines) -> Result<Book, Fault> {
    let f = lines.next()?;
    if f.part[0] != b"B" {
        return Err(Fault(20, 1, 1, 0));
    }
    counted(&f, 4, 1)?;
    let c = natural(&f, 2, 1, 1, 32)? as usize;
    let r = natural(&f, 3, 1, 1, 8)? as usize;
    let parts = natural(&f, 4, 1, 1, 1000)?;
    let mut book = Book {
        c,
        r,
        parts,
        records: Vec::with_capacity(MAX_RECORDS),
        starts: [0; 257],
        worths: [0; 32],
    };
    let (mut key, mut closed) = (-1i32, 0usize);
    let mut row = 0;
    loop {
        lines.line += 1;
        let line = lines.line;
        let f = lines.next()?;
        match f.part[0] {
            b"R" if closed == 0 => {
                counted(&f, 6, line)?;
                let s = natural(&f, 2, line, 0, c as u32 - 1)?;
                let a = natural(&f, 3, line, 0, r as u32 - 1)?;
                let n = natural(&f, 4, line, 0, c as u32 - 1)?;
                let share = natural(&f, 5, line, 1, parts)?;
                let amount = signed(&f, 6, line)?;
                let k = (s * 256 + a * 32 + n) as i32;
                if k <= key {
                    return Err(Fault(24, line, 0, 0));
                }
                if book.records.len() == MAX_RECORDS {
                    return Err(Fault(25, line, 0, 0));
                }
                key = k;
                let here = s as usize * r + a as usize;
                while row < here {
                    row += 1;
                    book.starts[row] = book.records.len() as u16;
                }
                book.records.push(Record { next: n as u8, share: share as u16, amount });
            }
            b"C" if closed < c => {
                counted(&f, 3, line)?;
                let s = natural(&f, 2, line, 0, c as u32 - 1)?;
                let w = signed(&f, 3, line)?;
                if s as usize != closed {
                    return Err(Fault(24, line, 0, 0));
                }
                book.worths[closed] = w;
                closed += 1;
            }
            b"E" if closed == c => {
                counted(&f, 1, line)?;
                break;
            }
            _ => return Err(Fault(20, line, 1, 0)),
        }
    }
    if lines.pos != lines.data.len() {
        return Err(Fault(26, lines.line + 1, 0, 0));
    }
    while row < c * r {
        row += 1;
        book.starts[row] = book.records.len() as u16;
    }
    Ok(book)
}

fn check(book: &Book, h: u32) -> Result<(), Fault> {
    let (c, r) = (book.c, book.r);
    for s in 0..c {
        if book.starts[s * r] == book.starts[(s + 1) * r] {
            return Err(Fault(7, 1, s, 0));
        }
    }
    let mut p = 1u32;
    for row in 0..c * r {
        let list = &book.records[book.starts[row] as usize..book.starts[row + 1] as usize];
        let mut sum = 0u32;
        for x in list {
            sum += x.share as u32;
            p = p.max(x.amount.unsigned_abs());
        }
        if !list.is_empty() && sum != book.parts {
            return Err(Fault(8, 1, row / r, row % r));
        }
    }
    for s in 0..c {
        p = p.max(book.worths[s].unsigned_abs());
    }
    let mut all = p as u128 * (h as u128 + 1);
    for _ in 0..h {
        all *= book.parts as u128;
        if all > 1 << 62 {
            return Err(Fault(9, 0, 0, 0));
        }
    }
    Ok(())
}

/// Values and remedies, visit 1 first.
fn plan<const MEAN: bool>(book: &Book, h: usize, out: &mut [(u8, i64)]) {
    let (c, r) = (book.c, book.r);
    let mut later = [0i64; 32];
    for s in 0..c {
        later[s] = book.worths[s] as i64;
    }
    let mut power = 1i64;
    for v in (0..h).rev() {
        let mut now = [0i64; 32];
        for s in 0..c {
            let mut best: Option<(u8, i64)> = None;
            let mut from = book.starts[s * r] as usize;
            for a in 0..r {
                let to = book.starts[s * r + a + 1] as usize;
                if from == to {
                    continue;
                }
                let list = &book.records[from..to];
                from = to;
                let x = if MEAN {
                    list.iter()
                        .map(|x| (power * x.amount as i64 + later[(x.next & 31) as usize]) * x.share as i64)
                        .sum()
                } else {
                    list.iter()
                        .map(|x| x.amount as i64 + later[(x.next & 31) as usize])
                        .min()
                        .unwrap_or(i64::MAX)
                };
                match best {
                    Some((_, y)) if y >= x => {}
                    _ => best = Some((a as u8, x)),
                }
            }
            let b = best.unwrap_or((0, 0));
            now[s] = b.1;
            out[v * c + s] = b;
        }
        later = now;
        power = power.wrapping_mul(book.parts as i64); // not used past the limit
    }
}

fn put(out: &mut Vec<u8>, x: i64, after: u8) {
    let mut t = [0u8; 21];
    let mut i = 20;
    t[20] = after;
    let mut m = x.unsigned_abs();
    loop {
        i -= 1;
        t[i] = b'0' + (m % 10) as u8;
        m /= 10;
        if m == 0 {
            break;
        }
    }
    if x < 0 {
        i -= 1;
        t[i] = b'-';
    }
    out.extend_from_slice(&t[i..]);
}

fn quoted(data: &[u8], out: &mut Vec<u8>) -> Result<(), Fault> {
    if data.len() > MAX_BYTES {
        return Err(Fault(25, 0, 0, 0));
    }
    let mut lines = Lines { data, pos: 0, line: 0 };
    let f = lines.next()?;
    if f.part[0] != b"Q" {
        return Err(Fault(20, 0, 1, 0));
    }
    counted(&f, 3, 0)?;
    let h = natural(&f, 2, 0, 1, 48)?;
    let mean = match f.part[2] {
        b"M" => true,
        b"F" => false,
        _ => return Err(Fault(20, 0, 3, 0)),
    };
    lines.line = 1;
    let book = read(&mut lines)?;
    check(&book, h)?;
    let h = h as usize;
    let mut table = [(0u8, 0i64); 48 * 32];
    if mean {
        plan::<true>(&book, h, &mut table);
    } else {
        plan::<false>(&book, h, &mut table);
    }
    let mut i = 0;
    for v in 1..=h as i64 {
        for s in 0..book.c as i64 {
            out.extend_from_slice(b"P\t");
            put(out, v, b'\t');
            put(out, s, b'\t');
            put(out, table[i].0 as i64, b'\t');
            put(out, table[i].1, b'\n');
            i += 1;
        }
    }
    out.extend_from_slice(b"T\t");
    put(out, i as i64, b'\n');
    Ok(())
}

fn quote(data: &[u8], out: &mut Vec<u8>) {
    if let Err(Fault(no, a, b, c)) = quoted(data, out) {
        out.clear();
        out.extend_from_slice(b"N\t");
        put(out, no as i64, b'\t');
        put(out, a as i64, b'\t');
        put(out, b as i64, b'\t');
        put(out, c as i64, b'\n');
    }
}

fn bench(runs: u32, data: &[u8]) {
    let mut out = Vec::with_capacity(1 << 16);
    let (mut least, mut total) = (f64::MAX, 0.0);
    for _ in 0..runs {
        out.clear();
        let t = Instant::now();
        quote(std::hint::black_box(data), &mut out);
        std::hint::black_box(&out);
        let t = t.elapsed().as_secs_f64() * 1e6;
        least = least.min(t);
        total += t;
    }
    println!("{} runs in process: mean {:.1} us, least {:.1} us, {} bytes out", runs, total / runs as f64, least, out.len());
}

fn main() {
    let args: Vec<String> = std::env::args().collect();
    if args.len() > 1 && args[1] == "--check" {
        let mut bad = 0;
        for path in &args[2..] {
            let data = std::fs::read(path).unwrap();
            let want = std::fs::read(path.replace(".in", ".out")).unwrap();
            let mut out = Vec::new();
            quote(&data, &mut out);
            if out != want {
                bad += 1;
                println!("differs: {} got {}", path, String::from_utf8_lossy(&out[..out.len().min(60)]));
            }
        }
        println!("{} checked, {} differ", args.len() - 2, bad);
        return;
    }
    let mut data = Vec::with_capacity(MAX_BYTES + 1);
    std::io::stdin().lock().take(MAX_BYTES as u64 + 1).read_to_end(&mut data).unwrap();
    if args.len() > 2 && args[1] == "--bench" {
        bench(args[2].parse().unwrap(), &data);
        return;
    }
    let mut out = Vec::with_capacity(1 << 16);
    quote(&data, &mut out);
    std::io::stdout().lock().write_all(&out).unwrap();
}
