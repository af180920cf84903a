// The codec's work over the same bytes as a loop in Rust, and a copy of the bytes. One line for each call: what it worked
// on, its name, its nanoseconds and the number of bytes.
use std::hint::black_box;
use std::time::Instant;

const ROUNDS: u32 = 5;

enum Column {
    Longs(u8, Vec<i64>),
    Symbols(Vec<u8>, Vec<usize>),
}

fn put_head(out: &mut Vec<u8>, code: u8, count: u32) {
    out.extend_from_slice(&[code, 0]);
    out.extend_from_slice(&count.to_le_bytes());
}

fn put_numbers(out: &mut Vec<u8>, code: u8, count: u32, step: u64) {
    put_head(out, code, count);
    for i in 0..count {
        out.extend_from_slice(&u64::from(i).wrapping_mul(step).to_le_bytes());
    }
}

fn put_symbols(out: &mut Vec<u8>, count: u32) {
    put_head(out, 11, count);
    for i in 0..count {
        let digits = (i % 100) as u8;
        out.extend_from_slice(&[b'S', b'0' + digits / 10, b'0' + digits % 10, 0]);
    }
}

fn longs(count: u32) -> Vec<u8> {
    let mut out = Vec::new();
    put_numbers(&mut out, 7, count, 1_000_003);
    out
}

fn digit(n: u32, place: u32) -> u8 {
    b'0' + (n / place % 10) as u8
}

fn short_symbols(count: u32) -> Vec<u8> {
    let mut out = Vec::new();
    put_head(&mut out, 11, count);
    for i in 0..count {
        out.extend_from_slice(&[b'S', digit(i, 100), digit(i, 10), digit(i, 1), 0]);
    }
    out
}

fn long_symbols(count: u32) -> Vec<u8> {
    let mut out = Vec::new();
    put_head(&mut out, 11, count);
    for i in 0..count {
        let more = (i.wrapping_mul(2_654_435_761) / 268_435_456) as usize;
        out.extend_from_slice(&[digit(i, 10_000), digit(i, 1_000), digit(i, 100), digit(i, 10), digit(i, 1)]);
        out.extend_from_slice(&[b'x'; 15][..more]);
        out.push(0);
    }
    out
}

const NAMES: &[u8] = b"b\0c\x0b\0\x04\0\0\0time\0sym\0price\0size\0";

fn trades(rows: u32) -> Vec<u8> {
    let mut out = NAMES.to_vec();
    put_head(&mut out, 0, 4);
    put_numbers(&mut out, 16, rows, 1_000_000);
    put_symbols(&mut out, rows);
    put_numbers(&mut out, 7, rows, 7);
    put_numbers(&mut out, 7, rows, 100);
    out
}

// The vector at the front of the bytes, and the bytes after it.
fn column_at(bytes: &[u8]) -> (Column, &[u8]) {
    let code = bytes[0];
    let count = u32::from_le_bytes([bytes[2], bytes[3], bytes[4], bytes[5]]) as usize;
    let mut rest = &bytes[6..];
    if code == 11 {
        let (mut text, mut ends) = (Vec::new(), Vec::new());
        for _ in 0..count {
            let end = rest.iter().position(|byte| *byte == 0).expect("a symbol ends");
            text.extend_from_slice(&rest[..end]);
            ends.push(text.len());
            rest = &rest[end + 1..];
        }
        return (Column::Symbols(text, ends), rest);
    }
    let cells = rest[..8 * count].chunks_exact(8);
    let items = cells.map(|cell| i64::from_le_bytes(cell.try_into().expect("eight bytes"))).collect();
    (Column::Longs(code, items), &rest[8 * count..])
}

fn columns_at(bytes: &[u8], count: usize) -> Vec<Column> {
    let mut rest = bytes;
    let mut columns = Vec::new();
    for _ in 0..count {
        let (column, after) = column_at(rest);
        columns.push(column);
        rest = after;
    }
    columns
}

fn put_column(out: &mut Vec<u8>, column: &Column) {
    match column {
        Column::Longs(code, items) => {
            put_head(out, *code, items.len() as u32);
            for item in items {
                out.extend_from_slice(&item.to_le_bytes());
            }
        }
        Column::Symbols(text, ends) => {
            put_head(out, 11, ends.len() as u32);
            let mut start = 0;
            for end in ends {
                out.extend_from_slice(&text[start..*end]);
                out.push(0);
                start = *end;
            }
        }
    }
}

// The object's bytes from its columns on are those after `front`.
fn report(name: &str, object: &[u8], front: &[u8], count: usize) {
    for _ in 0..ROUNDS {
        let start = Instant::now();
        let copy = black_box(object).to_vec();
        println!("{name} copy {} {}", start.elapsed().as_nanos(), copy.len());
        drop(black_box(copy));

        let start = Instant::now();
        let columns = black_box(columns_at(black_box(&object[front.len()..]), count));
        println!("{name} decode {} {}", start.elapsed().as_nanos(), object.len());

        let mut out = Vec::with_capacity(object.len());
        let start = Instant::now();
        out.extend_from_slice(front);
        for column in black_box(&columns) {
            put_column(&mut out, column);
        }
        println!("{name} encode {} {}", start.elapsed().as_nanos(), out.len());
        assert!(black_box(&out).as_slice() == object);
    }
}

fn main() {
    let words: Vec<u32> = std::env::args().skip(1).map(|word| word.parse().expect("a number")).collect();
    let front = trades(0).len() - 4 * 6;
    let table = trades(words[0]);
    report("table", &table, &table[..front], 4);
    report("longs", &longs(words[1]), &[], 1);
    report("short", &short_symbols(words[2]), &[], 1);
    report("long", &long_symbols(words[2]), &[], 1);
}
