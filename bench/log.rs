// A log's work as loops in Rust: updates encoded as records and written once each, and the records decoded into columns. One
// line for each: the rows of an update, the name of the loop, its nanoseconds and a number. Each is run once, in fresh memory.
use std::hint::black_box;
use std::time::Instant;

const OPENING: &[u8] = b"\0\0\x03\0\0\0\xf5upd\0\xf5trade\0\0\0\x04\0\0\0";

const KINDS: [u8; 4] = [16, 11, 7, 7];

enum Column {
    Longs(u8, Vec<i64>),
    Symbols(Vec<[u8; 8]>),
}

struct Update {
    by: u64,
    columns: Vec<Column>,
}

fn trades(rows: usize) -> Update {
    let columns = vec![
        Column::Longs(16, vec![34_200_000_000_000; rows]),
        Column::Symbols(vec![*b"KX\0\0\0\0\0\0"; rows]),
        Column::Longs(7, vec![10_050; rows]),
        Column::Longs(7, vec![200; rows]),
    ];
    Update { by: 1, columns }
}

fn put_head(out: &mut Vec<u8>, code: u8, count: usize) {
    out.extend_from_slice(&[code, 0]);
    out.extend_from_slice(&(count as u32).to_le_bytes());
}

fn put_column(out: &mut Vec<u8>, column: &Column) {
    match column {
        Column::Longs(code, items) => {
            put_head(out, *code, items.len());
            out.extend(items.iter().flat_map(|item| item.to_le_bytes()));
        }
        Column::Symbols(items) => {
            put_head(out, 11, items.len());
            for item in items {
                let end = item.iter().position(|byte| *byte == 0).unwrap_or(8);
                out.extend_from_slice(&item[..end]);
                out.push(0);
            }
        }
    }
}

// The record of an update: its length, its bytes and a closed gate.
fn record(out: &mut Vec<u8>, update: &Update) {
    out.clear();
    out.extend_from_slice(&[0; 4]);
    out.extend_from_slice(&update.by.to_le_bytes());
    out.extend_from_slice(OPENING);
    for column in &update.columns {
        put_column(out, column);
    }
    let size = (out.len() - 4) as u32;
    out[..4].copy_from_slice(&size.to_le_bytes());
    out.push(0);
}

fn log(update: &Update, count: u32) -> Vec<u8> {
    let mut file = b"qtplant1\0".to_vec();
    let mut buffer = Vec::new();
    for _ in 0..count {
        record(&mut buffer, update);
        let gate = file.len() - 1;
        file.extend_from_slice(&buffer);
        file[gate] = 0xa5;
    }
    file
}

fn spans(file: &[u8]) -> Vec<(usize, usize)> {
    let mut found = Vec::new();
    let mut at = 8;
    while file[at] == 0xa5 {
        let size = u32::from_le_bytes(file[at + 1..at + 5].try_into().unwrap()) as usize;
        found.push((at + 5, size));
        at += size + 5;
    }
    found
}

fn column<'a>(bytes: &'a [u8], kind: u8) -> Option<(Column, &'a [u8])> {
    let (head, rest) = bytes.split_at_checked(6)?;
    if head[0] != kind || head[1] != 0 {
        return None;
    }
    let count = u32::from_le_bytes(head[2..].try_into().unwrap()) as usize;
    if kind == 11 {
        let mut items = Vec::with_capacity(count.min(rest.len()));
        let mut rest = rest;
        for _ in 0..count {
            let end = rest.iter().position(|byte| *byte == 0)?;
            let mut item = [0; 8];
            item.get_mut(..end)?.copy_from_slice(&rest[..end]);
            items.push(item);
            rest = &rest[end + 1..];
        }
        return Some((Column::Symbols(items), rest));
    }
    let (body, rest) = rest.split_at_checked(8 * count)?;
    let items = body.chunks_exact(8).map(|item| i64::from_le_bytes(item.try_into().unwrap()));
    Some((Column::Longs(kind, items.collect()), rest))
}

fn update(payload: &[u8]) -> Option<Update> {
    let (by, rest) = payload.split_first_chunk::<8>()?;
    let mut rest = rest.strip_prefix(OPENING)?;
    let mut columns = Vec::with_capacity(4);
    for kind in KINDS {
        let (found, after) = column(rest, kind)?;
        columns.push(found);
        rest = after;
    }
    if !rest.is_empty() {
        return None;
    }
    Some(Update { by: u64::from_le_bytes(*by), columns })
}

fn replay(file: &[u8], spans: &[(usize, usize)]) -> Option<Vec<Update>> {
    let mut found = Vec::with_capacity(spans.len());
    for (start, size) in spans {
        found.push(update(&file[*start..][..*size])?);
    }
    Some(found)
}

fn main() {
    let arguments: Vec<usize> = std::env::args().skip(1).map(|word| word.parse().unwrap()).collect();
    let (count, rows) = (arguments[0] as u32, arguments[1]);
    let made = trades(rows);
    let start = Instant::now();
    let file = log(black_box(&made), count);
    println!("{rows} log {} {}", start.elapsed().as_nanos(), file.len());
    let start = Instant::now();
    let copy = file.clone();
    let found = spans(&copy);
    println!("{rows} load {} {}", start.elapsed().as_nanos(), found.len());
    let start = Instant::now();
    let updates = replay(&copy, &found).unwrap();
    println!("{rows} replay {} {}", start.elapsed().as_nanos(), black_box(updates).len());
}
