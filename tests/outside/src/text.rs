//! Records written for a reader, as document 01 writes them: `I 0, F 1, T 0 0 1`.

/// A record that is none of these, or cut short, is written as its bytes.
pub fn written(bytes: &[u8]) -> String {
    bytes.chunks(4).map(record).collect::<Vec<_>>().join(", ")
}

fn record(bytes: &[u8]) -> String {
    match bytes {
        [b'I', q, 0, 0] => format!("I {q}"),
        [b'F', q, 0, 0] => format!("F {q}"),
        [b'T', p, x, q] => format!("T {p} {x} {q}"),
        other => {
            let hex: Vec<String> = other.iter().map(|byte| format!("{byte:02x}")).collect();
            format!("bytes {}", hex.join(" "))
        }
    }
}

/// The records of a text of that form; only for texts that stand in the tests themselves.
pub fn records(text: &str) -> Vec<u8> {
    text.split(',').flat_map(|record| spelled(record.trim())).collect()
}

fn spelled(record: &str) -> Vec<u8> {
    let words: Vec<&str> = record.split_whitespace().collect();
    let number = |i: usize| words[i].parse::<u8>().expect("a number of a record");
    match words.first() {
        None => vec![],
        Some(&"T") => vec![b'T', number(1), number(2), number(3)],
        Some(kind) => vec![kind.as_bytes()[0], number(1), 0, 0],
    }
}
