//! One table of a topic, or a count of its rows by a field (the one word), computed from a job's lines with no engine round it: what the
//! answers of `bench/growth`'s jobs cost by themselves. It prints what `streams run` prints. Stock Rust, for `bench/compare` alone.
use serde_json::Value;
use std::collections::BTreeMap;
use std::io::{self, BufRead, Write};

type Rows = BTreeMap<String, Value>;

fn read_rows(input: impl BufRead) -> io::Result<Rows> {
    let mut rows = Rows::new();
    for line in input.lines().skip(1) {
        let mut record: Value = serde_json::from_str(&line?)?;
        let key = record["key"].as_str().unwrap_or_default().to_string();
        match record["value"].take() {
            Value::Null => rows.remove(&key),
            row => rows.insert(key, row),
        };
    }
    Ok(rows)
}

fn write_table(out: &mut impl Write, rows: &Rows) -> io::Result<()> {
    writeln!(out, "table o {}", rows.len())?;
    for (key, row) in rows {
        writeln!(out, "[{},{row}]", Value::from(key.as_str()))?;
    }
    Ok(())
}

fn write_count(out: &mut impl Write, rows: &Rows, field: &str) -> io::Result<()> {
    let mut groups: BTreeMap<&str, i64> = BTreeMap::new();
    for group in rows.values().filter_map(|row| row[field].as_str()) {
        *groups.entry(group).or_default() += 1;
    }
    writeln!(out, "table g {}", groups.len())?;
    for (group, count) in &groups {
        writeln!(out, "[\"{group}\",{{\"count\":{count}}}]")?;
    }
    Ok(())
}

fn main() -> io::Result<()> {
    let rows = read_rows(io::stdin().lock())?;
    let mut out = io::BufWriter::new(io::stdout().lock());
    writeln!(out, "settled")?;
    match std::env::args().nth(1) {
        None => write_table(&mut out, &rows)?,
        Some(field) => write_count(&mut out, &rows, &field)?,
    }
    out.flush()
}
