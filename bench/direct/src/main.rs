//! The load job's two tables computed from its lines by hash maps, with no engine round them: what the answer costs by itself. The
//! topology's line is passed over. It prints what `streams run` prints. Stock Rust, for `bench/compare` alone.
use serde_json::Value;
use std::collections::{BTreeMap, HashMap};
use std::io::{self, BufRead, Write};

/// The amount and the number of a region's orders.
#[derive(Default)]
struct Total {
    sum: i64,
    count: i64,
}

/// The present orders, each with its customer and its amount, and the present customers with their regions.
#[derive(Default)]
struct Tables {
    orders: HashMap<String, (String, i64)>,
    customers: HashMap<String, String>,
}

fn text(value: &Value) -> String {
    value.as_str().unwrap_or_default().to_string()
}

impl Tables {
    fn take_order(&mut self, key: String, row: &Value) {
        if row.is_null() {
            self.orders.remove(&key);
        } else {
            self.orders.insert(key, (text(&row["cust"]), row["amt"].as_i64().unwrap_or_default()));
        }
    }

    fn take_customer(&mut self, key: String, row: &Value) {
        if row.is_null() {
            self.customers.remove(&key);
        } else {
            self.customers.insert(key, text(&row["region"]));
        }
    }

    fn read(input: impl BufRead) -> io::Result<Tables> {
        let mut tables = Tables::default();
        for line in input.lines().skip(1) {
            let record: Value = serde_json::from_str(&line?)?;
            let key = text(&record["key"]);
            if record["topic"] == "orders" {
                tables.take_order(key, &record["value"]);
            } else {
                tables.take_customer(key, &record["value"]);
            }
        }
        Ok(tables)
    }

    fn totals(&self) -> BTreeMap<&str, Total> {
        let mut totals: BTreeMap<&str, Total> = BTreeMap::new();
        for (customer, amount) in self.orders.values() {
            if let Some(region) = self.customers.get(customer) {
                let total = totals.entry(region).or_default();
                total.sum = total.sum.wrapping_add(*amount);
                total.count += 1;
            }
        }
        totals
    }
}

fn main() -> io::Result<()> {
    let tables = Tables::read(io::stdin().lock())?;
    let totals = tables.totals();
    let mut out = io::BufWriter::new(io::stdout().lock());
    writeln!(out, "settled\ntable totals {}", totals.len())?;
    for (region, total) in &totals {
        writeln!(out, "[\"{region}\",{{\"sum\":{}}}]", total.sum)?;
    }
    writeln!(out, "table orders_per_region {}", totals.len())?;
    for (region, total) in &totals {
        writeln!(out, "[\"{region}\",{{\"count\":{}}}]", total.count)?;
    }
    out.flush()
}
