use rstd::prelude::*;
use rstd::alloc::*;
use rstd::thread::HostRuntime;
use std::io::{Read, Write};
fn run(text: &[u8]) -> Result<(), AllocError> {
    let a = Global; let rt = HostRuntime;
    let mut reader = ks_job::JobReader::new(a);
    let mut items = Vec::new(a);
    if reader.feed(text, &mut items)?.is_err() { println!("bad job"); return Ok(()); }
    if reader.finish(&mut items)?.is_err() { println!("bad job"); return Ok(()); }
    let mut all = items.into_iter();
    let Some(ks_job::JobItem::Topology { draft, .. }) = all.next() else { println!("no topology"); return Ok(()) };
    let topology = match ks_topo::Topology::build(a, draft)? { Ok(t) => t, Err(_) => { println!("bad topology"); return Ok(()) } };
    let mut counts = Vec::new(a);
    for info in topology.topics() { counts.push(info.parts)?; }
    let work = ks_task::TaskWork::<ks_hash::Murmur3>::new(&topology, None);
    let mut cluster = ks_cluster::Cluster::new(a, work, counts, Vec::from_slice(a, topology.tasks())?)?;
    for item in all { if let ks_job::JobItem::Input { topic, rec } = item {
        let part = match key_of(&rec) { Some(k) => topology.place(topic, k), None => 0 };
        cluster.produce(a, ks_row::PartId { topic, part }, &rec)?;
    } }
    ks_settle::drain::<ks_hash::Murmur3, _, _>(&rt, a, &topology, &mut cluster)?;
    let rep = ks_settle_report::report::<ks_hash::Murmur3, _, _>(&rt, a, &cluster, &topology)?;
    let mut out = std::vec::Vec::new();
    let tables = ks_settle_tables::tables(&rt, a, &topology, &cluster)?;
    if rep.collision.is_some() { out.extend_from_slice(b"collided\n"); }
    else if rep.late == 0 { out.extend_from_slice(b"settled\n"); } else { out.extend_from_slice(format!("late {}\n", rep.late).as_bytes()); }
    out.extend_from_slice(ks_query::printed(a, &tables)?.as_slice());
    if std::env::args().nth(1).as_deref() == Some("--journal") { let mut t = Vec::new(a); ks_journal::push_journal(&mut t, cluster.journal())?; out.extend_from_slice(&t); }
    std::io::stdout().write_all(&out).unwrap();
    std::process::exit(0)
}
fn main() { let mut t = std::vec::Vec::new(); std::io::stdin().read_to_end(&mut t).unwrap(); run(&t).unwrap(); }
