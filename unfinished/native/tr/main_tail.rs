use rstd::prelude::*;
use rstd::alloc::*;
use rstd::thread::HostRuntime;
struct Out;
impl std::io::Write for Out { fn write(&mut self, b: &[u8]) -> std::io::Result<usize> { std::io::stdout().write(b) } fn flush(&mut self) -> std::io::Result<()> { std::io::stdout().flush() } }
fn main() {
    let a = Global; let rt = HostRuntime;
    let mut s = ks_words::Settings { threads: 1, instances: 1, standbys: 0, interval: 100, chaos: None, stop: None, journal: false };
    let args: std::vec::Vec<std::string::String> = std::env::args().collect();
    let mut i = 1;
    while i < args.len() { match args[i].as_str() {
        "--journal" => s.journal = true,
        "--threads" => { i += 1; s.threads = args[i].parse().unwrap() }
        "--instances" => { i += 1; s.instances = args[i].parse().unwrap() }
        "--standbys" => { i += 1; s.standbys = args[i].parse().unwrap() }
        "--commit-every" => { i += 1; s.interval = args[i].parse().unwrap() }
        "--chaos" => { i += 1; s.chaos = Some(args[i].parse().unwrap()) }
        "--stop-after" => { i += 1; s.stop = Some(args[i].parse().unwrap()) }
        _ => {} } i += 1; }
    let mut gates: Vec<Box<dyn ks_edge::Gate + Send>> = Vec::new(a);
    for _ in 0..16 { gates.0.push(Box(std::boxed::Box::new(ks_edge::SteadyGate::new()) as std::boxed::Box<dyn ks_edge::Gate + Send>)); }
    let mut source = ks_edge::StdSource::new(std::io::stdin());
    let mut sink = ks_edge::StdSink::new(Out);
    let ended = ks_run::run_job::<ks_hash::Murmur3, _, _, _>(&rt, a, &s, &mut source, &mut sink, gates);
    use std::io::Write; std::io::stdout().flush().unwrap();
    std::process::exit(ended.status as i32)
}
