use crate::rstd::prelude::*; use crate::rstd::alloc::*; use crate::rstd::sync::Wait;
use std::sync::{Mutex, Condvar}; use std::time::Duration;
pub trait Journaled { type Entry; type Frame; fn entries(&self) -> u64; }
pub struct Growing<T: Journaled> { value: Mutex<Option<T>>, free: Condvar }
pub struct Pass<T: Journaled> { _m: std::marker::PhantomData<fn() -> T> }
impl<T: Journaled> Growing<T> {
    pub fn new(a: Global, value: T, passes: u8) -> Result<(Growing<T>, Vec<Pass<T>>), AllocFailed<T>> { let mut v = Vec::new(a); for _ in 0..passes { v.0.push(Pass { _m: std::marker::PhantomData }); } Ok((Growing { value: Mutex::new(Some(value)), free: Condvar::new() }, v)) }
    pub fn enter<R: Wait>(&self, _rt: &R, _p: &mut Pass<T>) -> T { let mut g = self.value.lock().unwrap(); loop { if let Some(v) = g.take() { return v; } g = self.free.wait(g).unwrap(); } }
    pub fn leave(&self, _p: &mut Pass<T>, value: T) { *self.value.lock().unwrap() = Some(value); self.free.notify_one(); }
    pub fn rest<R: Wait>(&self, _rt: &R, longest: Duration) { std::thread::sleep(longest.min(Duration::from_millis(1))); }
    pub fn meet(&self, _p: &mut Pass<T>, _o: &mut Pass<T>) {}
    pub fn close(self, _p: Vec<Pass<T>>) -> T { self.value.into_inner().unwrap().unwrap() }
}
