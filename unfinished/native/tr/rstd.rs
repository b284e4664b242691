// A shim of the kit's std.
pub mod alloc {
    #[derive(Clone, Copy, Debug, PartialEq, Eq)]
    pub struct Global;
    #[derive(Clone, Copy, Debug, PartialEq, Eq)]
    pub struct AllocError;
    pub struct AllocFailed<T> { pub value: T }
    impl<T> From<AllocFailed<T>> for AllocError { fn from(_: AllocFailed<T>) -> AllocError { AllocError } }
}
use alloc::*;
pub trait RClone: Sized { fn clone(&self) -> Result<Self, AllocError>; }
impl<T: Copy> RClone for T { fn clone(&self) -> Result<T, AllocError> { Ok(*self) } }
pub trait Drop {}
impl<T: ?Sized> Drop for T {}
pub struct Vec<T>(pub std::vec::Vec<T>);
impl<T> std::ops::Deref for Vec<T> { type Target = [T]; fn deref(&self) -> &[T] { &self.0 } }
impl<T> std::ops::DerefMut for Vec<T> { fn deref_mut(&mut self) -> &mut [T] { &mut self.0 } }
impl<T> Vec<T> {
    pub fn new(_a: Global) -> Vec<T> { Vec(std::vec::Vec::new()) }
    pub fn with_capacity(_a: Global, n: usize) -> Result<Vec<T>, AllocError> { Ok(Vec(std::vec::Vec::with_capacity(n))) }
    pub fn from_slice(_a: Global, s: &[T]) -> Result<Vec<T>, AllocError> where T: RClone { let mut v = std::vec::Vec::with_capacity(s.len()); for x in s { v.push(RClone::clone(x)?); } Ok(Vec(v)) }
    pub fn push(&mut self, x: T) -> Result<(), AllocError> { self.0.push(x); Ok(()) }
    pub fn push_reserved(&mut self, x: T) { self.0.push(x) }
    pub fn reserve(&mut self, n: usize) -> Result<(), AllocError> { self.0.reserve(n); Ok(()) }
    pub fn insert(&mut self, i: usize, x: T) -> Result<(), AllocError> { self.0.insert(i, x); Ok(()) }
    pub fn extend_from_slice(&mut self, s: &[T]) -> Result<(), AllocError> where T: Copy { self.0.extend_from_slice(s); Ok(()) }
    pub fn append(&mut self, o: &mut Vec<T>) -> Result<(), AllocError> { self.0.append(&mut o.0); Ok(()) }
    pub fn truncate(&mut self, n: usize) { self.0.truncate(n) }
    pub fn clear(&mut self) { self.0.clear() }
    pub fn pop(&mut self) -> Option<T> { self.0.pop() }
    pub fn remove(&mut self, i: usize) -> T { self.0.remove(i) }
    pub fn as_slice(&self) -> &[T] { &self.0 }
    pub fn as_mut_slice(&mut self) -> &mut [T] { &mut self.0 }
    pub fn shrink_to_fit(&mut self) { self.0.shrink_to_fit() }
    pub fn resize(&mut self, n: usize, x: T) -> Result<(), AllocError> where T: Copy { self.0.resize(n, x); Ok(()) }
    pub fn retain<F: FnMut(&T) -> bool>(&mut self, f: F) { self.0.retain(f) }
    pub fn sort_by<F: FnMut(&T, &T) -> std::cmp::Ordering>(&mut self, f: F) -> Result<(), AllocError> { self.0.sort_by(f); Ok(()) }
    pub fn clone(&self) -> Result<Vec<T>, AllocError> where T: RClone { Vec::from_slice(Global, &self.0) }
    pub fn split_off(&mut self, n: usize) -> Result<Vec<T>, AllocError> { Ok(Vec(self.0.split_off(n))) }
    pub fn into_iter(self) -> std::vec::IntoIter<T> { self.0.into_iter() }
    pub fn allocator(&self) -> Global { Global }
}
impl<T> IntoIterator for Vec<T> { type Item = T; type IntoIter = std::vec::IntoIter<T>; fn into_iter(self) -> Self::IntoIter { self.0.into_iter() } }
impl<'a, T> IntoIterator for &'a Vec<T> { type Item = &'a T; type IntoIter = std::slice::Iter<'a, T>; fn into_iter(self) -> Self::IntoIter { self.0.iter() } }
impl<T: PartialEq> PartialEq for Vec<T> { fn eq(&self, o: &Self) -> bool { self.0 == o.0 } }
impl<T: Eq> Eq for Vec<T> {}
impl<T: PartialOrd> PartialOrd for Vec<T> { fn partial_cmp(&self, o: &Self) -> Option<std::cmp::Ordering> { self.0.partial_cmp(&o.0) } }
impl<T: Ord> Ord for Vec<T> { fn cmp(&self, o: &Self) -> std::cmp::Ordering { self.0.cmp(&o.0) } }
impl<T: std::hash::Hash> std::hash::Hash for Vec<T> { fn hash<H: std::hash::Hasher>(&self, h: &mut H) { self.0.hash(h) } }
impl<T> std::borrow::Borrow<[T]> for Vec<T> { fn borrow(&self) -> &[T] { &self.0 } }
pub struct String(pub std::string::String);
impl std::ops::Deref for String { type Target = str; fn deref(&self) -> &str { &self.0 } }
impl String {
    pub fn new(_a: Global) -> String { String(std::string::String::new()) }
    pub fn from_str(_a: Global, s: &str) -> Result<String, AllocError> { Ok(String(s.into())) }
    pub fn push_str(&mut self, s: &str) -> Result<(), AllocError> { self.0.push_str(s); Ok(()) }
    pub fn push(&mut self, c: char) -> Result<(), AllocError> { self.0.push(c); Ok(()) }
    pub fn as_str(&self) -> &str { &self.0 }
    pub fn into_bytes(self) -> Vec<u8> { Vec(self.0.into_bytes()) }
    pub fn clone(&self) -> Result<String, AllocError> { Ok(String(self.0.clone())) }
    pub fn len(&self) -> usize { self.0.len() }
}
impl PartialEq for String { fn eq(&self, o: &Self) -> bool { self.0 == o.0 } }
impl Eq for String {}
impl PartialOrd for String { fn partial_cmp(&self, o: &Self) -> Option<std::cmp::Ordering> { self.0.partial_cmp(&o.0) } }
impl Ord for String { fn cmp(&self, o: &Self) -> std::cmp::Ordering { self.0.cmp(&o.0) } }
impl std::fmt::Display for String { fn fmt(&self, f: &mut std::fmt::Formatter<'_>) -> std::fmt::Result { f.write_str(&self.0) } }
pub trait RToString { fn r_to_string(&self, a: Global) -> Result<String, AllocError>; }
impl<T: std::fmt::Display> RToString for T { fn r_to_string(&self, _a: Global) -> Result<String, AllocError> { Ok(String(std::format!("{}", self))) } }
pub struct Box<T: ?Sized>(pub std::boxed::Box<T>);
impl<T: ?Sized> std::ops::DerefMut for Box<T> { fn deref_mut(&mut self) -> &mut T { &mut self.0 } }
impl<T> Box<T> { pub fn new(_a: Global, x: T) -> Result<Box<T>, AllocError> { Ok(Box(std::boxed::Box::new(x))) } }
impl<T: ?Sized> std::ops::Deref for Box<T> { type Target = T; fn deref(&self) -> &T { &self.0 } }
#[macro_export]
macro_rules! rformat { ($($t:tt)*) => { Ok::<crate::rstd::String, crate::rstd::alloc::AllocError>(crate::rstd::String(std::format!($($t)*))) } }
#[macro_export]
macro_rules! rvec { ($x:expr; $n:expr) => { Ok::<crate::rstd::Vec<_>, crate::rstd::alloc::AllocError>(crate::rstd::Vec(std::vec![$x; $n])) } }
#[macro_export]
macro_rules! rwrite { ($o:expr, $($t:tt)*) => { { $o.0.push_str(&std::format!($($t)*)); Ok::<(), crate::rstd::alloc::AllocError>(()) } } }
#[macro_export]
macro_rules! prove { ($($t:tt)*) => {} }
pub mod prelude { pub use super::{RClone, Drop, Vec, String, RToString, Box}; }
pub mod collections {
    use super::{alloc::*, Vec};
    use std::hash::Hash;
    pub struct HashMap<K, V>(std::collections::HashMap<K, V>);
    impl<V> HashMap<Vec<u8>, V> {
        pub fn new(_a: Global) -> Self { HashMap(std::collections::HashMap::new()) }
        pub fn get(&self, k: &[u8]) -> Option<&V> { self.0.get(k) }
        pub fn get_mut(&mut self, k: &[u8]) -> Option<&mut V> { self.0.get_mut(k) }
        pub fn contains_key(&self, k: &[u8]) -> bool { self.0.contains_key(k) }
        pub fn insert(&mut self, k: Vec<u8>, v: V) -> Result<Option<V>, AllocError> { Ok(self.0.insert(k, v)) }
        pub fn remove(&mut self, k: &[u8]) -> Option<V> { self.0.remove(k) }
        pub fn len(&self) -> usize { self.0.len() }
    }
    impl<'a, K, V> IntoIterator for &'a HashMap<K, V> { type Item = (&'a K, &'a V); type IntoIter = std::collections::hash_map::Iter<'a, K, V>; fn into_iter(self) -> Self::IntoIter { self.0.iter() } }
    pub struct BTreeMap<K, V>(pub std::collections::BTreeMap<K, V>);
    impl<K: Ord, V> BTreeMap<K, V> {
        pub fn new(_a: Global) -> Self { BTreeMap(std::collections::BTreeMap::new()) }
        pub fn get<Q: Ord + ?Sized>(&self, k: &Q) -> Option<&V> where K: std::borrow::Borrow<Q> { self.0.get(k) }
        pub fn insert(&mut self, k: K, v: V) -> Result<Option<V>, AllocError> { Ok(self.0.insert(k, v)) }
        pub fn remove<Q: Ord + ?Sized>(&mut self, k: &Q) -> Option<V> where K: std::borrow::Borrow<Q> { self.0.remove(k) }
        pub fn len(&self) -> usize { self.0.len() }
        pub fn range<'a>(&'a self, r: std::ops::RangeFrom<&K>) -> std::collections::btree_map::Range<'a, K, V> { self.0.range::<K, _>((std::ops::Bound::Included(r.start), std::ops::Bound::Unbounded)) }
        pub fn iter(&self) -> std::collections::btree_map::Iter<'_, K, V> { self.0.iter() }
    }
    impl<'a, K, V> IntoIterator for &'a BTreeMap<K, V> { type Item = (&'a K, &'a V); type IntoIter = std::collections::btree_map::Iter<'a, K, V>; fn into_iter(self) -> Self::IntoIter { self.0.iter() } }
    pub struct VecDeque<T>(std::collections::VecDeque<T>);
    impl<T> VecDeque<T> {
        pub fn new(_a: Global) -> Self { VecDeque(std::collections::VecDeque::new()) }
        pub fn from_vec(v: Vec<T>) -> Self { VecDeque(v.0.into()) }
        pub fn front(&self) -> Option<&T> { self.0.front() }
        pub fn pop_front(&mut self) -> Option<T> { self.0.pop_front() }
        pub fn push_back(&mut self, x: T) -> Result<(), AllocError> { self.0.push_back(x); Ok(()) }
        pub fn reserve(&mut self, n: usize) -> Result<(), AllocError> { self.0.reserve(n); Ok(()) }
        pub fn len(&self) -> usize { self.0.len() }
        pub fn is_empty(&self) -> bool { self.0.is_empty() }
        pub fn iter(&self) -> std::collections::vec_deque::Iter<'_, T> { self.0.iter() }
    }
}
pub mod sync {
    use super::alloc::*;
    pub struct Arc<T, A>(std::sync::Arc<T>, std::marker::PhantomData<A>);
    impl<T, A> Arc<T, A> {
        pub fn new(_a: A, x: T) -> Result<Self, AllocFailed<T>> { Ok(Arc(std::sync::Arc::new(x), std::marker::PhantomData)) }
        pub fn try_clone(o: &Self) -> Result<Self, AllocError> { Ok(Arc(o.0.clone(), std::marker::PhantomData)) }
    }
    impl<T, A> std::ops::Deref for Arc<T, A> { type Target = T; fn deref(&self) -> &T { &self.0 } }
    pub trait Wait { fn forever(&self) -> std::ops::RangeFrom<u64> { 0.. } }
}
pub mod thread {
    use super::{alloc::*, Vec};
    pub trait Threads {}
    pub struct HostRuntime;
    impl Threads for HostRuntime {}
    impl super::sync::Wait for HostRuntime {}
    pub fn join<R, A: Send, B: Send>(_rt: &R, f: impl FnOnce() -> A + Send, g: impl FnOnce() -> B + Send) -> (A, B) { std::thread::scope(|s| { let t = s.spawn(f); let b = g(); (t.join().unwrap(), b) }) }
    pub fn join_mut<R, A: Send, B: Send>(_rt: &R, f: &mut (impl FnMut() -> A + Send), g: &mut impl FnMut() -> B) -> (A, B) { std::thread::scope(|s| { let t = s.spawn(|| f()); let b = g(); (t.join().unwrap(), b) }) }
    pub fn for_each_mut<R, T: Send>(_rt: &R, v: &mut [T], n: usize, f: &(impl Fn(usize, &mut T) + Sync)) {
        if v.is_empty() { return; }
        let n = n.max(1); let each = v.len().div_ceil(n);
        std::thread::scope(|s| { for (k, c) in v.chunks_mut(each).enumerate() { s.spawn(move || { for (i, x) in c.iter_mut().enumerate() { f(k * each + i, x) } }); } })
    }
    pub fn map_vec<R, T: Send, U: Send>(_rt: &R, v: Vec<T>, f: &(impl Fn(T) -> U + Sync)) -> Vec<U> { Vec(v.0.into_iter().map(|x| f(x)).collect()) }
}
pub mod fmt { pub trait Write {} impl<T> Write for T {} }
pub mod rand_core { pub trait SeedableRng { fn seed_from_u64(s: u64) -> Self; } pub mod utils { pub trait NextWord { fn next_word(&mut self) -> u32; } } }
pub mod rand_pcg {
    pub struct Lcg64Xsh32 { s: u64, i: u64 }
    impl super::rand_core::SeedableRng for Lcg64Xsh32 { fn seed_from_u64(s: u64) -> Self { let mut x = s.wrapping_mul(0x9E3779B97F4A7C15).wrapping_add(0x1234567); x ^= x >> 31; Lcg64Xsh32 { s: x, i: (s << 1) | 1 } } }
    impl super::rand_core::utils::NextWord for Lcg64Xsh32 { fn next_word(&mut self) -> u32 { let o = self.s; self.s = o.wrapping_mul(6364136223846793005).wrapping_add(self.i); let x = (((o >> 18) ^ o) >> 27) as u32; x.rotate_right((o >> 59) as u32) } }
}
pub mod arrayvec {
    #[derive(Clone, Copy)]
    pub struct ArrayVec<T, const N: usize> { n: u8, a: [T; N] }
    pub struct CapacityError;
    impl<const N: usize> ArrayVec<u8, N> {
        pub fn new() -> Self { ArrayVec { n: 0, a: [0; N] } }
        pub fn try_extend_from_slice(&mut self, s: &[u8]) -> Result<(), CapacityError> { let k = self.n as usize; if s.len() > N - k { return Err(CapacityError); } self.a[k..k + s.len()].copy_from_slice(s); self.n += s.len() as u8; Ok(()) }
        pub fn as_slice(&self) -> &[u8] { &self.a[..self.n as usize] }
        pub fn len(&self) -> usize { self.n as usize }
    }
    #[derive(Clone, Copy)]
    pub struct ArrayString<const N: usize> { v: ArrayVec<u8, N> }
    impl<const N: usize> ArrayString<N> {
        pub fn from(s: &str) -> Result<Self, CapacityError> { let mut v = ArrayVec::new(); v.try_extend_from_slice(s.as_bytes())?; Ok(ArrayString { v }) }
        pub fn as_str(&self) -> &str { unsafe { std::str::from_utf8_unchecked(self.v.as_slice()) } }
    }
}
pub mod bytes {
    use super::{alloc::*, Vec};
    pub struct Bytes(std::sync::Arc<[u8]>);
    impl Bytes {
        pub fn from_vec(v: Vec<u8>) -> Result<Bytes, AllocFailed<Vec<u8>>> { Ok(Bytes(v.0.into())) }
        pub fn copy_from_slice(_a: Global, s: &[u8]) -> Result<Bytes, AllocError> { Ok(Bytes(s.into())) }
        pub fn clone(&self) -> Result<Bytes, AllocError> { Ok(Bytes(self.0.clone())) }
        pub fn as_slice(&self) -> &[u8] { &self.0 }
    }
}
pub mod memchr { pub fn memchr(b: u8, s: &[u8]) -> Option<usize> { s.iter().position(|x| *x == b) } }
pub mod serde_json {
    use super::{alloc::*, Vec, String};
    pub struct Map<K, V>(pub std::collections::BTreeMap<K, V>);
    impl<V> Map<String, V> {
        pub fn new(_a: Global) -> Self { Map(std::collections::BTreeMap::new()) }
        pub fn insert(&mut self, k: String, v: V) -> Result<Option<V>, AllocError> { Ok(self.0.insert(k, v)) }
        pub fn get(&self, k: &str) -> Option<&V> { self.0.iter().find(|x| x.0.as_str() == k).map(|x| x.1) }
        pub fn len(&self) -> usize { self.0.len() }
        pub fn is_empty(&self) -> bool { self.0.is_empty() }
        pub fn iter(&self) -> std::collections::btree_map::Iter<'_, String, V> { self.0.iter() }
        pub fn contains_key(&self, k: &str) -> bool { self.get(k).is_some() }
    }
    impl<'a, K, V> IntoIterator for &'a Map<K, V> { type Item = (&'a K, &'a V); type IntoIter = std::collections::btree_map::Iter<'a, K, V>; fn into_iter(self) -> Self::IntoIter { self.0.iter() } }
    #[derive(Clone, Copy)]
    pub struct Number(pub i128, pub bool);
    impl Number { pub fn as_i64(&self) -> Option<i64> { if self.1 { i64::try_from(self.0).ok() } else { None } } pub fn is_f64(&self) -> bool { !self.1 } pub fn as_u64(&self) -> Option<u64> { if self.1 { u64::try_from(self.0).ok() } else { None } } }
    pub enum Value { Null, Bool(bool), Number(Number), String(String), Array(Vec<Value>), Object(Map<String, Value>) }
    pub mod value { pub use super::{Map, Value, Number}; }
    impl From<i64> for Value { fn from(n: i64) -> Value { Value::Number(Number(n as i128, true)) } }
    impl From<u64> for Value { fn from(n: u64) -> Value { Value::Number(Number(n as i128, true)) } }
    pub struct Error;
    impl Error { pub fn is_memory(&self) -> bool { false } }
    impl Value {
        pub fn get(&self, k: &str) -> Option<&Value> { match self { Value::Object(m) => m.get(k), _ => None } }
        pub fn as_object(&self) -> Option<&Map<String, Value>> { match self { Value::Object(m) => Some(m), _ => None } }
        pub fn as_array(&self) -> Option<&Vec<Value>> { match self { Value::Array(m) => Some(m), _ => None } }
        pub fn as_str(&self) -> Option<&str> { match self { Value::String(m) => Some(m.as_str()), _ => None } }
        pub fn as_number(&self) -> Option<&Number> { match self { Value::Number(m) => Some(m), _ => None } }
        pub fn as_i64(&self) -> Option<i64> { self.as_number()?.as_i64() }
        pub fn as_bool(&self) -> Option<bool> { match self { Value::Bool(b) => Some(*b), _ => None } }
        pub fn is_null(&self) -> bool { matches!(self, Value::Null) }
        pub fn try_from_str(_a: Global, t: &str) -> Result<Value, AllocError> { Ok(Value::String(String(t.into()))) }
        pub fn from_str(_a: Global, t: &str) -> Result<Value, Error> { let mut p = P { s: t.as_bytes(), i: 0 }; let v = p.value()?; p.ws(); if p.i == p.s.len() { Ok(v) } else { Err(Error) } }
    }
    struct P<'a> { s: &'a [u8], i: usize }
    impl<'a> P<'a> {
        fn ws(&mut self) { while self.i < self.s.len() && b" \t\r\n".contains(&self.s[self.i]) { self.i += 1 } }
        fn eat(&mut self, b: u8) -> Result<(), Error> { self.ws(); if self.s.get(self.i) == Some(&b) { self.i += 1; Ok(()) } else { Err(Error) } }
        fn peek(&mut self) -> u8 { self.ws(); *self.s.get(self.i).unwrap_or(&0) }
        fn string(&mut self) -> Result<std::string::String, Error> {
            self.eat(b'"')?; let mut o = std::vec::Vec::new();
            loop { match *self.s.get(self.i).ok_or(Error)? {
                b'"' => { self.i += 1; return std::string::String::from_utf8(o).map_err(|_| Error) }
                b'\\' => { let c = *self.s.get(self.i + 1).ok_or(Error)?; self.i += 2; match c { b'n' => o.push(10), b't' => o.push(9), b'r' => o.push(13), b'u' => { let h = std::str::from_utf8(&self.s[self.i..self.i+4]).map_err(|_| Error)?; let n = u32::from_str_radix(h, 16).map_err(|_| Error)?; self.i += 4; let mut b = [0; 4]; o.extend_from_slice(char::from_u32(n).ok_or(Error)?.encode_utf8(&mut b).as_bytes()); } c => o.push(c) } }
                c => { o.push(c); self.i += 1 } } } }
        fn value(&mut self) -> Result<Value, Error> {
            match self.peek() {
                b'{' => { self.i += 1; let mut m = Map::new(Global); if self.peek() == b'}' { self.i += 1; return Ok(Value::Object(m)); } loop { self.ws(); let k = self.string()?; self.eat(b':')?; let v = self.value()?; m.0.insert(String(k), v); if self.peek() == b',' { self.i += 1 } else { self.eat(b'}')?; return Ok(Value::Object(m)) } } }
                b'[' => { self.i += 1; let mut m = Vec::new(Global); if self.peek() == b']' { self.i += 1; return Ok(Value::Array(m)); } loop { m.0.push(self.value()?); if self.peek() == b',' { self.i += 1 } else { self.eat(b']')?; return Ok(Value::Array(m)) } } }
                b'"' => Ok(Value::String(String(self.string()?))),
                b't' => { self.i += 4; Ok(Value::Bool(true)) } b'f' => { self.i += 5; Ok(Value::Bool(false)) } b'n' => { self.i += 4; Ok(Value::Null) }
                _ => { let b = self.i; while self.i < self.s.len() && b"-+.eE0123456789".contains(&self.s[self.i]) { self.i += 1 } let t = std::str::from_utf8(&self.s[b..self.i]).map_err(|_| Error)?; if let Ok(n) = t.parse::<i128>() { Ok(Value::Number(Number(n, true))) } else { t.parse::<f64>().map_err(|_| Error)?; Ok(Value::Number(Number(0, false))) } }
            } }
    }
    fn esc(f: &mut std::fmt::Formatter<'_>, s: &str) -> std::fmt::Result { write!(f, "\"")?; for c in s.chars() { match c { '"' => write!(f, "\\\"")?, '\\' => write!(f, "\\\\")?, '\n' => write!(f, "\\n")?, '\t' => write!(f, "\\t")?, '\r' => write!(f, "\\r")?, c if (c as u32) < 32 => write!(f, "\\u{:04x}", c as u32)?, c => write!(f, "{c}")? } } write!(f, "\"") }
    impl std::fmt::Display for Value { fn fmt(&self, f: &mut std::fmt::Formatter<'_>) -> std::fmt::Result { match self {
        Value::Null => write!(f, "null"), Value::Bool(b) => write!(f, "{b}"), Value::Number(n) => write!(f, "{}", n.0), Value::String(s) => esc(f, s.as_str()),
        Value::Array(a) => { write!(f, "[")?; for (i, x) in a.0.iter().enumerate() { if i > 0 { write!(f, ",")? } write!(f, "{x}")? } write!(f, "]") }
        Value::Object(m) => { write!(f, "{{")?; for (i, (k, x)) in m.0.iter().enumerate() { if i > 0 { write!(f, ",")? } esc(f, k.as_str())?; write!(f, ":{x}")? } write!(f, "}}") } } } }
}
