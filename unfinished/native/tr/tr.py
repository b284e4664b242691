#!/usr/bin/env python3
"""Rattle sources as plain Rust over a small shim: for type errors and tries. tr.py CLONE OUT"""
import os, re, sys, shutil
clone, out = sys.argv[1], sys.argv[2]
CRATES = "ks_row ks_hash ks_wire ks_history ks_store ks_log ks_txn ks_group ks_cluster ks_standby ks_commit ks_expr ks_plan ks_topo ks_query ks_table_ops ks_agg ks_window ks_fk_left ks_fk_right ks_task_nodes ks_task_step ks_assign ks_assign_group ks_task ks_settle ks_settle_tables ks_settle_report ks_job_record ks_job_topology ks_job ks_journal ks_edge ks_shared ks_worker_client ks_worker_commit ks_worker_state ks_worker_turn ks_worker_acts ks_worker ks_run_workers ks_job_source ks_run_output ks_run ks_words ks_growing".split()

def match(s, i):
    """index past the bracket that closes s[i]"""
    pairs = {"{": "}", "[": "]", "(": ")"}
    o, c = s[i], pairs[s[i]]
    d = 0
    while i < len(s):
        if s[i] == o: d += 1
        elif s[i] == c:
            d -= 1
            if d == 0: return i + 1
        i += 1
    raise Exception("unbalanced")

def strip(s):
    res = []
    i = 0
    n = len(s)
    at_line = True
    while i < n:
        if at_line:
            m = re.compile(r"[ \t]*").match(s, i)
            j = m.end()
            if s.startswith("//", j):
                e = s.find("\n", j); e = n if e < 0 else e + 1
                res.append(s[i:e]); i = e; continue
            if s.startswith("ghost use", j):
                i = s.index(";", j) + 1; at_line = False; continue
            m2 = re.compile(r"(pub )?ghost \w+").match(s, j)
            if m2:
                b = s.index("{", j); e = match(s, b)
                if s[e:e+1] in ";,": e += 1
                i = e; at_line = False; continue
            m2 = re.compile(r"(requires|ensures)\*?( \w+)? \{").match(s, j)
            if m2:
                e = match(s, m2.end() - 1)
                i = e; at_line = False; continue
            if s.startswith("#[tactic", j) or s.startswith("#![tactic", j):
                i = match(s, s.index("[", j)); at_line = False; continue
            m2 = re.compile(r"impl(<[^\n]*?>)? Model for ").match(s, j)
            if m2:
                i = match(s, s.index("{", j)); at_line = False; continue
        ch = s[i]
        res.append(ch)
        at_line = ch == "\n"
        i += 1
    return "".join(res)

def derive(m):
    items = [x.strip() for x in m.group(1).split(",")]
    keep = [x for x in items if x not in ("Drop", "Error", "Debug")]
    if "Clone" in keep and "Copy" not in keep: keep.remove("Clone")
    return "#[derive(" + ", ".join(keep) + ")]" if keep else ""

def convert(name, s, root):
    s = strip(s)
    s = re.sub(r"^(\s*)///", r"\1//", s, flags=re.M)
    s = re.sub(r"#\[derive\(([^)]*)\)\]", derive, s)
    s = re.sub(r"#\[error\([^\n]*\)\]", "", s)
    s = re.sub(r"\bcrate::", f"crate::{name}::", s)
    s = re.sub(r"(?<![\w:])(ks_\w+)::", lambda m: f"crate::{m.group(1)}::" if m.group(1) in CRATES else m.group(0), s)
    s = s.replace(f"crate::crate::", "crate::")
    s = re.sub(r"crate::ks_\w+::crate::", "crate::", s)
    s = s.replace("crate__rstd", "crate::rstd")
    # use lines
    s = re.sub(r"^use std::alloc::", "use crate::rstd::alloc::", s, flags=re.M)
    s = re.sub(r"^use std::marker::Model;", "", s, flags=re.M)
    s = re.sub(r"^use std::collections::", "use crate::rstd::collections::", s, flags=re.M)
    s = re.sub(r"^use std::sync::atomic::", "use std::sync::atomic::", s, flags=re.M)
    s = re.sub(r"^use std::sync::(?!atomic)", "use crate::rstd::sync::", s, flags=re.M)
    s = s.replace("use std::fmt::Write;", "use crate::rstd::fmt::Write;")
    s = re.sub(r"^use std::thread\b", "use crate::rstd::thread", s, flags=re.M)
    s = re.sub(r"^use std::\{mem, thread\};", "use std::mem; use crate::rstd::thread;", s, flags=re.M)
    for k in ("arrayvec", "bytes", "serde_json", "memchr", "rand_core", "rand_pcg"):
        s = re.sub(rf"^use {k}::", f"use crate::rstd::{k}::", s, flags=re.M)
    s = re.sub(r"^use thiserror::Error;", "", s, flags=re.M)
    s = re.sub(r"impl(<[^>]*>)? Clone for", r"impl\1 RClone for", s)
    s = s.replace(".to_string(alloc)", ".r_to_string(alloc)")
    s = s.replace("format!(in alloc; ", "rformat!(")
    s = re.sub(r"vec!\[in alloc; ", "crate::rvec![", s)
    if name == "ks_words": s = s.replace("write!(", "crate::rwrite!(")
    if name == "ks_row" and "pub enum Field {" in s: s += "impl RClone for Field { fn clone(&self) -> Result<Field, AllocError> { match self { Field::Int(n) => Ok(Field::Int(*n)), Field::Text(t) => Ok(Field::Text(t.clone()?)) } } }"
    if name == "ks_job_record" and "pub enum JobKind {" in s: s += "impl RClone for JobKind { fn clone(&self) -> Result<JobKind, AllocError> { Ok(match self { JobKind::TooMany { what, limit } => JobKind::TooMany { what: what.clone()?, limit: *limit }, JobKind::NotJson => JobKind::NotJson, JobKind::BadShape { member } => JobKind::BadShape { member: member.clone()? }, JobKind::BadNumber { member } => JobKind::BadNumber { member: member.clone()? }, JobKind::UnknownTopic { topic } => JobKind::UnknownTopic { topic: topic.clone()? }, JobKind::LineTooLong => JobKind::LineTooLong, JobKind::NoTopology => JobKind::NoTopology }) } }"
    if name == "ks_job" and "pub struct JobFault {" in s: s += "impl RClone for JobFault { fn clone(&self) -> Result<JobFault, AllocError> { Ok(JobFault { line: self.line, kind: self.kind.clone()? }) } }"
    head = "#![allow(unused, dead_code)]\n" if root else ""
    return "#[allow(unused_imports)] use crate::rstd::prelude::*;\n" + s

shutil.rmtree(out + "/src", ignore_errors=True); os.makedirs(out + "/src")
for c in CRATES:
    os.makedirs(f"{out}/src/{c}")
    if c == "ks_growing":
        open(f"{out}/src/{c}/mod.rs", "w").write(open(os.path.dirname(os.path.abspath(__file__)) + "/growing.rs").read()); continue
    names = []
    for d, _, fs in os.walk(f"{clone}/crates/{c}/src"):
        names += [os.path.relpath(d + "/" + f, f"{clone}/crates/{c}/src") for f in fs if f.endswith(".rt")]
    for f in names:
        if c == "ks_words" and f in ("parser.rt", "words.rt"): continue
        os.makedirs(os.path.dirname(f"{out}/src/{c}/{f}"), exist_ok=True)
        s = open(f"{clone}/crates/{c}/src/{f}").read()
        if c == "ks_words" and f == "lib.rt": s = s.replace("mod parser;\n", "").replace("mod words;\n", "").replace("pub use words::read_words;", "pub fn read_words(_a: Global, _w: &[String]) -> Result<Option<Command>, AllocError> { Ok(None) } use crate__rstd::alloc::{Global, AllocError};")
        t = convert(c, s, f == "lib.rt")
        # inner docs must come first
        docs = "".join(l for l in t.splitlines(True) if l.startswith("//!"))
        t = "".join(l for l in t.splitlines(True) if not l.startswith("//!"))
        open(f"{out}/src/{c}/{'mod.rs' if f == 'lib.rt' else f[:-3] + '.rs'}", "w").write(t)
here = os.path.dirname(os.path.abspath(__file__))
shutil.copy(here + "/rstd.rs", out + "/src/rstd.rs")
mods = "".join(f"mod {c};\n" for c in CRATES)
open(out + "/src/main.rs", "w").write("#![allow(unused, dead_code)]\n#[macro_use]\nmod rstd;\n" + mods + open(here + "/main_tail.rs").read())
open(out + "/Cargo.toml", "w").write('[package]\nname = "engine"\nversion = "0.0.0"\nedition = "2024"\n[profile.release]\nopt-level = 2\ndebug = 1\noverflow-checks = true\ncodegen-units = 16\n')
