//! The published Rust as a program that answers requests: see differential/README.md, "Requests and answers".
#![allow(dead_code, clippy::all)]
#[path = "../published/env.rs"]
mod env;
#[path = "../published/expr.rs"]
mod expr;
mod level; // published, with is_zero answering true for the kind zero alone
#[path = "../published/name.rs"]
mod name;
mod pool;
mod pretty_printer {
    include!("pretty_printer.rs"); // published, with one line added (the probe) and names as P1 has them
    pub mod dump {
        include!("dump.rs");
    }
}
mod probe;
mod relevance {
    pub struct Sig;
}
mod tc;
mod util; // verbatim ranges of the published file

use env::{ConstructorData, Declar, DeclarInfo, InductiveData, Notation, NotationMap, RecursorData, ReducibilityHint};
use expr::BinderStyle;
use pool::Pool;
use pretty_printer::PpOptions;
use std::io::{Read, Write};
use util::{new_fx_hash_map, new_fx_index_map, Config, Dag, ExportFile, ExprPtr, LevelPtr, LevelsPtr, NamePtr, TcCtx};

/// Added to the mode of a print: the operands of infix operators stand the other way round, as the Rust lists them, so that infix rows do not put the pool
/// outside the domain.
const TURNED: u32 = 16;

struct Request {
    mode: u32,
    root: u32,
    indent: u32,
    width: u32,
    bytes: Vec<u8>,
    words: Vec<u32>,
}

/// One request, its bytes as they stood in the file too; `None` at the end of the input.
fn read_request(r: &mut impl Read) -> Option<(Request, Vec<u8>)> {
    let mut raw = vec![0u8; 24];
    let mut got = 0;
    while got < 24 {
        match r.read(&mut raw[got..]).expect("read") {
            0 if got == 0 => return None,
            0 => panic!("request cut short"),
            n => got += n,
        }
    }
    assert!(&raw[..4] == b"PLQ1", "bad magic");
    let u = |b: &[u8], p: usize| u32::from_le_bytes(b[p..p + 4].try_into().unwrap());
    let (mode, root, indent, width) = (u(&raw, 4), u(&raw, 8), u(&raw, 12), u(&raw, 16));
    let nb = u(&raw, 20) as usize;
    raw.resize(24 + nb + 4, 0);
    r.read_exact(&mut raw[24..]).expect("byte area");
    let bytes = raw[24..24 + nb].to_vec();
    let nw = u(&raw, 24 + nb) as usize;
    let at = raw.len();
    raw.resize(at + 4 * nw, 0);
    r.read_exact(&mut raw[at..]).expect("words");
    let words = raw[at..].chunks(4).map(|c| u32::from_le_bytes(c.try_into().unwrap())).collect();
    Some((Request { mode, root, indent, width, bytes, words }, raw))
}

fn config(indent: u32, width: u32) -> Config {
    Config {
        export_file_path: None,
        use_stdin: false,
        permitted_axioms: None,
        permit_standard_axioms: false,
        unpermitted_axiom_hard_error: true,
        num_threads: 0,
        parse_only: false,
        nat_extension: true,
        string_extension: true,
        pp_declars: None,
        unknown_pp_declar_hard_error: true,
        pp_options: PpOptions {
            all: false,
            explicit: true,
            universes: false,
            notation: true,
            proofs: true,
            indent: indent as usize,
            width: width as usize,
            declar_sep: None,
        },
        pp_output_path: None,
        pp_to_stdout: false,
        print_success_message: false,
        print_axioms: false,
        unsafe_permit_all_axioms: false,
    }
}

struct Terms<'t> {
    names: Vec<Option<NamePtr<'t>>>,
    levels: Vec<Option<LevelPtr<'t>>>,
    exprs: Vec<Option<ExprPtr<'t>>>,
}

impl<'t> Terms<'t> {
    fn name<'p: 't>(&mut self, c: &mut TcCtx<'t, 'p>, p: &Pool<'t>, i: usize) -> Result<NamePtr<'t>, String> {
        if let Some(Some(n)) = self.names.get(i) { return Ok(*n) }
        let r = p.row(pool::N, i)?;
        if r[0] != 0 && r[1] as usize >= i { return Err("name prefix".into()) }
        let n = match r[0] {
            0 => c.anonymous(),
            1 => {
                let pfx = self.name(c, p, r[1] as usize)?;
                let s = c.alloc_string(std::borrow::Cow::Borrowed(p.string(r[2] as usize)?));
                c.str(pfx, s)
            }
            2 => {
                let pfx = self.name(c, p, r[1] as usize)?;
                c.num(pfx, r[2] as u64 | (r[3] as u64) << 32)
            }
            k => return Err(format!("name kind {}", k)),
        };
        self.names[i] = Some(n);
        Ok(n)
    }
    fn level<'p: 't>(&mut self, c: &mut TcCtx<'t, 'p>, p: &Pool<'t>, i: usize) -> Result<LevelPtr<'t>, String> {
        if let Some(Some(n)) = self.levels.get(i) { return Ok(*n) }
        let r = p.row(pool::L, i)?;
        let (a, b) = (r[1] as usize, r[2] as usize);
        if (matches!(r[0], 1..=3) && a >= i) || (matches!(r[0], 2 | 3) && b >= i) { return Err("level ref".into()) }
        let l = match r[0] {
            0 => c.zero(),
            1 => {
                let a = self.level(c, p, a)?;
                c.succ(a)
            }
            2 => {
                let a = self.level(c, p, a)?;
                let b = self.level(c, p, b)?;
                c.max(a, b)
            }
            3 => {
                let a = self.level(c, p, a)?;
                let b = self.level(c, p, b)?;
                c.imax(a, b)
            }
            4 => {
                let n = self.name(c, p, a)?;
                c.param(n)
            }
            k => return Err(format!("level kind {}", k)),
        };
        self.levels[i] = Some(l);
        Ok(l)
    }
    fn list<'p: 't>(&mut self, c: &mut TcCtx<'t, 'p>, p: &Pool<'t>, i: usize) -> Result<LevelsPtr<'t>, String> {
        let mut v = Vec::new();
        for l in p.list(i)? { v.push(self.level(c, p, *l as usize)?) }
        Ok(c.alloc_levels(&v)) // panics above 32,767 levels, as the Rust does
    }
    /// The notation rows by their names; equal name trees are one pointer.
    fn notations<'p: 't>(&mut self, c: &mut TcCtx<'t, 'p>, p: &Pool<'t>) -> Result<NotationMap<'t>, String> {
        let mut out: NotationMap<'t> = new_fx_hash_map();
        for i in 0..p.n[pool::T] {
            let r = p.row(pool::T, i)?;
            let n = self.name(c, p, r[0] as usize)?;
            let make = match r[1] {
                0 => Notation::new_prefix,
                1 => Notation::new_infix,
                2 => Notation::new_postfix,
                k => return Err(format!("notation kind {}", k)),
            };
            out.insert(n, make(n, r[2] as usize, p.string(r[3] as usize)?.into()));
        }
        Ok(out)
    }
    /// Rows reachable from `root` only, lowest first (a row's children are lower rows).
    fn expr<'p: 't>(&mut self, c: &mut TcCtx<'t, 'p>, p: &Pool<'t>, root: usize) -> Result<ExprPtr<'t>, String> {
        p.row(pool::E, root)?;
        let mut want = vec![false; root + 1];
        want[root] = true;
        for i in (0..=root).rev() {
            if !want[i] { continue }
            for k in Pool::kids(p.row(pool::E, i)?) {
                if *k as usize >= i { return Err("expression ref".into()) }
                want[*k as usize] = true;
            }
        }
        let style = |s: u32| {
            Ok::<_, String>(match s {
                0 => BinderStyle::Default,
                1 => BinderStyle::Implicit,
                2 => BinderStyle::StrictImplicit,
                3 => BinderStyle::InstanceImplicit,
                _ => return Err("style".into()),
            })
        };
        for i in 0..=root {
            if !want[i] || self.exprs[i].is_some() { continue }
            let r = p.row(pool::E, i)?;
            let x = |k: usize| self.exprs[r[k] as usize].unwrap();
            let e = match r[0] {
                0 => c.mk_var(u16::try_from(r[1]).map_err(|e| e.to_string())?),
                1 => {
                    let l = self.level(c, p, r[1] as usize)?;
                    c.mk_sort(l)
                }
                2 => {
                    let n = self.name(c, p, r[1] as usize)?;
                    let ls = self.list(c, p, r[2] as usize)?;
                    c.mk_const(n, ls)
                }
                3 => c.mk_app(x(1), x(2)),
                4 => {
                    let (t, b) = (x(3), x(4));
                    let n = self.name(c, p, r[1] as usize)?;
                    c.mk_pi(n, style(r[2])?, t, b)
                }
                5 => {
                    let (t, b) = (x(3), x(4));
                    let n = self.name(c, p, r[1] as usize)?;
                    c.mk_lambda(n, style(r[2])?, t, b)
                }
                6 => {
                    let (t, v, b) = (x(2), x(3), x(4));
                    let n = self.name(c, p, r[1] as usize)?;
                    c.mk_let(n, t, v, b, r[5] != 0)
                }
                7 => {
                    let s = x(3);
                    let n = self.name(c, p, r[1] as usize)?;
                    c.mk_proj(n, u16::try_from(r[2]).map_err(|e| e.to_string())?, s)
                }
                8 => {
                    let d = num_bigint::BigUint::from_canonical_digits(p.string(r[1] as usize)?).ok_or("digits")?;
                    c.mk_nat_lit_quick(d).unwrap()
                }
                9 => c.mk_string_lit_quick(std::borrow::Cow::Borrowed(p.string(r[1] as usize)?)).unwrap(),
                k => return Err(format!("expression kind {}", k)),
            };
            self.exprs[i] = Some(e);
        }
        Ok(self.exprs[root].unwrap())
    }
}

/// What is printed.
#[derive(Clone, Copy)]
enum Root<'t> {
    Expr(ExprPtr<'t>),
    Declar(NamePtr<'t>),
}

/// The declaration of a row, and its name.
fn declaration<'t, 'p: 't>(
    t: &mut Terms<'t>,
    c: &mut TcCtx<'t, 'p>,
    p: &Pool<'t>,
    d: &[u32],
) -> Result<(NamePtr<'t>, Declar<'t>), String> {
    let info = DeclarInfo {
        name: t.name(c, p, d[1] as usize)?,
        uparams: t.list(c, p, d[2] as usize)?,
        ty: t.expr(c, p, d[3] as usize)?,
    };
    let n = info.name;
    let val = if matches!(d[0], 2..=4) { t.expr(c, p, d[4] as usize)? } else { info.ty };
    let declar = match d[0] {
        0 => Declar::Axiom { info },
        1 => Declar::Quot { info },
        2 => Declar::Theorem { info, val },
        3 => Declar::Definition { info, val, hint: ReducibilityHint::Opaque },
        4 => Declar::Opaque { info, val },
        5 => Declar::Inductive(InductiveData {
            info,
            is_recursive: false,
            is_nested: false,
            num_params: 0,
            num_indices: 0,
            all_ind_names: Vec::new().into(),
            all_ctor_names: Vec::new().into(),
        }),
        6 => Declar::Constructor(ConstructorData {
            info,
            inductive_name: n,
            ctor_idx: 0,
            num_params: 0,
            num_fields: 0,
        }),
        7 => Declar::Recursor(RecursorData {
            info,
            all_inductives: Vec::new().into(),
            num_params: 0,
            num_indices: 0,
            num_motives: 0,
            num_minors: 0,
            rec_rules: Vec::new().into(),
            is_k: false,
        }),
        k => return Err(format!("declaration kind {}", k)),
    };
    Ok((n, declar))
}

struct Answer {
    listing: String,
    dump: Option<pretty_printer::dump::Dump>,
    infix: bool,
}

/// With ORACLE_PRINT_TIME set, writes to standard error how many nanoseconds of processor time the task took, less what asking for the time takes.
fn timed<T>(task: impl FnOnce() -> T) -> T {
    if std::env::var_os("ORACLE_PRINT_TIME").is_none() { return task() }
    let now = pretty_printer::dump::thread_nanos;
    let asking = (0..20).map(|_| { let t = now(); now() - t }).min().unwrap();
    let start = now();
    let result = task();
    eprintln!("print {}", (now() - start - asking).max(1));
    result
}

fn answer(q: &Request, doc: bool) -> Result<Answer, String> {
    if q.mode == 2 {
        let (listing, d) = pretty_printer::dump::render_rows(&q.bytes, &q.words, q.width as usize)?;
        return Ok(Answer { listing, dump: doc.then_some(d), infix: false });
    }
    let p = Pool::new(&q.bytes, &q.words)?;
    let cfg = config(q.indent, q.width);
    let decl = if q.mode % TURNED == 1 { Some(p.row(pool::D, q.root as usize)?) } else { None };

    let mut arena = stumpalo::Arena::new();
    arena.with_scope(|scope| {
        // as in Parser::with_input_len of the published parser.rs
        let mut dag = Dag::new(&cfg, 0);
        let anon = NamePtr::global(dag.names.intern(scope, name::Name::Anon));
        let zero = LevelPtr::global(dag.levels.intern(scope, level::Level::Zero));
        let name_cache = dag.mk_name_cache(anon);
        let ef1 = ExportFile {
            dag,
            anon,
            zero,
            declars: new_fx_index_map(),
            notations: new_fx_hash_map(),
            name_cache,
            config: cfg.clone(),
            mutual_block_sizes: new_fx_hash_map(),
        };
        let mut c1 = TcCtx::new(&ef1, scope);
        let mut t = Terms {
            names: vec![None; p.n[pool::N]],
            levels: vec![None; p.n[pool::L]],
            exprs: vec![None; p.n[pool::E]],
        };
        let notations = t.notations(&mut c1, &p)?;
        // the same terms, now with an environment that holds the notation, and the declaration if one is printed
        let mut declars = new_fx_index_map();
        let root = match decl {
            None => Root::Expr(t.expr(&mut c1, &p, q.root as usize)?),
            Some(d) => {
                let (n, declar) = declaration(&mut t, &mut c1, &p, d)?;
                declars.insert(n, declar);
                Root::Declar(n)
            }
        };
        let ef2 = ExportFile {
            dag: Dag::new(&cfg, 0),
            anon,
            zero,
            declars,
            notations,
            name_cache,
            config: cfg.clone(),
            mutual_block_sizes: new_fx_hash_map(),
        };
        let mut c2 = TcCtx::new(&ef2, scope);
        c2.dag = c1.dag;
        let bump = bumpalo::Bump::new();
        use pretty_printer::dump::{declar_doc, expr_doc, Dump};
        let listing = timed(|| c2.with_pp(&bump, |pp| match root {
            Root::Expr(e) => pp.pp_expr(e),
            Root::Declar(n) => pp.pp_declar(n).unwrap(),
        }));
        let dump = doc.then(|| c2.with_pp(&bump, |pp| match root {
            Root::Expr(e) => Dump::of(&expr_doc(pp, e)),
            Root::Declar(n) => Dump::of(&declar_doc(pp, n)),
        }));
        Ok(Answer { listing, dump, infix: p.has_infix() && q.mode < TURNED })
    })
}

/// Answers requests from stdin one by one; the printing thread has a stack of 1 GiB.
fn worker(doc: bool, time: bool) {
    std::panic::set_hook(Box::new(|i| eprintln!("{}", i)));
    let work = move || {
        let mut inp = std::io::BufReader::new(std::io::stdin().lock());
        let mut out = std::io::BufWriter::new(std::io::stdout().lock());
        while let Some((q, _)) = read_request(&mut inp) {
            probe::reset();
            let t0 = std::time::Instant::now();
            let r = std::panic::catch_unwind(|| answer(&q, doc)).unwrap_or_else(|_| Err("panic".into()));
            if time { eprintln!("{:?}", t0.elapsed()) }
            let (status, s, dump, infix) = match r {
                Ok(a) => (0u32, a.listing, a.dump, a.infix),
                Err(e) => {
                    eprintln!("unanswered: {}", e);
                    (1, String::new(), None, false)
                }
            };
            let dom = (probe::partitioned() && !infix) as u32;
            for w in [status, dom, s.len() as u32] { out.write_all(&w.to_le_bytes()).unwrap() }
            out.write_all(s.as_bytes()).unwrap();
            if doc {
                let d = dump.unwrap_or(pretty_printer::dump::Dump { rows: Vec::new(), text: Vec::new() });
                out.write_all(&(d.rows.len() as u32).to_le_bytes()).unwrap();
                for r in &d.rows {
                    for w in r { out.write_all(&w.to_le_bytes()).unwrap() }
                }
                out.write_all(&(d.text.len() as u32).to_le_bytes()).unwrap();
                out.write_all(&d.text).unwrap();
            }
            out.flush().unwrap();
        }
    };
    std::thread::Builder::new().stack_size(1 << 30).spawn(work).unwrap().join().unwrap();
}

/// Answer record as the worker wrote it; `None` when the worker is gone.
fn read_record(r: &mut impl Read, doc: bool) -> Option<Vec<u8>> {
    let mut v = vec![0u8; 12];
    r.read_exact(&mut v).ok()?;
    let mut more = |v: &mut Vec<u8>, n: usize| {
        let at = v.len();
        v.resize(at + n, 0);
        r.read_exact(&mut v[at..]).ok()
    };
    let u = |v: &[u8], p: usize| u32::from_le_bytes(v[p..p + 4].try_into().unwrap()) as usize;
    let n = u(&v, 8);
    more(&mut v, n)?;
    if doc {
        for size in [28, 1] {
            more(&mut v, 4)?;
            let n = u(&v, v.len() - 4);
            more(&mut v, size * n)?;
        }
    }
    Some(v)
}

fn env_num(k: &str, default: u64) -> u64 { std::env::var(k).ok().and_then(|s| s.parse().ok()).unwrap_or(default) }

type Worker = (std::process::Child, std::sync::mpsc::Receiver<Vec<u8>>);
fn spawn(doc: bool, time: bool) -> Worker {
    let mut c = std::process::Command::new(std::env::current_exe().unwrap());
    c.arg("--worker");
    if doc { c.arg("--doc"); }
    if time { c.arg("--time"); }
    let mut c = c.stdin(std::process::Stdio::piped()).stdout(std::process::Stdio::piped()).spawn().unwrap();
    let (tx, rx) = std::sync::mpsc::channel();
    let mut o = std::io::BufReader::new(c.stdout.take().unwrap());
    std::thread::spawn(move || {
        while let Some(v) = read_record(&mut o, doc) {
            if tx.send(v).is_err() { break }
        }
    });
    (c, rx)
}

fn main() {
    let (mut doc, mut time, mut work, mut path) = (false, false, false, None);
    for a in std::env::args().skip(1) {
        match a.as_str() {
            "--doc" => doc = true,
            "--time" => time = true,
            "--worker" => work = true,
            _ => path = Some(a),
        }
    }
    MAX_BYTES.store(env_num("ORACLE_MAX_BYTES", 3 << 30) as usize, std::sync::atomic::Ordering::Relaxed);
    if work { return worker(doc, time) }
    let timeout = std::time::Duration::from_millis(env_num("ORACLE_TIMEOUT_MS", 20_000));
    let mut input: Box<dyn Read> = match path {
        Some(p) if p != "-" => Box::new(std::io::BufReader::new(std::fs::File::open(p).expect("request file"))),
        _ => Box::new(std::io::BufReader::new(std::io::stdin())),
    };
    let mut out = std::io::BufWriter::new(std::io::stdout().lock());
    let mut w: Option<Worker> = None;
    let mut i = 0usize;
    while let Some((_, raw)) = read_request(&mut input) {
        let (c, rx) = w.get_or_insert_with(|| spawn(doc, time));
        let stdin = c.stdin.as_mut().unwrap();
        let rec = match stdin.write_all(&raw).and_then(|_| stdin.flush()) {
            Ok(()) => rx.recv_timeout(timeout).map_err(|e| e.to_string()),
            Err(e) => Err(e.to_string()),
        };
        match rec {
            Ok(v) => out.write_all(&v).unwrap(),
            Err(e) => {
                // no answer: out of time, of memory or of stack
                eprintln!("request {}: no answer ({})", i, e);
                let _ = c.kill();
                let _ = c.wait();
                w = None;
                for x in [2u32, 0, 0] { out.write_all(&x.to_le_bytes()).unwrap() }
                if doc { out.write_all(&[0; 8]).unwrap() }
            }
        }
        i += 1;
    }
    out.flush().unwrap();
    if let Some((mut c, _)) = w {
        drop(c.stdin.take());
        let _ = c.wait();
    }
}

/// Counts bytes, so that a shared term whose listing explodes ends the worker and not the machine.
struct Counting;
static MAX_BYTES: std::sync::atomic::AtomicUsize = std::sync::atomic::AtomicUsize::new(usize::MAX);
static BYTES: std::sync::atomic::AtomicUsize = std::sync::atomic::AtomicUsize::new(0);
extern "C" {
    fn _exit(code: i32) -> !;
}
unsafe impl std::alloc::GlobalAlloc for Counting {
    unsafe fn alloc(&self, l: std::alloc::Layout) -> *mut u8 {
        let n = BYTES.fetch_add(l.size(), std::sync::atomic::Ordering::Relaxed);
        if n > MAX_BYTES.load(std::sync::atomic::Ordering::Relaxed) { unsafe { _exit(9) } }
        unsafe { std::alloc::System.alloc(l) }
    }
    unsafe fn dealloc(&self, p: *mut u8, l: std::alloc::Layout) {
        BYTES.fetch_sub(l.size(), std::sync::atomic::Ordering::Relaxed);
        unsafe { std::alloc::System.dealloc(p, l) }
    }
}
#[global_allocator]
static ALLOC: Counting = Counting;
