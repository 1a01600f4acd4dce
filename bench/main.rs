//! Times every job of the verified library (crates/capi/out/libcapi.a) beside a plain hand-written implementation of the same
//! jobs (reference.rs) and beside a sorted array, on four lists of 4,096 admissions. Before anything is timed, the answers and
//! buffers of both implementations are compared on many sound and damaged images (compare.rs).
use std::collections::BTreeSet;
use std::fmt::Write as _;
use std::hint::black_box as bb;

use reference::{unweave, weave, Admission, Looked, Rect, LANES, MOST_BYTES};

mod compare;

type Scan = fn(&[u8], &mut [u32], u16, u16, u32, u32, u32, u32) -> i64;

type Edit = fn(&[u8], &[u32], u16, u16, &mut [u8], &mut [u32]) -> i64;

type Lookup = fn(&[u8], u16, u16, &mut [u32; 9]) -> i64;

/// One implementation of the jobs; an answer -n is question n's no.
struct Jobs {
    name: &'static str,
    write: fn(&[Admission], u32, &mut [u8]) -> i64,
    check: fn(&[u8]) -> i64,
    lift: fn(&[u8]) -> i64,
    lookup: Lookup,
    lookup8: Lookup,
    count: fn(&[u8], Rect) -> i64,
    list: fn(&[u8], Rect, &mut [u32]) -> i64,
    find: fn(&[u8], u32) -> i64,
    scan: Scan,
    add: Edit,
    withdraw: Edit,
    repair: fn(&[u8], &mut [u8]) -> i64,
    // compared, not timed
    write_keys: fn(&[u32], u32, &mut [u8]) -> i64,
    key: fn(u16, u16) -> i64,
    admission_of: fn(u32) -> i64,
}

fn answer<T>(r: Result<T, reference::No>, f: impl FnOnce(T) -> i64) -> i64 {
    match r {
        Ok(x) => f(x),
        Err(reference::No(n)) => -(n as i64),
    }
}

/// What a lookup found, with the nine places filled where the admission is listed, and the first where it is absent.
fn found(r: Result<Looked, reference::No>, o: &mut [u32; 9]) -> i64 {
    answer(r, |x| match x {
        Looked::Listed(f) => {
            o[0] = f.rank;
            o[1..].copy_from_slice(&f.pages);
            1
        }
        Looked::Absent(smaller) => {
            o[0] = smaller;
            0
        }
    })
}

fn hand_written() -> Jobs {
    Jobs {
        name: "hand-written",
        write: |l, lift, o| answer(reference::write(l, lift, o), |x| x as i64),
        check: |i| answer(reference::check(i), |x| x as i64),
        lift: |i| answer(reference::lift(i), |x| x as i64),
        lookup: |i, h, s, o| found(reference::lookup(i, h, s), o),
        lookup8: |i, h, s, o| found(reference::lookup8(i, h, s), o),
        count: |i, r| answer(reference::count(i, r), |x| x as i64),
        list: |i, r, k| answer(reference::list(i, r, k), |x| x as i64),
        find: |i, r| answer(reference::find_by_rank(i, r), |(h, s)| (h as i64) << 16 | s as i64),
        scan: |i, rec, h, s, t, l, lane, lift| answer(reference::scan(i, rec, h, s, t, l, lane, lift), |x| x as i64),
        add: |i, rec, h, s, o, q| answer(reference::edit::<true>(i, rec, h, s, o, q), |x| x as i64),
        withdraw: |i, rec, h, s, o, q| answer(reference::edit::<false>(i, rec, h, s, o, q), |x| x as i64),
        repair: |i, o| answer(reference::repair(i, o), |x| x as i64),
        write_keys: |k, lift, o| answer(reference::write(&admissions(k), lift, o), |x| x as i64),
        key: |h, s| weave(h, s) as i64,
        admission_of: |k| { let (h, s) = unweave(k); (h as i64) << 16 | s as i64 },
    }
}

fn admissions(keys: &[u32]) -> Vec<Admission> {
    keys.iter().map(|&k| { let (holder, slot) = unweave(k); Admission { holder, slot } }).collect()
}

extern "C" {
    fn lpt_write(list: *const Admission, n: usize, lift: u32, out: *mut u8, out_len: usize) -> i64;
    fn lpt_check(img: *const u8, len: usize) -> i64;
    fn lpt_lift(img: *const u8, len: usize) -> i64;
    fn lpt_lookup(img: *const u8, len: usize, holder: u16, slot: u16, out: *mut u32) -> i64;
    fn lpt_lookup8(img: *const u8, len: usize, holder: u16, slot: u16, out: *mut u32) -> i64;
    fn lpt_count(img: *const u8, len: usize, h0: u16, h1: u16, s0: u16, s1: u16) -> i64;
    fn lpt_list(img: *const u8, len: usize, h0: u16, h1: u16, s0: u16, s1: u16, keys: *mut u32, places: usize) -> i64;
    fn lpt_find(img: *const u8, len: usize, rank: u32) -> i64;
    fn lpt_scan(img: *const u8, len: usize, rec: *mut u32, rec_len: usize, holder: u16, slot: u16, time: u32, lockout: u32, lane: u32, lift: u32) -> i64;
    fn lpt_add(img: *const u8, len: usize, rec: *const u32, rec_len: usize, holder: u16, slot: u16, out: *mut u8, out_len: usize, out_rec: *mut u32, out_rec_len: usize) -> i64;
    fn lpt_withdraw(img: *const u8, len: usize, rec: *const u32, rec_len: usize, holder: u16, slot: u16, out: *mut u8, out_len: usize, out_rec: *mut u32, out_rec_len: usize) -> i64;
    fn lpt_repair(img: *const u8, len: usize, out: *mut u8, out_len: usize) -> i64;
    fn lpt_write_keys(keys: *const u32, n: usize, lift: u32, out: *mut u8, out_len: usize) -> i64;
    fn lpt_key(holder: u16, slot: u16) -> i64;
    fn lpt_admission_of(key: u32) -> i64;
}

fn verified() -> Jobs {
    Jobs {
        name: "verified",
        write: |l, lift, o| unsafe { lpt_write(l.as_ptr(), l.len(), lift, o.as_mut_ptr(), o.len()) },
        check: |i| unsafe { lpt_check(i.as_ptr(), i.len()) },
        lift: |i| unsafe { lpt_lift(i.as_ptr(), i.len()) },
        lookup: |i, h, s, o| unsafe { lpt_lookup(i.as_ptr(), i.len(), h, s, o.as_mut_ptr()) },
        lookup8: |i, h, s, o| unsafe { lpt_lookup8(i.as_ptr(), i.len(), h, s, o.as_mut_ptr()) },
        count: |i, q| unsafe { lpt_count(i.as_ptr(), i.len(), q.h0, q.h1, q.s0, q.s1) },
        list: |i, q, k| unsafe { lpt_list(i.as_ptr(), i.len(), q.h0, q.h1, q.s0, q.s1, k.as_mut_ptr(), k.len()) },
        find: |i, r| unsafe { lpt_find(i.as_ptr(), i.len(), r) },
        scan: |i, rec, h, s, t, l, lane, lift| unsafe { lpt_scan(i.as_ptr(), i.len(), rec.as_mut_ptr(), rec.len(), h, s, t, l, lane, lift) },
        add: |i, rec, h, s, o, q| unsafe { lpt_add(i.as_ptr(), i.len(), rec.as_ptr(), rec.len(), h, s, o.as_mut_ptr(), o.len(), q.as_mut_ptr(), q.len()) },
        withdraw: |i, rec, h, s, o, q| unsafe { lpt_withdraw(i.as_ptr(), i.len(), rec.as_ptr(), rec.len(), h, s, o.as_mut_ptr(), o.len(), q.as_mut_ptr(), q.len()) },
        repair: |i, o| unsafe { lpt_repair(i.as_ptr(), i.len(), o.as_mut_ptr(), o.len()) },
        write_keys: |k, lift, o| unsafe { lpt_write_keys(k.as_ptr(), k.len(), lift, o.as_mut_ptr(), o.len()) },
        key: |h, s| unsafe { lpt_key(h, s) },
        admission_of: |k| unsafe { lpt_admission_of(k) },
    }
}

// ---- lists

struct Rng(u64);

impl Rng {
    fn next(&mut self) -> u64 {
        self.0 ^= self.0 << 13;
        self.0 ^= self.0 >> 7;
        self.0 ^= self.0 << 17;
        self.0.wrapping_mul(0x2545_f491_4f6c_dd1d) >> 16
    }

    fn below(&mut self, n: u64) -> u64 {
        self.next() % n
    }
}

const N: usize = 4096;

/// The lift of the images that are timed.
const LIFT: u32 = 7;

struct Data {
    name: &'static str,
    keys: Vec<u32>,
    list: Vec<Admission>,
    img: Vec<u8>,
    hits: Vec<u32>,
    misses: Vec<u32>,
    shapes: Vec<(&'static str, Vec<Rect>)>,
}

fn data(name: &'static str, r: &mut Rng) -> Data {
    let mut set = BTreeSet::new();
    match name {
        "random" => {
            while set.len() < N {
                set.insert(r.next() as u32);
            }
        }
        // passes of 1 to 28 half-days in a season of 300, card numbers over the whole range
        "clustered" => {
            while set.len() < N {
                let h = r.next() as u16;
                let (a, len) = (r.below(300), 1 + r.below(28));
                for s in a..(a + len).min(300) {
                    if set.len() < N {
                        set.insert(weave(h, s as u16));
                    }
                }
            }
        }
        // passes of all 300 half-days of a season, the last one shorter; card numbers over the whole range
        "long passes" => {
            while set.len() < N {
                let h = r.next() as u16;
                set.extend((0..300.min(N - set.len())).map(|s| weave(h, s as u16)));
            }
        }
        _ => set.extend(0..N as u32),
    }
    let keys: Vec<u32> = set.iter().copied().collect();
    let list = admissions(&keys);
    let mut img = vec![0u8; MOST_BYTES];
    let n = reference::write(&list, LIFT, &mut img).unwrap();
    img.truncate(n);
    let pick = |r: &mut Rng| list[r.below(N as u64) as usize];
    let hits = (0..1024).map(|_| keys[r.below(N as u64) as usize]).collect();
    let mut misses = vec![];
    while misses.len() < 1024 {
        let k = match name {
            "random" => r.next() as u32,
            "clustered" => weave(pick(r).holder, r.below(300) as u16),
            "long passes" => weave(pick(r).holder, r.below(600) as u16),
            _ => weave(64 + r.below(64) as u16, r.below(64) as u16),
        };
        if !set.contains(&k) {
            misses.push(k);
        }
    }
    let mut shapes: Vec<(&'static str, Vec<Rect>)> = vec![("one slot", vec![]), ("one holder", vec![]), ("block of 10 %", vec![])];
    let (dh, ds) = match name { "random" => (3277, 3277), "clustered" | "long passes" => (3277, 15), _ => (10, 10) };
    for _ in 0..64 {
        let a = pick(r);
        shapes[0].1.push(Rect { h0: 0, h1: 65535, s0: a.slot, s1: a.slot });
        shapes[1].1.push(Rect { h0: a.holder, h1: a.holder, s0: 0, s1: 65535 });
        shapes[2].1.push(Rect {
            h0: a.holder.saturating_sub(dh), h1: a.holder.saturating_add(dh),
            s0: a.slot.saturating_sub(ds), s1: a.slot.saturating_add(ds),
        });
    }
    Data { name, keys, list, img, hits, misses, shapes }
}

/// The places of the numbers that a repair works out: key count, root counts, and T and B of each page.
fn number_places(bytes: usize) -> impl Iterator<Item = usize> {
    (0..9).map(|i| 6 + 4 * i).chain((1..bytes / 64).flat_map(|p| [64 * p, 64 * p + 2]))
}

// ---- a sorted array, for scale: it checks nothing

fn in_rect(keys: &[u32], q: Rect, mut each: impl FnMut(u32)) {
    const H: u32 = 0xaaaa_aaaa;
    const S: u32 = 0x5555_5555;
    let (lo, hi) = (weave(q.h0, q.s0), weave(q.h1, q.s1));
    let first = keys.partition_point(|&k| k < lo);
    for &k in keys[first..].iter().take_while(|&&k| k <= hi) {
        if (k & H >= lo & H) & (k & H <= hi & H) & (k & S >= lo & S) & (k & S <= hi & S) {
            each(k);
        }
    }
}

// ---- times

/// Processor time of this thread, in ns.
fn now() -> u64 {
    extern "C" {
        fn clock_gettime(id: i32, ts: *mut [i64; 2]) -> i32;
    }
    let mut ts = [0i64; 2];
    unsafe { clock_gettime(3, &mut ts) };
    ts[0] as u64 * 1_000_000_000 + ts[1] as u64
}

struct Case {
    by: &'static str,
    per: f64,
    f: Box<dyn FnMut() -> u64>,
    each: Vec<f64>,
}

struct Row {
    op: String,
    cases: Vec<Case>,
}

fn case(by: &'static str, per: usize, f: impl FnMut() -> u64 + 'static) -> Case {
    Case { by, per: per as f64, f: Box::new(f), each: vec![] }
}

/// Scans 32 listed cards, in the lanes in turn.
fn scans(scan: Scan, d: &Data, rec: &mut [u32], time: u32, lockout: u32) -> [i64; 32] {
    std::array::from_fn(|i| { let (h, s) = unweave(d.hits[i]); scan(bb(&d.img), rec, h, s, time, lockout, (i % LANES + 1) as u32, LIFT) })
}

fn rows(d: &'static Data, both: &[Jobs]) -> Vec<Row> {
    let mut rows: Vec<Row> = vec![];
    let img = &d.img[..];
    let mut add = |op: &str, mk: &dyn Fn(&Jobs) -> Case, sorted: Option<Case>| {
        let mut cases: Vec<Case> = both.iter().map(|j| mk(j)).collect();
        cases.extend(sorted);
        rows.push(Row { op: op.to_string(), cases });
    };
    add("write", &|j| { let (f, mut o) = (j.write, vec![0u8; MOST_BYTES]); case(j.name, 1, move || f(bb(&d.list), LIFT, &mut o) as u64) }, None);
    add("check", &|j| { let f = j.check; case(j.name, 1, move || f(bb(img)) as u64) },
        Some(case("sorted array", 1, move || bb(&d.keys).windows(2).all(|w| w[0] < w[1]) as u64)));
    add("lift", &|j| { let f = j.lift; case(j.name, 1, move || f(bb(img)) as u64) }, None);
    for (op, qs, eight) in [("lookup, listed", &d.hits, false), ("lookup, absent", &d.misses, false), ("by eight pages, listed", &d.hits, true), ("by eight pages, absent", &d.misses, true)] {
        add(op, &|j| { let f = if eight { j.lookup8 } else { j.lookup }; case(j.name, 32, move || { let mut o = [0; 9];
            qs[..32].iter().map(|&k| { let (h, s) = unweave(k); f(bb(img), h, s, &mut o) as u64 + o[0] as u64 }).sum() }) },
            Some(case("sorted array", 1024, move || qs.iter().map(|k| bb(&d.keys).binary_search(k).unwrap_or_else(|i| i) as u64).sum())));
    }
    add("find by rank", &|j| { let f = j.find; case(j.name, 32, move || (0..32).map(|k| f(bb(img), k * 127) as u64).sum()) },
        Some(case("sorted array", 1024, move || (0..1024).map(|k| bb(&d.keys)[k * 3] as u64).sum())));
    for (name, qs) in &d.shapes {
        add(&format!("count, {name}"), &|j| { let f = j.count; case(j.name, 32, move || qs[..32].iter().map(|&q| f(bb(img), q) as u64).sum()) },
            Some(case("sorted array", 32, move || qs[..32].iter().map(|&q| { let mut n = 0; in_rect(bb(&d.keys), q, |_| n += 1); n }).sum())));
        add(&format!("list, {name}"), &|j| { let (f, mut o) = (j.list, vec![0u32; N]); case(j.name, 32, move || qs[..32].iter().map(|&q| f(bb(img), q, &mut o) as u64).sum()) },
            Some(case("sorted array", 32, { let mut o = vec![0u32; N]; move || qs[..32].iter().map(|&q| { let mut n = 0; in_rect(bb(&d.keys), q, |k| { o[n] = k; n += 1; }); n as u64 }).sum() })));
    }
    let whole = Rect { h0: 0, h1: 65535, s0: 0, s1: 65535 };
    add("count, whole square", &|j| { let f = j.count; case(j.name, 1, move || f(bb(img), whole) as u64) },
        Some(case("sorted array", 1, move || bb(&d.keys).len() as u64)));
    add("list, whole square", &|j| { let (f, mut o) = (j.list, vec![0u32; N]); case(j.name, 1, move || f(bb(img), whole, &mut o) as u64) },
        Some(case("sorted array", 1, { let mut o = vec![0u32; N]; move || { o.copy_from_slice(bb(&d.keys)); bb(&o)[7] as u64 } })));
    add("scan that opens", &|j| { let (f, mut rec, mut t) = (j.scan, vec![0u32; N + LANES], 0u32);
        assert!(scans(f, d, &mut rec, t, 0).iter().all(|&x| x >= 0));
        case(j.name, 32, move || { t += 1; rec[N..].fill(0); scans(f, d, &mut rec, t, 0).iter().sum::<i64>() as u64 }) }, None);
    // every admission opened at 1000
    add("scan, locked out", &|j| { let (f, mut rec) = (j.scan, [vec![1001u32; N], vec![0; LANES]].concat());
        assert_eq!(scans(f, d, &mut rec, 1200, 600), [-26; 32]);
        case(j.name, 32, move || scans(f, d, &mut rec, 1200, 600).iter().sum::<i64>() as u64) }, None);
    // a sale into all admissions but the last, and a withdrawal from all
    let less = d.list[..N - 1].to_vec();
    for (op, list, qs, sale) in [("add", less, &d.misses, true), ("withdraw", d.list.clone(), &d.hits, false)] {
        let mut img = vec![0u8; MOST_BYTES];
        let size = (both[0].write)(&list, LIFT, &mut img) as usize;
        img.truncate(size);
        let rec = vec![5u32; list.len() + LANES];
        add(op, &|j| { let (f, img, rec, mut o, mut q) = (if sale { j.add } else { j.withdraw }, img.clone(), rec.clone(), vec![0u8; MOST_BYTES], vec![0u32; N + LANES]);
            case(j.name, 4, move || qs[..4].iter().map(|&k| { let (h, s) = unweave(k); let x = f(bb(&img), bb(&rec), h, s, &mut o, &mut q); assert!(x > 0); x as u64 }).sum()) }, None);
    }
    let mut lost = d.img.clone();
    for at in number_places(img.len()) {
        lost[at..at + 2].fill(0xff);
    }
    for (op, img, altered) in [("repair, sound", d.img.clone(), 0), ("repair, all heads lost", lost, number_places(img.len()).count() as i64)] {
        add(op, &|j| { let (f, img, mut o) = (j.repair, img.clone(), vec![0u8; MOST_BYTES]);
            assert_eq!(f(&img, &mut o), altered);
            case(j.name, 1, move || f(bb(&img), &mut o) as u64) }, None);
    }
    rows
}

fn median(v: &[f64]) -> f64 {
    let mut v = v.to_vec();
    v.sort_by(f64::total_cmp);
    v[v.len() / 2]
}

fn num(x: f64) -> String {
    if x < 10.0 { format!("{x:.2}") } else if x < 100.0 { format!("{x:.1}") } else { format!("{x:.0}") }
}

fn main() {
    let rounds: usize = std::env::var("ROUNDS").ok().and_then(|s| s.parse().ok()).unwrap_or(41);
    let both = [hand_written(), verified()];
    let mut r = Rng(0x5eed);
    let ds: &'static [Data] = Vec::leak(["random", "clustered", "dense", "long passes"].iter().map(|n| data(n, &mut r)).collect());
    println!("{} answers and buffers compared, all equal", compare::compare(ds, &both[0], &both[1]));
    for d in ds {
        let mut rows = rows(d, &both);
        let mut turns: Vec<Vec<usize>> = vec![];
        for row in rows.iter_mut() {
            turns.push(row.cases.iter_mut().map(|c| {
                bb((c.f)());
                let t = now();
                bb((c.f)());
                (200_000.0 / ((now() - t) as f64).max(20.0)).ceil() as usize
            }).collect());
        }
        // every round times every case once, so that a busy neighbour slows both sides of a ratio
        for _ in 0..rounds {
            for (row, turns) in rows.iter_mut().zip(&turns) {
                for (c, &n) in row.cases.iter_mut().zip(turns) {
                    bb((c.f)());
                    let t = now();
                    for _ in 0..n {
                        bb((c.f)());
                    }
                    c.each.push((now() - t) as f64 / (n as f64 * c.per));
                }
            }
        }
        println!("\n{}: {} admissions in {} bytes ({} pages); ns for one job, and the ratio to hand-written (median of {} rounds)", d.name, N, d.img.len(), d.img.len() / 64 - 1, rounds);
        println!("{:<24}{:>14}{:>14}{:>8}{:>16}", "", "hand-written", "verified", "ratio", "sorted array");
        for row in &rows {
            let ratios: Vec<f64> = row.cases[1].each.iter().zip(&row.cases[0].each).map(|(x, y)| x / y).collect();
            let mut line = format!("{:<24}{:>14}{:>14}{:>8.2}", row.op, num(median(&row.cases[0].each)), num(median(&row.cases[1].each)), median(&ratios));
            if let Some(c) = row.cases.get(2) {
                write!(line, "{:>16}", num(median(&c.each))).unwrap();
            }
            println!("{line}");
            assert!(row.cases[0].by == "hand-written" && row.cases[1].by == "verified");
        }
    }
}
