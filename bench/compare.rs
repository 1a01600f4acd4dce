//! Compares the answers of two implementations, and the buffers that they leave, on sound and damaged images.
use std::collections::{BTreeMap, BTreeSet};

use reference::{unweave, weave, Admission, LANES, MOST_BYTES};

use crate::{number_places, Data, Jobs, Rng};

/// The lanes of a gate, and six numbers that are none; the last two would be lanes if they were cut to 8 or 16 bits.
fn lanes() -> impl Iterator<Item = u32> {
    (1..=LANES as u32).chain([0, 9, 255, 1 << 31, 256 + 1, 65536 + 8])
}

/// What came up among the scans and the lookups.
#[derive(Default)]
struct Seen {
    /// lane and answer, 0 for an opening
    lanes: BTreeSet<(u32, i64)>,
    /// of holders with several admissions: the answer by the card's own record alone, by the others' alone, and the answer
    holders: BTreeMap<(i64, i64, i64), usize>,
    /// what the eight-page lookup answered where the full one refused
    eight: BTreeMap<i64, usize>,
    /// absent admissions of sound images: before the first key, between two, and after the last
    absent: [usize; 3],
    /// whether it was a sale, and the answer, 0 for one that was done
    edits: BTreeMap<(bool, i64), usize>,
    /// what was damaged, and the answer, 1 for any number altered
    repairs: BTreeMap<(&'static str, i64), usize>,
}

impl Seen {
    fn assert_all(&self) {
        // each lane opened and got each refusal of a scan but 29; each other number got 36 and 29
        for lane in lanes() {
            for x in if lane.wrapping_sub(1) < LANES as u32 { &[0, -36, -21, -22, -23, -24, -25, -26][..] } else { &[-36, -29][..] } {
                assert!(self.lanes.contains(&(lane, *x)), "no scan in lane {lane} that gives {x}");
            }
        }
        // another record decided where the own one would open, and the own one where the others would
        for by in [(0, -25, -25), (0, -26, -26), (-25, 0, -25), (-26, 0, -26)] {
            let n = self.holders.get(&by).copied().unwrap_or(0);
            assert!(n >= 100, "{n} scans that give, by the own record, by the others and by all, {by:?}");
        }
        // beside the damage, into it, and past the last page or number
        for x in [1, 0, -9, -10, -11, -27, -28] {
            let n = self.eight.get(&x).copied().unwrap_or(0);
            assert!(n >= 10, "{n} eight-page lookups that give {x} where the full one refuses");
        }
        // done, and refused by the records, the list and the outputs; 14 is asked of a sale alone
        for (sale, answers) in [(true, &[0, -21, -30, -14, -17][..]), (false, &[0, -21, -30, -17][..])] {
            for x in answers {
                let n = self.edits.get(&(sale, *x)).copied().unwrap_or(0);
                assert!(n >= 4, "{n} edits, sale {sale}, that give {x}");
            }
        }
        assert!(!self.edits.contains_key(&(false, -14)), "a withdrawal that gives 14");
        // refused for the output's length whatever the damage; for the kept bytes only where one of them is damaged
        for (damaged, answers) in [("nothing", &[0, -17][..]), ("numbers", &[1, -17][..]), ("nodes", &[0, 1, -37, -17][..]), ("packing", &[-37, -17][..]), ("header", &[0, -37, -17][..]), ("anything", &[0, 1, -37, -17][..])] {
            for x in answers {
                let n = self.repairs.get(&(damaged, *x)).copied().unwrap_or(0);
                assert!(n >= 10, "{n} repairs, damaged {damaged}, that give {x}");
            }
        }
        assert!(self.absent.iter().all(|&n| n >= 10), "absent before, between and after the keys: {:?}", self.absent);
    }
}

/// What 25 and 26 give for that record: 0 for a yes to both.
fn by_record(record: u32, time: u32, lockout: u32) -> i64 {
    let (last, now) = (record as u64, time as u64 + 1);
    if last == 0 || last + lockout as u64 <= now { 0 } else if last <= now { -26 } else { -25 }
}

/// A card's own record, and the largest of the holder's other admissions if there are any, by a look at the whole list.
fn own_and_others(list: &[Admission], records: &[u32], k: Admission) -> (u32, Option<u32>) {
    let largest = |own| list.iter().zip(records).filter(|(a, _)| a.holder == k.holder && (a.slot == k.slot) == own).map(|(_, &x)| x).max();
    (largest(true).unwrap_or(0), largest(false))
}

/// A gate: its image, the list that was written, whether no byte of it was damaged, and the gate's lift.
struct Gate<'a> {
    img: &'a [u8],
    list: &'a [Admission],
    sound: bool,
    lift: u32,
}

/// Records and counts by chance; now and then the length is wrong, or the lane's or another lane's count is the largest.
fn records(list: &[Admission], k: Admission, lane: u32, r: &mut Rng) -> Vec<u32> {
    let keys = list.len();
    let more = match r.below(12) { 0 => 1, 1 => LANES - 1, 2 => LANES + 1, _ => LANES };
    // one of 2, of 32 or of 512 is not 0, so that a holder's largest is now the card's own, now another, now 0
    let one_of = 2 << (4 * r.below(3));
    let mut u: Vec<u32> = (0..keys + more).map(|_| if r.below(one_of) > 0 { 0 } else { r.below(2000) as u32 }).collect();
    if let Some(rank) = list.iter().position(|x| *x == k) {
        u[rank] = match r.below(3) { 0 => 0, 1 => r.below(2000) as u32, _ => u[rank] };
    }
    let at = match r.below(6) { 0 => lane.wrapping_sub(1) as usize, 1 => lane as usize % LANES, _ => LANES };
    if at < LANES.min(more) {
        u[keys + at] = u32::MAX;
    }
    u
}

/// One scan in that lane, with time, lockout and records by chance.
fn compare_scan(g: &Gate, k: Admission, lane: u32, r: &mut Rng, a: &Jobs, b: &Jobs, seen: &mut Seen) {
    let mut u = records(g.list, k, lane, r);
    let mut v = u.clone();
    let (own, others) = own_and_others(g.list, &u, k);
    let (t, l) = (if r.below(20) == 0 { u32::MAX } else { r.below(3000) as u32 }, r.below(900) as u32);
    let (x, y) = ((a.scan)(g.img, &mut u, k.holder, k.slot, t, l, lane, g.lift), (b.scan)(g.img, &mut v, k.holder, k.slot, t, l, lane, g.lift));
    assert!(x == y && u == v, "scan in lane {lane} {x} {y}");
    let x = x.min(0);
    seen.lanes.insert((lane, x));
    if g.sound && [0, -25, -26].contains(&x) {
        assert_eq!(x, by_record(own.max(others.unwrap_or(0)), t, l), "scan by the holder's record");
        if let Some(others) = others {
            *seen.holders.entry((by_record(own, t, l), by_record(others, t, l), x)).or_default() += 1;
        }
    }
}

/// A sale and a withdrawal, into outputs that are now and then too short; in a sound image each is then undone.
fn compare_edits(g: &Gate, k: Admission, r: &mut Rng, a: &Jobs, b: &Jobs, seen: &mut Seen) {
    for sale in [true, false] {
        let (f, h, back) = if sale { (a.add, b.add, b.withdraw) } else { (a.withdraw, b.withdraw, b.add) };
        let rec = records(g.list, k, 1, r);
        let (bytes, elements) = match r.below(9) { 0 => (r.below(2000) as usize, g.list.len() + 9), 1 => (MOST_BYTES, g.list.len() + 7 - r.below(2) as usize), _ => (MOST_BYTES, g.list.len() + 12) };
        let (mut oa, mut qa) = (vec![7u8; bytes], vec![5u32; elements]);
        let (mut ob, mut qb) = (oa.clone(), qa.clone());
        let (x, y) = (f(g.img, &rec, k.holder, k.slot, &mut oa, &mut qa), h(g.img, &rec, k.holder, k.slot, &mut ob, &mut qb));
        assert!(x == y && oa == ob && qa == qb, "edit {x} {y}, sale {sale}");
        *seen.edits.entry((sale, x.min(0))).or_default() += 1;
        if x < 0 {
            assert!(oa.iter().all(|&c| c == 7) && qa.iter().all(|&c| c == 5), "a refused edit that fills");
        } else if g.sound {
            let m = if sale { rec.len() + 1 } else { rec.len() - 1 };
            let (mut o, mut q) = (vec![7u8; MOST_BYTES], vec![5u32; rec.len()]);
            let z = back(&ob[..y as usize], &qb[..m], k.holder, k.slot, &mut o, &mut q);
            let mut was = rec.clone();
            if !sale {
                was[g.list.iter().position(|c| *c == k).unwrap()] = 0;
            }
            assert!(o[..z as usize] == *g.img && q == was, "an edit undone");
        }
    }
}

/// One or two bytes of the image changed.
fn damage(img: &mut [u8], r: &mut Rng) {
    for _ in 0..1 + r.below(2) {
        let at = 64 * r.below(img.len() as u64 / 64) as usize + r.below(if r.0 % 2 == 0 { 4 } else { 64 }) as usize;
        match r.below(3) {
            0 => img[at] ^= 1 << r.below(8),
            1 => img[at] = img[at].wrapping_add(1),
            _ => img[at] = r.next() as u8,
        }
    }
}

/// Some of the numbers that a repair works out lost, or all; how many differ from those before.
fn lose_numbers(img: &mut [u8], r: &mut Rng) -> i64 {
    let one_of = 1 << r.below(7);
    let mut lost = 0;
    for at in number_places(img.len()) {
        let x = if r.below(one_of) > 0 { [img[at], img[at + 1]] } else { (r.next() as u16).to_be_bytes() };
        lost += (img[at..at + 2] != x) as i64;
        img[at..at + 2].copy_from_slice(&x);
    }
    lost
}

/// A bit of the header's kept bytes changed: mark and version, a page count, the lift, or zero bytes.
fn damage_header(img: &mut [u8], r: &mut Rng) {
    let at = match r.below(4) { 0 => r.below(6), 1 => 8 + 4 * r.below(8) + r.below(2), 2 => 40 + r.below(2), _ => 42 + r.below(22) };
    img[at as usize] ^= 1 << r.below(8);
}

/// One or two nodes changed: to one with as many on bits, or by a bit.
fn damage_nodes(img: &mut [u8], r: &mut Rng) {
    for _ in 0..1 + r.below(2) {
        let at = 64 * (1 + r.below(img.len() as u64 / 64 - 1)) as usize + 4 + r.below(60) as usize;
        img[at] ^= if r.below(2) == 0 { 3 << (2 * r.below(4)) } else { 1 << r.below(8) };
    }
}

/// The last subtrie of a page moved to the next page of the band, if it fits: a page started before it had to be, all else in order.
fn start_early(img: &[u8], r: &mut Rng) -> Option<Vec<u8>> {
    let number = |at: usize| img[at] as usize * 256 + img[at + 1] as usize;
    // pages that are not their band's last, with their roots and those of the next
    let (mut places, mut first) = (vec![], 1);
    for band in 0..8 {
        let (pages, roots) = (number(8 + 4 * band), number(10 + 4 * band));
        let t = |i| if i < pages { number(64 * (first + i)) } else { roots };
        places.extend((1..pages).map(|i| (first + i - 1, t(i) - t(i - 1), t(i + 1) - t(i))));
        first += pages;
    }
    let (page, m, n) = *places.get(r.below(1 + places.len() as u64) as usize)?;
    let nodes = |page: usize| (0..240).map(|i| img[64 * page + 4 + i / 4] >> (6 - 2 * (i % 4)) & 3).collect::<Vec<u8>>();
    let ones = |nodes: &[u8]| nodes.iter().map(|x| x.count_ones() as usize).sum::<usize>();
    let (a, b) = (nodes(page), nodes(page + 1));
    // level by level: where it starts, where its last subtrie does, where it ends
    let (mut x, mut y) = ((0, m - 1, m), (0, n));
    let mut both = [vec![], vec![]];
    for _ in 0..4 {
        both[0].extend(&a[x.0..x.1]);
        both[1].extend([&a[x.1..x.2], &b[y.0..y.1]].concat());
        x = (x.2, m + ones(&a[..x.1]), m + ones(&a[..x.2]));
        y = (y.1, n + ones(&b[..y.1]));
    }
    if m < 2 || both[1].len() > 240 {
        return None;
    }
    let mut early = img.to_vec();
    for (k, nodes) in both.iter().enumerate() {
        let to = &mut early[64 * (page + k) + 4..][..60];
        to.fill(0);
        nodes.iter().enumerate().for_each(|(i, x)| to[i / 4] |= x << (6 - 2 * (i % 4)));
    }
    Some(early)
}

/// One repair, into an output that is now and then too short or too long.
fn compare_repair(img: &[u8], damaged: &'static str, r: &mut Rng, a: &Jobs, b: &Jobs, seen: &mut Seen) -> Option<(i64, Vec<u8>)> {
    let room = match r.below(12) { 0 => r.below(img.len() as u64) as usize, 1 => img.len() - 1, 2 => img.len() + r.below(99) as usize, _ => img.len() };
    let (mut oa, mut ob) = (vec![7u8; room], vec![7u8; room]);
    let (x, y) = ((a.repair)(img, &mut oa), (b.repair)(img, &mut ob));
    assert!(x == y && oa == ob, "repair {x} {y}, damaged {damaged}");
    *seen.repairs.entry((damaged, x.min(1))).or_default() += 1;
    if x < 0 {
        assert!(oa.iter().all(|&c| c == 7), "a refused repair that fills");
    } else {
        assert!(oa[img.len()..].iter().all(|&c| c == 7), "a repair that fills too much");
        oa.truncate(img.len());
        assert!((a.check)(&oa) >= 0, "a repair whose output is not accepted");
        let differ = number_places(img.len()).filter(|&at| img[at..at + 2] != oa[at..at + 2]).count();
        assert_eq!(x, differ as i64, "altered numbers");
    }
    (x != -17).then_some((x, oa))
}

/// An accepted image as it is and with numbers lost, which come back whole; with nodes damaged too; with a kept bit of the
/// header damaged; and packed otherwise.
fn compare_repairs(img: &[u8], r: &mut Rng, a: &Jobs, b: &Jobs, seen: &mut Seen) -> usize {
    if let Some(found) = compare_repair(img, "nothing", r, a, b, seen) {
        assert!(found == (0, img.to_vec()), "a sound image repaired");
    }
    let mut bad = img.to_vec();
    let lost = lose_numbers(&mut bad, r);
    if let Some(found) = compare_repair(&bad, "numbers", r, a, b, seen) {
        assert!(found == (lost, img.to_vec()), "lost numbers repaired");
    }
    if r.below(2) == 0 {
        bad.copy_from_slice(img);
    }
    damage_nodes(&mut bad, r);
    compare_repair(&bad, "nodes", r, a, b, seen);
    let mut bad = img.to_vec();
    damage_header(&mut bad, r);
    compare_repair(&bad, "header", r, a, b, seen);
    let Some(early) = start_early(img, r) else { return 4 };
    compare_repair(&early, "packing", r, a, b, seen);
    5
}

/// Both give the same answers and leave the same buffers; the number of answers compared.
pub fn compare(ds: &[Data], a: &Jobs, b: &Jobs) -> usize {
    let mut r = Rng(99);
    let mut of_edits = Rng(77);
    let mut of_repairs = Rng(55);
    let mut n = 0;
    let mut seen = Seen::default();
    for d in ds {
        for round in 0..400 {
            // short lists and long ones, where holders have several admissions
            let most = 1 << r.below(10);
            let step = 1 + r.below(most) as usize;
            let list: Vec<Admission> = d.list.iter().copied().skip(r.below(50) as usize).step_by(step).collect();
            let (mut oa, mut ob) = (vec![7u8; MOST_BYTES], vec![7u8; MOST_BYTES]);
            let short = if round % 9 == 0 { r.below(3000) as usize } else { MOST_BYTES };
            let lift = match round % 11 { 0 => 0, 1 => 1000, 2 => 65536 + 7, 3 => 999, _ => 1 + r.below(999) as u32 };
            let x = (a.write)(&list, lift, &mut oa[..short]);
            let y = (b.write)(&list, lift, &mut ob[..short]);
            assert!(x == y && oa == ob, "write {x} {y}");
            // keys, now and then one of them twice
            let mut keys: Vec<u32> = list.iter().map(|a| weave(a.holder, a.slot)).collect();
            if round % 7 == 0 {
                keys.push(keys[keys.len() - 1]);
            }
            let (mut ka, mut kb) = (vec![7u8; MOST_BYTES], vec![7u8; MOST_BYTES]);
            let (u, v) = ((a.write_keys)(&keys, lift, &mut ka[..short]), (b.write_keys)(&keys, lift, &mut kb[..short]));
            assert!(u == v && ka == kb, "write_keys {u} {v}");
            n += 2;
            if x < 0 {
                continue;
            }
            let mut img = oa[..x as usize].to_vec();
            if round % 5 == 0 {
                img[4] = 1; // version 1, now and then with the lift left in
                if round % 4 != 0 {
                    img[40..42].fill(0);
                }
            }
            if (a.check)(&img) >= 0 {
                n += compare_repairs(&img, &mut of_repairs, a, b, &mut seen);
            }
            let sound = round % 3 == 0;
            if !sound {
                damage(&mut img, &mut r);
                compare_repair(&img, "anything", &mut of_repairs, a, b, &mut seen);
                n += 1;
            }
            assert_eq!((a.check)(&img), (b.check)(&img), "check");
            assert_eq!((a.lift)(&img), (b.lift)(&img), "lift");
            n += 2;
            for i in 0..12 {
                // listed; one of the longer list, which is often absent here; and absent
                let k = match i % 4 {
                    0 | 2 => list[r.below(list.len() as u64) as usize],
                    1 => d.list[r.below(d.list.len() as u64) as usize],
                    _ => { let (holder, slot) = unweave(d.misses[r.below(1024) as usize]); Admission { holder, slot } }
                };
                compare_jobs(d, &img, list.len(), k, i, &mut r, a, b);
                let other = if i % 5 == 4 { 65536 * r.below(2) as u32 + r.below(2) as u32 } else { 0 };
                let gate = Gate { img: &img, list: &list, sound, lift: lift + other };
                compare_eight(&gate, k, a, b, &mut seen);
                compare_edits(&gate, k, &mut of_edits, a, b, &mut seen);
                for lane in lanes() {
                    compare_scan(&gate, k, lane, &mut r, a, b, &mut seen);
                }
                n += 9 + lanes().count();
            }
        }
    }
    // the full lists
    for d in ds {
        let gate = Gate { img: &d.img, list: &d.list, sound: true, lift: 0 };
        for i in 0..40 {
            let (holder, slot) = unweave(if i % 2 == 0 { d.misses[i] } else { d.hits[i] });
            compare_edits(&gate, Admission { holder, slot }, &mut of_edits, a, b, &mut seen);
            n += 2 + compare_repairs(&d.img, &mut of_repairs, a, b, &mut seen);
        }
    }
    seen.assert_all();
    n
}

/// Every job but the scan and the eight-page lookup, once.
fn compare_jobs(d: &Data, img: &[u8], keys: usize, k: Admission, i: usize, r: &mut Rng, a: &Jobs, b: &Jobs) {
    let key = (a.key)(k.holder, k.slot);
    assert_eq!(key, (b.key)(k.holder, k.slot), "key");
    assert_eq!((a.admission_of)(key as u32), (b.admission_of)(key as u32), "admission_of");
    let (mut p, mut q) = ([9u32; 9], [9u32; 9]);
    let (x, y) = ((a.lookup)(img, k.holder, k.slot, &mut p), (b.lookup)(img, k.holder, k.slot, &mut q));
    assert!((x, p) == (y, q), "lookup {x} {y}");
    let rank = r.below(keys as u64 + 2) as u32;
    assert_eq!((a.find)(img, rank), (b.find)(img, rank), "find");
    let mut q = d.shapes[i % 3].1[r.below(64) as usize];
    if i == 11 {
        std::mem::swap(&mut q.h0, &mut q.h1);
    }
    let c = (a.count)(img, q);
    assert_eq!(c, (b.count)(img, q), "count");
    let room = if i % 4 == 0 { (c.max(1) - 1) as usize } else { c.max(0) as usize + 3 };
    let (mut u, mut v) = (vec![5u32; room], vec![5u32; room]);
    let (x, y) = ((a.list)(img, q, &mut u), (b.list)(img, q, &mut v));
    assert!(x == y && u == v, "list {x} {y}");
}

/// The eight-page lookup, once; in a sound image held against the list.
fn compare_eight(g: &Gate, k: Admission, a: &Jobs, b: &Jobs, seen: &mut Seen) {
    let (mut p, mut q) = ([9u32; 9], [9u32; 9]);
    let (x, y) = ((a.lookup8)(g.img, k.holder, k.slot, &mut p), (b.lookup8)(g.img, k.holder, k.slot, &mut q));
    assert!((x, p) == (y, q), "lookup8 {x} {y}");
    let mut full = [9u32; 9];
    let z = (a.lookup)(g.img, k.holder, k.slot, &mut full);
    if z >= 0 {
        assert!((x, p) == (z, full), "lookup8 {x}, lookup {z}");
        if g.sound {
            compare_place(g.list, k, z, full, seen);
        }
    } else if z < -7 && z != -35 {
        *seen.eight.entry(x).or_insert(0) += 1;
    }
}

/// The rank of a listed admission, or the number of smaller keys, in a list; the page numbers only of a listed one.
fn compare_place(list: &[Admission], k: Admission, x: i64, places: [u32; 9], seen: &mut Seen) {
    let smaller = list.partition_point(|a| weave(a.holder, a.slot) < weave(k.holder, k.slot));
    let listed = list.get(smaller) == Some(&k);
    assert_eq!((x, places[0] as usize), (listed as i64, smaller), "lookup by the list");
    if !listed {
        assert_eq!(places[1..], [9; 8], "the page numbers of an absent one");
        seen.absent[if smaller == 0 { 0 } else if smaller < list.len() { 1 } else { 2 }] += 1;
    }
}
