//! A plain hand-written implementation of the admission image, for comparison: no proofs, no unsafe, no
//! allocation, no dependencies.
//!
//! A page is read as eight big-endian words; word 0 has T and B in its upper half, which is
//! masked off, so node bit i stands at place 32+i of 512.  With r roots in the page, the on bit
//! at node-bit place p leads to node  r + rank(p)  of the same page, rank(p) being the on bits
//! before p.  That one identity gives level ends, child numbers, out-links and (inverted) parents.
#![no_std]
#![forbid(unsafe_code)]

pub const MAX_KEYS: usize = 4096;
const BANDS: usize = 8;
const PAGE: usize = 64;
const CAP: u32 = 240;

/// The number of the question that got a no.
#[derive(Clone, Copy, PartialEq, Eq, Debug)]
pub struct No(pub u8);

#[derive(Clone, Copy, PartialEq, Eq, Debug, PartialOrd, Ord)]
#[repr(C)]
pub struct Admission {
    pub holder: u16,
    pub slot: u16,
}

/// The lanes of a gate; their counts end the records, lane 1's first.
pub const LANES: usize = 8;

/// The most bytes that an image can have.
pub const MOST_BYTES: usize = 24_640;

#[derive(Clone, Copy, PartialEq, Eq, Debug)]
#[repr(C)]
pub struct Rect {
    pub h0: u16,
    pub h1: u16,
    pub s0: u16,
    pub s1: u16,
}

#[derive(Clone, Copy, PartialEq, Eq, Debug)]
#[repr(C)]
pub struct Found {
    pub rank: u32,
    pub pages: [u32; 8],
}

/// What a lookup finds: where a listed admission stands, or how many keys are smaller than an absent one's.
#[derive(Clone, Copy, PartialEq, Eq, Debug)]
pub enum Looked {
    Listed(Found),
    Absent(u32),
}

// ------------------------------------------------------------------------------------- weaving

static SPREAD: [u16; 256] = {
    let mut t = [0u16; 256];
    let mut i = 0;
    while i < 256 {
        let mut b = 0;
        while b < 8 {
            t[i] |= (((i >> b) & 1) as u16) << (2 * b);
            b += 1;
        }
        i += 1;
    }
    t
};

#[inline]
fn spread(x: u16) -> u32 {
    (SPREAD[(x >> 8) as usize] as u32) << 16 | SPREAD[(x & 255) as usize] as u32
}

#[inline]
pub fn weave(holder: u16, slot: u16) -> u32 {
    spread(holder) << 1 | spread(slot)
}

#[inline]
fn gather(x: u32) -> u16 {
    let mut x = x & 0x5555_5555;
    x = (x | x >> 1) & 0x3333_3333;
    x = (x | x >> 2) & 0x0f0f_0f0f;
    x = (x | x >> 4) & 0x00ff_00ff;
    (x | x >> 8) as u16
}

#[inline]
pub fn unweave(key: u32) -> (u16, u16) {
    (gather(key >> 1), gather(key))
}

// -------------------------------------------------------------------------------------- header

#[inline]
fn be16(b: &[u8], i: usize) -> u32 {
    (b[i] as u32) << 8 | b[i + 1] as u32
}

struct Head {
    keys: u32,
    /// 0 in version 1
    lift: u32,
    pages: [u32; BANDS],
    roots: [u32; BANDS],
    /// image page number of each band's first page (pages are numbered from 1)
    first: [u32; BANDS],
}

impl Head {
    /// The out-links that a band must have: the next band's roots, or the keys.
    #[inline]
    fn due(&self, band: usize) -> u32 {
        if band < 7 { self.roots[band + 1] } else { self.keys }
    }
}

/// Questions 1 to 7, with 35.
#[inline]
fn head(img: &[u8]) -> Result<Head, No> {
    let Some(b) = img.first_chunk::<PAGE>() else { return Err(No(1)) };
    if b[0..3] != [0x4c, 0x50, 0x54] {
        return Err(No(2));
    }
    let version = be16(b, 3);
    if version != 1 && version != 2 {
        return Err(No(3));
    }
    let keys = be16(b, 6);
    if keys > MAX_KEYS as u32 {
        return Err(No(4));
    }
    let lift = be16(b, 40);
    if b[5] != 0 || b[42..64] != [0u8; 22] || (version == 1 && lift != 0) {
        return Err(No(5));
    }
    if version == 2 && !(1..=999).contains(&lift) {
        return Err(No(35));
    }
    let mut h = Head { keys, lift, pages: [0; 8], roots: [0; 8], first: [0; 8] };
    let mut next = 1;
    let mut all_zero = true;
    let mut some_zero = false;
    for i in 0..BANDS {
        let (p, r) = (be16(b, 8 + 4 * i), be16(b, 10 + 4 * i));
        h.pages[i] = p;
        h.roots[i] = r;
        h.first[i] = next;
        next += p;
        all_zero &= p | r == 0;
        some_zero |= p == 0 || r == 0;
    }
    if img.len() != PAGE * next as usize {
        return Err(No(6));
    }
    let ok = if keys == 0 { all_zero } else { h.pages[0] == 1 && h.roots[0] == 1 && !some_zero };
    if !ok {
        return Err(No(7));
    }
    Ok(h)
}

#[inline]
fn page_bytes(img: &[u8], no: u32) -> &[u8; PAGE] {
    img[PAGE * no as usize..].first_chunk().unwrap()
}

#[inline]
fn t_of(img: &[u8], no: u32) -> u32 {
    be16(img, PAGE * no as usize)
}

#[inline]
fn b_of(img: &[u8], no: u32) -> u32 {
    be16(img, PAGE * no as usize + 2)
}

// --------------------------------------------------------------------------------------- pages

/// A page's node bits with running counts of ones per word.
struct Page {
    w: [u64; 9],
    cum: [u32; 9],
}

impl Page {
    #[inline]
    fn load(b: &[u8; PAGE]) -> Page {
        let mut p = Page { w: [0; 9], cum: [0; 9] };
        for i in 0..8 {
            p.w[i] = u64::from_be_bytes(*b[8 * i..].first_chunk().unwrap());
        }
        p.w[0] &= 0xffff_ffff;
        for i in 0..8 {
            p.cum[i + 1] = p.cum[i] + p.w[i].count_ones();
        }
        p
    }

    /// On bits before node-bit place `bit` (0 to 480).
    #[inline]
    fn rank(&self, bit: u32) -> u32 {
        let q = bit + 32;
        let i = (q >> 6) as usize;
        self.cum[i] + (self.w[i] >> 1 >> (63 - (q & 63))).count_ones()
    }

    /// `n` nodes (0 to 8) from node `at`, as a number of 2n bits.
    #[inline]
    fn nodes(&self, at: u32, n: u32) -> u32 {
        let q = 2 * at + 32;
        let (i, s) = ((q >> 6) as usize, q & 63);
        let v = self.w[i] << s | self.w[i + 1] >> 1 >> (63 - s);
        (v >> 1 >> (63 - 2 * n)) as u32
    }

    #[inline]
    fn bit(&self, bit: u32) -> bool {
        let q = bit + 32;
        self.w[(q >> 6) as usize] >> (63 - (q & 63)) & 1 != 0
    }

    /// Node-bit place of on bit `n`, counted from 0 (there must be one).
    #[inline]
    fn select(&self, n: u32) -> u32 {
        let mut i = 0;
        while i < 7 && self.cum[i + 1] <= n {
            i += 1;
        }
        // sums of 2, 4, ... 32 bits, then halve from the top
        let w = self.w[i];
        let s1 = w - (w >> 1 & 0x5555_5555_5555_5555);
        let s2 = (s1 & 0x3333_3333_3333_3333) + (s1 >> 2 & 0x3333_3333_3333_3333);
        let s3 = (s2 + (s2 >> 4)) & 0x0f0f_0f0f_0f0f_0f0f;
        let s4 = (s3 + (s3 >> 8)) & 0x00ff_00ff_00ff_00ff;
        let s5 = (s4 + (s4 >> 16)) & 0x0000_ffff_0000_ffff;
        let mut left = n - self.cum[i];
        let mut at = 0;
        for (sums, width) in [(s5, 32u32), (s4, 16), (s3, 8), (s2, 4), (s1, 2), (w, 1)] {
            let c = (sums >> (64 - width - at) & ((1 << width) - 1)) as u32;
            let on = (left >= c) as u32;
            left -= c * on;
            at += width * on;
        }
        64 * i as u32 + at - 32
    }

    /// Nodes of a sound page: up to the last on bit's node.
    #[inline]
    fn node_count(&self) -> u32 {
        let mut i = 7;
        while i > 0 && self.w[i] == 0 {
            i -= 1;
        }
        (64 * (i as u32 + 1) - self.w[i].trailing_zeros() - 32 + 1) / 2
    }

    /// Whether the pairs that are not 00 are exactly the first `n` (1 to 240): full words, one mixed, zero words.
    #[inline(always)]
    fn just_first(&self, n: u32) -> bool {
        const EACH: u64 = 0x5555_5555_5555_5555;
        let pairs = |w: u64| (w | w >> 1) & EACH;
        let end = 2 * n + 32;
        let mixed = (end >> 6) as usize;
        let mut bad = 0u64;
        for i in 0..8 {
            let first = if i == 0 { EACH & 0xffff_ffff } else { EACH };
            let want = if i < mixed { first } else if i == mixed { first & !(u64::MAX >> (end & 63)) } else { 0 };
            bad |= pairs(self.w[i]) ^ want;
        }
        bad == 0
    }
}

/// Ends of a page's levels, in nodes, and the on bits of its fourth level.
struct Shape {
    e2: u32,
    e3: u32,
    e4: u32,
    outs: u32,
}

/// Questions 10 and 11 for a page of `r` roots (1 to 60).
#[inline(always)]
fn shape(p: &Page, r: u32) -> Result<Shape, No> {
    let e2 = r + p.rank(2 * r); // at most 180
    let e3 = r + p.rank(2 * e2);
    if e3 > CAP {
        return Err(No(10));
    }
    let e4 = r + p.rank(2 * e3);
    if e4 > CAP {
        return Err(No(10));
    }
    if !p.just_first(e4) {
        return Err(pairs_no(p, e4));
    }
    Ok(Shape { e2, e3, e4, outs: p.cum[8] - (e4 - r) })
}

#[cold]
fn pairs_no(p: &Page, e4: u32) -> No {
    for n in 0..e4 {
        if p.nodes(n, 1) == 0 {
            return No(10);
        }
    }
    No(11)
}

/// Nodes of the first subtrie of a page of `r` roots.
#[inline(always)]
fn first_nodes(p: &Page, r: u32, s: &Shape) -> u32 {
    let k2 = p.nodes(0, 1).count_ones();
    let k3 = p.rank(2 * (r + k2)) - (s.e2 - r);
    let k4 = p.rank(2 * (s.e2 + k3)) - (s.e3 - r);
    1 + k2 + k3 + k4
}

/// Question 9: the page's roots.
#[inline]
fn roots_of(img: &[u8], h: &Head, band: usize, no: u32) -> Result<u32, No> {
    let last = h.first[band] + h.pages[band] - 1;
    let next = if no < last { t_of(img, no + 1) } else { h.roots[band] };
    let r = next.wrapping_sub(t_of(img, no));
    if r.wrapping_sub(1) < 60 { Ok(r) } else { Err(No(9)) }
}

/// Questions 8 to 13.
#[inline]
fn bands(img: &[u8], h: &Head) -> Result<(), No> {
    if h.keys == 0 {
        return Ok(());
    }
    for band in 0..BANDS {
        let (mut links, mut before) = (0, 0);
        for i in 0..h.pages[band] {
            let no = h.first[band] + i;
            let b = page_bytes(img, no);
            let (t, bb) = (be16(b, 0), be16(b, 2));
            if bb != links || i == 0 && t != 0 {
                return Err(No(8));
            }
            let r = roots_of(img, h, band, no)?;
            let p = Page::load(b);
            let s = shape(&p, r)?;
            if i > 0 && first_nodes(&p, r, &s) + before <= CAP {
                return Err(No(12));
            }
            links += s.outs;
            before = s.e4;
        }
        if links != h.due(band) {
            return Err(No(13));
        }
    }
    Ok(())
}

#[inline]
fn accepted(img: &[u8]) -> Result<Head, No> {
    let h = head(img)?;
    bands(img, &h)?;
    Ok(h)
}

/// The checker: questions 1 to 13, then the key count.
pub fn check(img: &[u8]) -> Result<u32, No> {
    accepted(img).map(|h| h.keys)
}

/// The lift of an accepted image, 0 in version 1.
pub fn lift(img: &[u8]) -> Result<u32, No> {
    accepted(img).map(|h| h.lift)
}

// -------------------------------------------------------------------------------------- lookup

/// Last page of the band with field (T or B) at or below x; accepted images only.
#[inline]
fn find_page(img: &[u8], h: &Head, band: usize, x: u32, field: fn(&[u8], u32) -> u32) -> u32 {
    let (mut lo, mut n) = (h.first[band], h.pages[band]);
    while n > 1 {
        let half = n / 2;
        if field(img, lo + half) <= x {
            lo += half;
        }
        n -= half;
    }
    lo
}

/// The node so many levels below: left of it stands all that lies under the nodes left of `node`.
#[inline]
fn first_under(p: &Page, r: u32, node: u32, levels: u32) -> u32 {
    let mut node = node;
    for _ in 0..levels {
        node = r + p.rank(2 * node);
    }
    node
}

/// Follows four bits of the key from a page's root: the fourth-level on bits left of the place reached, and
/// whether every bit was on.
#[inline]
fn descend(p: &Page, r: u32, outs_before: u32, root: u32, nib: u32) -> (u32, bool) {
    let mut node = root;
    for k in 0..4 {
        let at = 2 * node + (nib >> (3 - k) & 1);
        node = r + p.rank(at); // at the fourth level: r + on bits before
        if !p.bit(at) {
            return (first_under(p, r, node, 3 - k) - r - outs_before, false);
        }
    }
    (node - r - outs_before, true)
}

/// The fourth-level on bits of a page left of a root's subtrie.
#[inline]
fn left_of(p: &Page, r: u32, outs_before: u32, root: u32) -> u32 {
    first_under(p, r, root, 4) - r - outs_before
}

/// The page of a root in an accepted image: its number, nodes, T and roots.
#[inline]
fn page_of(img: &[u8], h: &Head, band: usize, root: u32) -> (u32, Page, u32, u32) {
    let no = find_page(img, h, band, root, t_of);
    let t = t_of(img, no);
    let last = h.first[band] + h.pages[band] - 1;
    let r = if no < last { t_of(img, no + 1) } else { h.roots[band] } - t;
    (no, Page::load(page_bytes(img, no)), t, r)
}

/// Where a key's walk ends: at its rank, or at an off bit of a band, with the band's out-links left of it.
enum End {
    Listed(Found),
    Off(usize, u32),
}

fn walk(img: &[u8], h: &Head, key: u32) -> End {
    if h.keys == 0 {
        return End::Off(7, 0);
    }
    let mut f = Found { rank: 0, pages: [0; 8] };
    for band in 0..BANDS {
        let (no, p, t, r) = page_of(img, h, band, f.rank);
        let (o, on) = descend(&p, r, p.node_count() - r, f.rank - t, key >> (28 - 4 * band) & 15);
        f.rank = b_of(img, no) + o;
        f.pages[band] = no;
        if !on {
            return End::Off(band, f.rank);
        }
    }
    End::Listed(f)
}

/// The keys left of an off bit of a band: in each band below, one page tells what lies left of the root reached.
fn keys_left(img: &[u8], h: &Head, band: usize, links: u32) -> u32 {
    let mut x = links;
    for b in band + 1..BANDS {
        if x == h.roots[b] {
            return h.keys;
        }
        let (no, p, t, r) = page_of(img, h, b, x);
        x = b_of(img, no) + left_of(&p, r, p.node_count() - r, x - t);
    }
    x
}

pub fn lookup(img: &[u8], holder: u16, slot: u16) -> Result<Looked, No> {
    let h = accepted(img)?;
    Ok(match walk(img, &h, weave(holder, slot)) {
        End::Listed(f) => Looked::Listed(f),
        End::Off(band, links) => Looked::Absent(keys_left(img, &h, band, links)),
    })
}

// ----------------------------------------------------------------------------- eight-page lookup

/// The last page of the band, in page order, whose T is at or below the root (27), and its roots (9).
#[inline]
fn taken(img: &[u8], h: &Head, band: usize, root: u32) -> Result<(u32, u32), No> {
    // T need not rise here, so that every later page's is read
    let (mut no, mut next) = (h.first[band] + h.pages[band] - 1, h.roots[band]);
    loop {
        let t = t_of(img, no);
        if t <= root {
            let r = next.wrapping_sub(t);
            return if r.wrapping_sub(1) < 60 { Ok((no, r)) } else { Err(No(9)) };
        }
        if no == h.first[band] {
            return Err(No(27));
        }
        no -= 1;
        next = t;
    }
}

/// Questions 1 to 7, then one page a band; past an off bit too, where `f.rank` is the figure.
pub fn lookup8(img: &[u8], holder: u16, slot: u16) -> Result<Looked, No> {
    let h = head(img)?;
    if h.keys == 0 {
        return Ok(Looked::Absent(0));
    }
    let key = weave(holder, slot);
    let mut f = Found { rank: 0, pages: [0; 8] };
    let mut on = true;
    for band in 0..BANDS {
        let (no, r) = taken(img, &h, band, f.rank)?;
        let p = Page::load(page_bytes(img, no));
        let s = shape(&p, r)?;
        let root = f.rank - t_of(img, no);
        let o = if on {
            let (o, still) = descend(&p, r, s.e4 - r, root, key >> (28 - 4 * band) & 15);
            on = still;
            o
        } else {
            left_of(&p, r, s.e4 - r, root)
        };
        f.rank = b_of(img, no) + o;
        f.pages[band] = no;
        let due = h.due(band);
        if f.rank > due || on && f.rank == due {
            return Err(No(28));
        }
        if f.rank == due {
            return Ok(Looked::Absent(h.keys));
        }
    }
    Ok(if on { Looked::Listed(f) } else { Looked::Absent(f.rank) })
}

// -------------------------------------------------------------------------------- find by rank

fn climb(img: &[u8], h: &Head, rank: u32) -> u32 {
    let mut x = rank;
    let mut key = 0;
    for band in (0..BANDS).rev() {
        let no = find_page(img, h, band, x, b_of);
        let p = Page::load(page_bytes(img, no));
        let t = t_of(img, no);
        let last = h.first[band] + h.pages[band] - 1;
        let r = if no < last { t_of(img, no + 1) } else { h.roots[band] } - t;
        let mut n = p.node_count() - r + (x - b_of(img, no)); // on-bit number in the page
        let mut node = 0;
        for k in 0..4 {
            let at = p.select(n);
            key |= (at & 1) << (28 - 4 * band + k);
            node = at / 2;
            n = node.wrapping_sub(r);
        }
        x = t + node;
    }
    key
}

pub fn find_by_rank(img: &[u8], rank: u32) -> Result<(u16, u16), No> {
    let h = accepted(img)?;
    if rank >= h.keys {
        return Err(No(20));
    }
    Ok(unweave(climb(img, &h, rank)))
}

// ---------------------------------------------------------------------------- count and listing

/// Puts the next pairs of `x` (`2 * ones(on)` bits) under the on bits of `on` (`width` bits).
#[inline]
fn under(on: u32, x: u32, width: u32) -> u32 {
    let mut left = 2 * on.count_ones();
    let mut rest = on;
    let mut out = 0;
    while rest != 0 {
        let top = 31 - rest.leading_zeros();
        left -= 2;
        out |= (x >> left & 3) << (2 * top);
        rest ^= 1 << top;
    }
    debug_assert!(on < 1 << width);
    out
}

/// A band's reader: the page it holds and the next subtrie's first node on each level.
struct Reader {
    page: Page,
    no: u32,
    t: u32,
    end: u32, // first root after the page
    root: u32,
    n: [u32; 4],
    out: u32,
    outs_before: u32,
}

struct Walker<'a> {
    img: &'a [u8],
    h: &'a Head,
    rd: [Reader; BANDS],
}

impl<'a> Walker<'a> {
    fn new(img: &'a [u8], h: &'a Head) -> Self {
        const R: Reader = Reader {
            page: Page { w: [0; 9], cum: [0; 9] },
            no: 0,
            t: 0,
            end: 0,
            root: u32::MAX,
            n: [0; 4],
            out: 0,
            outs_before: 0,
        };
        Walker { img, h, rd: [R; BANDS] }
    }

    #[inline(never)]
    fn seek(&mut self, band: usize, root: u32) {
        let rd = &mut self.rd[band];
        if rd.no == 0 || root < rd.t || root >= rd.end {
            let no = if rd.no != 0 && root == rd.end {
                rd.no + 1
            } else {
                find_page(self.img, self.h, band, root, t_of)
            };
            rd.no = no;
            rd.page = Page::load(page_bytes(self.img, no));
            rd.t = t_of(self.img, no);
            let last = self.h.first[band] + self.h.pages[band] - 1;
            rd.end = if no < last { t_of(self.img, no + 1) } else { self.h.roots[band] };
            rd.outs_before = rd.page.node_count() - (rd.end - rd.t);
        }
        let r = rd.end - rd.t;
        let p = &rd.page;
        let n0 = root - rd.t;
        let n1 = r + p.rank(2 * n0);
        let n2 = r + p.rank(2 * n1);
        let n3 = r + p.rank(2 * n2);
        rd.n = [n0, n1, n2, n3];
        rd.out = b_of(self.img, rd.no) + p.rank(2 * n3) - rd.outs_before;
        rd.root = root;
    }

    /// The root's out-links as a 16-bit set (nibble 0 highest), and the first one's number.
    #[inline(always)]
    fn open(&mut self, band: usize, root: u32) -> (u32, u32) {
        if self.rd[band].root != root || root >= self.rd[band].end {
            self.seek(band, root);
        }
        let rd = &mut self.rd[band];
        let p = &rd.page;
        let m1 = p.nodes(rd.n[0], 1);
        // a single path down to the fourth level: one node a level
        let (a2, a3, a4) = (p.nodes(rd.n[1], 1), p.nodes(rd.n[2], 1), p.nodes(rd.n[3], 1));
        if m1 != 3 && a2 != 3 && a3 != 3 {
            let at = (m1 & 1) << 2 | (a2 & 1) << 1 | a3 & 1;
            let out = rd.out;
            for n in rd.n.iter_mut() {
                *n += 1;
            }
            rd.out += a4.count_ones();
            rd.root += 1;
            return (a4 << (14 - 2 * at), out);
        }
        let k1 = m1.count_ones();
        let m2 = under(m1, p.nodes(rd.n[1], k1), 2);
        let k2 = m2.count_ones();
        let m3 = under(m2, p.nodes(rd.n[2], k2), 4);
        let k3 = m3.count_ones();
        let m4 = under(m3, p.nodes(rd.n[3], k3), 8);
        let out = rd.out;
        rd.n[0] += 1;
        rd.n[1] += k1;
        rd.n[2] += k2;
        rd.n[3] += k3;
        rd.out += m4.count_ones();
        rd.root += 1;
        (m4, out)
    }

    /// Keys under the roots before `root` of band `band`.
    fn before(&mut self, band: usize, root: u32) -> u32 {
        let mut x = root;
        for b in band..BANDS {
            if x >= self.h.roots[b] {
                return self.h.keys;
            }
            if self.rd[b].root != x || x >= self.rd[b].end {
                self.seek(b, x);
            }
            x = self.rd[b].out;
        }
        x
    }

    /// Lists every key under a root.
    fn all(&mut self, band: usize, root: u32, prefix: u32, buf: &mut [u32], at: usize) -> usize {
        let (mut band, mut prefix, mut at) = (band, prefix, at);
        let (mut set, mut link) = self.open(band, root);
        while set & (set - 1) == 0 && band < 7 {
            prefix = prefix << 4 | (set.leading_zeros() - 16);
            band += 1;
            (set, link) = self.open(band, link);
        }
        while set != 0 {
            let nib = set.leading_zeros() - 16;
            set ^= 0x8000 >> nib;
            let key = prefix << 4 | nib;
            if band == 7 {
                buf[at] = key;
                at += 1;
            } else {
                at = self.all(band + 1, link, key, buf, at);
            }
            link += 1;
        }
        at
    }

    /// Lists the members under a root.
    fn list(&mut self, band: usize, root: u32, pre: (u32, u32, u32), q: &Rect, buf: &mut [u32], at: usize) -> usize {
        let (mut set, mut link) = self.open(band, root);
        let m = 14 - 2 * band as u32;
        let mut at = at;
        while set != 0 {
            let nib = set.leading_zeros() - 16;
            set ^= 0x8000 >> nib;
            let c = cell(pre, nib);
            match place(c, m, q) {
                Place::Out => {}
                Place::In if band == 7 => {
                    buf[at] = c.0;
                    at += 1;
                }
                Place::In => at = self.all(band + 1, link, c.0, buf, at),
                Place::Across => at = self.list(band + 1, link, c, q, buf, at),
            }
            link += 1;
        }
        at
    }

    /// Counts the members under a root; runs of cells wholly inside are counted by their ends.
    fn count(&mut self, band: usize, root: u32, pre: (u32, u32, u32), q: &Rect) -> u32 {
        let (mut set, mut link) = self.open(band, root);
        let m = 14 - 2 * band as u32;
        let mut sum = 0;
        let mut run = u32::MAX;
        while set != 0 {
            let nib = set.leading_zeros() - 16;
            set ^= 0x8000 >> nib;
            let c = cell(pre, nib);
            let pl = place(c, m, q);
            if band == 7 {
                sum += matches!(pl, Place::In) as u32;
                continue;
            }
            if let Place::In = pl {
                if run == u32::MAX {
                    run = link;
                }
            } else {
                if run != u32::MAX {
                    let lo = self.before(band + 1, run);
                    sum += self.before(band + 1, link) - lo;
                    run = u32::MAX;
                }
                if let Place::Across = pl {
                    sum += self.count(band + 1, link, c, q);
                }
            }
            link += 1;
        }
        if run != u32::MAX {
            let lo = self.before(band + 1, run);
            sum += self.before(band + 1, link) - lo;
        }
        sum
    }

    /// The largest record among the holder's keys under a root; only branches of the holder are opened.
    fn latest(&mut self, band: usize, root: u32, holder: u16, records: &[u32]) -> u32 {
        // out-links whose first and third bits are the holder's two bits of the band
        const SAME: [u32; 4] = [0xcc00, 0x3300, 0x00cc, 0x0033];
        let (set, link) = self.open(band, root);
        let mut own = set & SAME[(holder >> (14 - 2 * band) & 3) as usize];
        let mut most = 0;
        while own != 0 {
            let nib = own.leading_zeros() - 16;
            own ^= 0x8000 >> nib;
            let x = link + (set >> (16 - nib)).count_ones();
            most = most.max(if band == 7 { records[x as usize] } else { self.latest(band + 1, x, holder, records) });
        }
        most
    }
}

enum Place {
    Out,
    In,
    Across,
}

/// (key prefix, holder prefix, slot prefix) of a cell.
#[inline]
fn cell(pre: (u32, u32, u32), nib: u32) -> (u32, u32, u32) {
    let h = nib >> 2 & 2 | nib >> 1 & 1;
    let s = nib >> 1 & 2 | nib & 1;
    (pre.0 << 4 | nib, pre.1 << 2 | h, pre.2 << 2 | s)
}

#[inline]
fn place(c: (u32, u32, u32), m: u32, q: &Rect) -> Place {
    let (h0, s0) = (c.1 << m, c.2 << m);
    let w = (1u32 << m) - 1;
    let (h1, s1) = (h0 | w, s0 | w);
    let (q0, q1, r0, r1) = (q.h0 as u32, q.h1 as u32, q.s0 as u32, q.s1 as u32);
    if h1 < q0 || h0 > q1 || s1 < r0 || s0 > r1 {
        Place::Out
    } else if h0 >= q0 && h1 <= q1 && s0 >= r0 && s1 <= r1 {
        Place::In
    } else {
        Place::Across
    }
}

#[inline]
fn whole(q: &Rect) -> bool {
    q.h0 == 0 && q.s0 == 0 && q.h1 == u16::MAX && q.s1 == u16::MAX
}

fn count_in(img: &[u8], h: &Head, q: &Rect) -> u32 {
    if h.keys == 0 || whole(q) {
        return h.keys;
    }
    Walker::new(img, h).count(0, 0, (0, 0, 0), q)
}

fn list_in(img: &[u8], h: &Head, q: &Rect, buf: &mut [u32]) -> u32 {
    if h.keys == 0 {
        return 0;
    }
    let mut w = Walker::new(img, h);
    if whole(q) {
        w.all(0, 0, 0, buf, 0) as u32
    } else {
        w.list(0, 0, (0, 0, 0), q, buf, 0) as u32
    }
}

pub fn count(img: &[u8], q: Rect) -> Result<u32, No> {
    let h = accepted(img)?;
    if q.h0 > q.h1 || q.s0 > q.s1 {
        return Err(No(18));
    }
    Ok(count_in(img, &h, &q))
}

pub fn list(img: &[u8], q: Rect, buf: &mut [u32]) -> Result<u32, No> {
    let h = accepted(img)?;
    if q.h0 > q.h1 || q.s0 > q.s1 {
        return Err(No(18));
    }
    // A buffer with a place for every key needs no count first.
    if buf.len() < h.keys as usize && buf.len() < count_in(img, &h, &q) as usize {
        return Err(No(19));
    }
    Ok(list_in(img, &h, &q, buf))
}

// ---------------------------------------------------------------------------------------- scan

pub fn scan(img: &[u8], rec: &mut [u32], holder: u16, slot: u16, time: u32, lockout: u32, lane: u32, lift: u32) -> Result<u32, No> {
    let h = accepted(img)?;
    if h.lift != 0 && h.lift != lift {
        return Err(No(36));
    }
    let lane = lane.wrapping_sub(1) as usize;
    if lane >= LANES {
        return Err(No(29));
    }
    let n = h.keys as usize;
    if rec.len() != n + LANES {
        return Err(No(21));
    }
    if time == u32::MAX {
        return Err(No(22));
    }
    let (records, counts) = rec.split_at_mut(n);
    let count = &mut counts[lane];
    if *count == u32::MAX {
        return Err(No(23));
    }
    let End::Listed(f) = walk(img, &h, weave(holder, slot)) else { return Err(No(24)) };
    let last = Walker::new(img, &h).latest(0, 0, holder, records);
    if last != 0 {
        if time < last - 1 {
            return Err(No(25));
        }
        if time - (last - 1) < lockout {
            return Err(No(26));
        }
    }
    records[f.rank as usize] = time + 1;
    *count += 1;
    Ok(f.rank)
}

// --------------------------------------------------------------------------------------- write

/// A run of bits, filled from the highest place of word 0.
#[derive(Clone, Copy)]
struct Bits {
    w: [u64; 9],
    n: u32,
}

impl Bits {
    #[inline]
    fn push(&mut self, v: u64, len: u32) {
        // len 1 to 64, v below 2^len
        let (i, s) = ((self.n >> 6) as usize, self.n & 63);
        let top = v << (64 - len);
        self.w[i] |= top >> s;
        self.w[i + 1] |= top << 1 << (63 - s);
        self.n += len;
    }
}

#[derive(Clone, Copy)]
struct Open {
    set: u32, // out-links of the open subtrie, nibble 0 highest
    nodes: u32,
    lev: [Bits; 4],
    t: u32,
    b: u32,
    roots: u32,
    outs: u32,
    no: u32,
}

/// Node bits of a subtrie's four levels and their node counts.
#[inline]
fn levels(set: u32) -> ([u32; 4], [u32; 4]) {
    if set & (set - 1) == 0 {
        let nib = set.leading_zeros() - 16;
        let n = |k: u32| 2 >> (nib >> k & 1);
        return ([n(3), n(2), n(1), n(0)], [1; 4]);
    }
    let fold = |x: u32, pairs: u32| {
        // packed pairs that are not 00, their number, and one bit a pair
        let (mut out, mut n, mut up) = (0, 0, 0);
        for i in (0..pairs).rev() {
            let v = x >> (2 * i) & 3;
            let on = (v != 0) as u32;
            out = out << (2 * on) | v;
            n += on;
            up = up << 1 | on;
        }
        (out, n, up)
    };
    let (x4, n4, m3) = fold(set, 8);
    let (x3, n3, m2) = fold(m3, 4);
    let (x2, n2, m1) = fold(m2, 2);
    ([m1, x2, x3, x4], [1, n2, n3, n4])
}

fn flush(o: &mut Open, out: &mut [u8]) {
    let mut page = Bits { w: [0; 9], n: 0 };
    page.push((o.t as u64) << 16 | o.b as u64, 32);
    for l in o.lev.iter_mut() {
        let mut left = l.n;
        for w in l.w.iter_mut() {
            if left == 0 {
                break;
            }
            let take = left.min(64);
            page.push(*w >> (64 - take), take);
            left -= take;
            *w = 0;
        }
        l.n = 0;
    }
    let dst = &mut out[PAGE * o.no as usize..][..PAGE];
    for i in 0..8 {
        dst[8 * i..8 * i + 8].copy_from_slice(&page.w[i].to_be_bytes());
    }
    o.no += 1;
    o.nodes = 0;
    o.t = o.roots;
    o.b = o.outs;
}

fn close(o: &mut Open, out: &mut [u8]) {
    let (x, n) = levels(o.set);
    let total = n[0] + n[1] + n[2] + n[3];
    if o.nodes + total > CAP {
        flush(o, out);
    }
    for k in 0..4 {
        o.lev[k].push(x[k] as u64, 2 * n[k]);
    }
    o.nodes += total;
    o.roots += 1;
    o.outs += o.set.count_ones();
}

/// The writer: questions 35, 14, 15 and 17, then the image's length.
pub fn write(list: &[Admission], lift: u32, out: &mut [u8]) -> Result<usize, No> {
    if !(1..=999).contains(&lift) {
        return Err(No(35));
    }
    if list.len() > MAX_KEYS {
        return Err(No(14));
    }
    write_keys(list.iter().map(|a| weave(a.holder, a.slot)), lift, out)
}

/// Questions 15 and 17 and the image of at most 4,096 keys, for a lift, or for 0 in version 1.
#[inline]
fn write_keys(keys: impl ExactSizeIterator<Item = u32> + Clone, lift: u32, out: &mut [u8]) -> Result<usize, No> {
    let mut pages = [0u32; BANDS];
    let mut roots = [0u32; BANDS];
    // First pass: page and root counts, question 15 on the way.
    let mut pass = keys.clone();
    if let Some(mut prev) = pass.next() {
        let mut page = [CAP; BANDS]; // nodes of the open page; "full" before the first one
        let mut sub = [4u32; BANDS];
        roots = [1; BANDS];
        let settle = |b: usize, page: &mut [u32; 8], pages: &mut [u32; 8], s: u32| {
            if page[b] + s <= CAP {
                page[b] += s;
            } else {
                pages[b] += 1;
                page[b] = s;
            }
        };
        for key in pass {
            if key <= prev {
                return Err(No(15));
            }
            let common = (key ^ prev).leading_zeros();
            prev = key;
            let c = (common / 4) as usize;
            sub[c] += 3 - common % 4;
            for b in c + 1..BANDS {
                settle(b, &mut page, &mut pages, sub[b]);
                sub[b] = 4;
                roots[b] += 1;
            }
        }
        for b in 0..BANDS {
            settle(b, &mut page, &mut pages, sub[b]);
        }
    }
    let len = PAGE * (1 + pages.iter().sum::<u32>() as usize);
    if out.len() < len {
        return Err(No(17));
    }
    // Header.
    let hd = &mut out[..PAGE];
    hd.fill(0);
    hd[..5].copy_from_slice(&[0x4c, 0x50, 0x54, 0, 1 + (lift > 0) as u8]);
    hd[40..42].copy_from_slice(&(lift as u16).to_be_bytes());
    hd[6..8].copy_from_slice(&(keys.len() as u16).to_be_bytes());
    for b in 0..BANDS {
        hd[8 + 4 * b..][..2].copy_from_slice(&(pages[b] as u16).to_be_bytes());
        hd[10 + 4 * b..][..2].copy_from_slice(&(roots[b] as u16).to_be_bytes());
    }
    let mut pass = keys;
    let Some(mut prev) = pass.next() else { return Ok(len) };
    // Second pass: the pages.
    const O: Open =
        Open { set: 0, nodes: 0, lev: [Bits { w: [0; 9], n: 0 }; 4], t: 0, b: 0, roots: 0, outs: 0, no: 0 };
    let mut open = [O; BANDS];
    let mut no = 1;
    let place = |key: u32, b: usize| 0x8000u32 >> (key >> (28 - 4 * b) & 15);
    for b in 0..BANDS {
        open[b].no = no;
        no += pages[b];
        open[b].set = place(prev, b);
    }
    for key in pass {
        let c = ((key ^ prev).leading_zeros() / 4) as usize;
        prev = key;
        open[c].set |= place(key, c);
        for b in c + 1..BANDS {
            close(&mut open[b], out);
            open[b].set = place(key, b);
        }
    }
    for o in open.iter_mut() {
        close(o, out);
        flush(o, out);
    }
    Ok(len)
}

// ---------------------------------------------------------------------------------------- edit

/// One admission added or withdrawn: the keys are listed and changed, and their image is written.
pub fn edit<const ADD: bool>(img: &[u8], rec: &[u32], holder: u16, slot: u16, out: &mut [u8], out_rec: &mut [u32]) -> Result<usize, No> {
    let h = accepted(img)?;
    let n = h.keys as usize;
    if rec.len() != n + LANES {
        return Err(No(21));
    }
    let mut keys = [0u32; MAX_KEYS];
    list_in(img, &h, &Rect { h0: 0, h1: u16::MAX, s0: 0, s1: u16::MAX }, &mut keys);
    let key = weave(holder, slot);
    let (rank, m) = match (keys[..n].binary_search(&key), ADD) {
        (Ok(_), true) | (Err(_), false) => return Err(No(30)),
        (Err(_), true) if n == MAX_KEYS => return Err(No(14)),
        (Err(i), true) => {
            keys.copy_within(i..n, i + 1);
            keys[i] = key;
            (i, n + 1)
        }
        (Ok(i), false) => {
            keys.copy_within(i + 1..n, i);
            (i, n - 1)
        }
    };
    if out_rec.len() < m + LANES {
        return Err(No(17));
    }
    let len = write_keys(keys[..m].iter().copied(), h.lift, out)?;
    out_rec[..rank].copy_from_slice(&rec[..rank]);
    if ADD {
        out_rec[rank] = 0;
        out_rec[rank + 1..m + LANES].copy_from_slice(&rec[rank..]);
    } else {
        out_rec[rank..m + LANES].copy_from_slice(&rec[rank + 1..]);
    }
    Ok(len)
}

// -------------------------------------------------------------------------------------- repair

/// No accepted image has more pages.
const MOST_PAGES: usize = MOST_BYTES / PAGE - 1;

/// The page counts, if no kept byte of the header speaks against an accepted image.
#[inline]
fn kept_pages(img: &[u8]) -> Option<[u32; BANDS]> {
    let b = img.first_chunk::<PAGE>()?;
    let lift = be16(b, 40);
    let lift_fits = match be16(b, 3) { 1 => lift == 0, 2 => lift.wrapping_sub(1) < 999, _ => false };
    if !lift_fits || b[0..3] != [0x4c, 0x50, 0x54] || b[5] != 0 || b[42..64] != [0u8; 22] {
        return None;
    }
    let pages = core::array::from_fn(|i| be16(b, 8 + 4 * i));
    let all = pages.iter().sum::<u32>() as usize;
    (all <= MOST_PAGES && img.len() == PAGE * (1 + all)).then_some(pages)
}

/// A page's roots and shape from its nodes alone. A root more takes 4 to 15 nodes more, so at most one number of
/// roots uses them all; the first one tried has as many nodes each as the page before had, `last` being its roots and nodes.
#[inline]
fn roots_by_nodes(p: &Page, last: (u32, u32)) -> Option<(u32, Shape)> {
    if p.cum[8] == 0 {
        return None;
    }
    let n = p.node_count();
    if !p.just_first(n) {
        return None;
    }
    let (mut low, mut high) = (n.div_ceil(15), (n / 4).min(60));
    let mut near = if n == last.1 { last.0 } else { last.0 * n / last.1 };
    while low <= high {
        let r = near.max(low).min(high);
        let e2 = r + p.rank(2 * r);
        let e3 = r + p.rank(2 * e2);
        // past the page about as many again
        let e4 = if e3 > CAP { 2 * e3 - e2 } else { r + p.rank(2 * e3) };
        if e4 == n {
            return Some((r, Shape { e2, e3, e4, outs: p.cum[8] - (n - r) }));
        }
        if e4 > n {
            high = r - 1;
        } else {
            low = r + (n - e4).div_ceil(15);
            high = high.min(r + (n - e4) / 4);
        }
        near = (r * n + e4 / 2) / e4;
    }
    None
}

/// The numbers worked out afresh: key count and root counts, and of each page T in the upper half, B in the lower.
struct Numbers {
    counts: [u32; 1 + BANDS],
    heads: [u32; MOST_PAGES],
}

/// Those of the accepted image that agrees in the kept bytes, if there is one.
#[inline]
fn numbers(img: &[u8]) -> Option<Numbers> {
    let pages = kept_pages(img)?;
    let mut n = Numbers { counts: [0; 1 + BANDS], heads: [0; MOST_PAGES] };
    let mut no = 0;
    let mut due = (img.len() > PAGE) as u32; // one root in band 1, if there are pages
    for band in 0..BANDS {
        let (mut t, mut b, mut last) = (0, 0, (60, CAP));
        for i in 0..pages[band] {
            let p = Page::load(page_bytes(img, no as u32 + 1));
            let (r, s) = roots_by_nodes(&p, last)?;
            // no subtrie has less than four nodes
            if i > 0 && last.1 <= CAP - 4 && first_nodes(&p, r, &s) + last.1 <= CAP {
                return None;
            }
            n.heads[no] = t << 16 | b;
            no += 1;
            t += r;
            b += s.outs;
            last = (r, s.e4);
        }
        if t != due {
            return None;
        }
        n.counts[1 + band] = t;
        due = b;
    }
    n.counts[0] = due;
    (due <= MAX_KEYS as u32).then_some(n)
}

/// Damaged heads repaired: how many 16-bit numbers were altered. Nothing is written before all pages are judged.
pub fn repair(img: &[u8], out: &mut [u8]) -> Result<u32, No> {
    let Some(out) = out.get_mut(..img.len()) else { return Err(No(17)) };
    let n = numbers(img).ok_or(No(37))?;
    let mut altered = 0;
    out.copy_from_slice(img);
    for (page, head) in out[PAGE..].chunks_exact_mut(PAGE).zip(n.heads) {
        let differs = u32::from_be_bytes(*page.first_chunk().unwrap()) ^ head;
        altered += (differs >> 16 != 0) as u32 + (differs & 0xffff != 0) as u32;
        page[..4].copy_from_slice(&head.to_be_bytes());
    }
    for (i, x) in n.counts.into_iter().enumerate() {
        altered += (be16(img, 6 + 4 * i) != x) as u32;
        out[6 + 4 * i..][..2].copy_from_slice(&(x as u16).to_be_bytes());
    }
    Ok(altered)
}
