// What the driver calls of the peer, appended to its reading and its cycle: hand-written Rust like these. Nothing here is the product's. The rows are those of
// today: an li's first flag says whether WB writes its rd, and marks say which lanes were clamped. Where marks are asked for, in rows and by the plain machine, the
// peer makes value and mark together; its runs make none, like ours.
#[inline] fn at<'a>(p: *const u8, n: usize) -> &'a [u8] { unsafe { core::slice::from_raw_parts(p, n) } }
#[no_mangle] pub extern "C" fn peer_size() -> usize { core::mem::size_of::<Unit>() }
#[no_mangle] pub extern "C" fn peer_registers(u: &Unit, out: &mut [Reg; 32]) { *out = u.regs; }
#[no_mangle] pub extern "C" fn peer_start(u: &mut Unit, p: *const u8, n: usize) -> u32 { read_job(at(p, n), u) as u32 }
#[no_mangle] pub extern "C" fn peer_run(u: &mut Unit, p: *const u8, n: usize) -> u32 {
    *u = fresh();
    let no = read_job(at(p, n), u);
    if no != 0 { return no as u32; }
    while !drained(u) { cycle(u); }
    0
}
#[inline(never)] fn one_cycle(u: &mut Unit) -> u32 { if drained(u) { return 8; } cycle(u); 0 }
#[no_mangle] pub extern "C" fn peer_cycles(u: &mut Unit, p: *const u8, n: usize) -> u32 {
    *u = fresh();
    let no = read_job(at(p, n), u);
    if no != 0 { return no as u32; }
    let mut all = 0;
    for _ in 0..67 { all = one_cycle(u); }
    all
}
#[inline(always)] fn clamp16(z: i32) -> (u16, bool) { let v = z.clamp(-0x8000, 0x7fff); (v as u16, v != z) }
#[inline(always)] fn halves_marked(a: Reg, b: Reg, f: impl Fn(i32, i32) -> i32) -> (Reg, u8) {
    let (mut r, mut m) = ([0; 4], 0);
    for k in 0..4 {
        let (lo, x) = clamp16(f(a[k] as i16 as i32, b[k] as i16 as i32));
        let (hi, y) = clamp16(f((a[k] >> 16) as i16 as i32, (b[k] >> 16) as i16 as i32));
        r[k] = (hi as u32) << 16 | lo as u32;
        m |= (x as u8 | (y as u8) << 1) << (2 * k);
    }
    (r, m)
}
fn alu_marked(w: u32, a: Reg, b: Reg, c: Reg) -> (Reg, u8) {
    if w >> 23 == 2 {
        let (sub, high) = (w >> 21 & 1 == 1, w >> 20 & 1 == 1);
        let mut m = 0;
        if w >> 22 & 1 == 0 {
            let s = if high { 16 } else { 0 };
            let mut r = [0; 4];
            for k in 0..4 {
                let p = (b[k] >> s) as i16 as i64 * (c[k] >> s) as i16 as i64;
                let t = a[k] as i32 as i64;
                let z = if sub { t - p } else { t + p };
                let v = z.clamp(i32::MIN as i64, i32::MAX as i64);
                r[k] = v as u32;
                m |= ((v != z) as u8) << (2 * k);
            }
            return (r, m);
        }
        let s = if high { 32 } else { 0 };
        let mut r = [0; 4];
        for k in 0..2 {
            let p = (long(b, k) >> s) as i32 as i64 * (long(c, k) >> s) as i32 as i64;
            let t = long(a, k) as i64;
            let (z, lost) = if sub { t.overflowing_sub(p) } else { t.overflowing_add(p) };
            let v = if lost { if t < 0 { i64::MIN } else { i64::MAX } } else { z };
            r[2 * k] = v as u32; r[2 * k + 1] = (v as u64 >> 32) as u32;
            m |= (lost as u8) << (4 * k);
        }
        return (r, m);
    }
    if w >> 23 == 3 && w >> 15 & 15 == 4 { return halves_marked(a, b, |x, y| x + y); }
    if w >> 23 == 3 && w >> 15 & 15 == 15 { return halves_marked(a, b, |x, y| y - x); }
    (alu(w, a, b, c), 0)
}
// The peer's cycle once more, with the mark of what EX makes.
#[inline] fn cycle_marked(u: &mut Unit, mark: &mut u8) {
    let wb = match u.exwb { Some((w, v)) if writes(w) => { u.regs[(w & 31) as usize] = v; Some(((w & 31) as usize, v)) } _ => None };
    u.exwb = u.idex.map(|(w, mut a, mut b, mut c)| {
        if let Some((rd, v)) = wb {
            let m = reads(w);
            if m & 1 != 0 && f1(w) == rd { a = v; }
            if m & 2 != 0 && (w >> 10 & 31) as usize == rd { b = v; }
            if m & 4 != 0 && (w >> 15 & 31) as usize == rd { c = v; }
        }
        let (v, m) = alu_marked(w, a, b, c);
        *mark = m;
        (w, v)
    });
    u.idex = u.ifid.map(|w| (w, u.regs[f1(w)], u.regs[(w >> 10 & 31) as usize], u.regs[(w >> 15 & 31) as usize]));
    u.ifid = if u.count < u.n { u.count += 1; Some(u.program[u.count - 1]) } else { None };
    u.cycle += 1;
}
#[no_mangle] pub extern "C" fn peer_plain(out: &mut [Reg; 32], words: *const u32, n: usize, file: &[Reg; 32], marks: &mut [u8; 64]) -> u32 {
    let words = unsafe { core::slice::from_raw_parts(words, n) };
    if n > 64 { return 2; }
    if words.iter().any(|&w| w >= 1 << 25) { return 6; }
    *out = *file;
    *marks = [0; 64];
    for (k, &w) in words.iter().enumerate() {
        let (v, m) = alu_marked(w, out[f1(w)], out[(w >> 10 & 31) as usize], out[(w >> 15 & 31) as usize]);
        if writes(w) { out[(w & 31) as usize] = v; }
        marks[k] = m;
    }
    0
}
const HEX: &[u8; 16] = b"0123456789ABCDEF";
fn hex(out: &mut [u8], mut w: u32) { for b in out.iter_mut().rev() { *b = HEX[(w & 15) as usize]; w >>= 4; } }
fn two(out: &mut [u8], n: usize) { out[0] = b'0' + (n / 10 % 10) as u8; out[1] = b'0' + (n % 10) as u8; }
fn stage(out: &mut [u8], w: Option<u32>) { match w { Some(w) => hex(&mut out[..7], w), None => out[..7].fill(b'-') } }
fn row(out: &mut [u8; 78], before: &Unit, mark: u8, after_if: Option<u32>, number: usize) {
    out.fill(b' ');
    two(&mut out[0..], number);
    let (id, ex, wb) = (before.ifid, before.idex.map(|x| x.0), before.exwb);
    stage(&mut out[3..], after_if); stage(&mut out[11..], id); stage(&mut out[19..], ex); stage(&mut out[27..], wb.map(|x| x.0));
    let target = match wb { Some((w, v)) if writes(w) => Some(((w & 31) as usize, v)), _ => None };
    let mut flags = [false; 3];
    if let (Some(w), Some((rd, _))) = (ex, target) {
        let m = reads(w);
        flags = [m & 1 != 0 && f1(w) == rd, m & 2 != 0 && (w >> 10 & 31) as usize == rd, m & 4 != 0 && (w >> 15 & 31) as usize == rd];
    }
    for k in 0..3 { out[35 + k] = b'0' + flags[k] as u8; }
    match target {
        Some((rd, v)) => { two(&mut out[39..], rd); for k in 0..4 { hex(&mut out[42 + 8 * k..50 + 8 * k], v[3 - k]); } hex(&mut out[75..77], mark as u32); }
        None => { out[39..41].fill(b'-'); out[42..74].fill(b'-'); out[75..77].fill(b'-'); }
    }
    out[77] = b'\n';
}
#[no_mangle] pub extern "C" fn peer_report(p: *const u8, n: usize, out: &mut [u8; 5233]) -> usize {
    let mut u = fresh();
    let no = read_job(at(p, n), &mut u);
    if no != 0 { out[..8].copy_from_slice(b"REFUSED "); out[8] = b'0' + no; out[9] = b'\n'; return 10; }
    let (mut k, mut mark) = (0, 0);
    while !drained(&u) {
        let fetched = if u.count < u.n { Some(u.program[u.count]) } else { None };
        row((&mut out[78 * k..78 * k + 78]).try_into().unwrap(), &u, mark, fetched, k + 1);
        cycle_marked(&mut u, &mut mark); k += 1;
    }
    let end = 78 * k;
    out[end..end + 4].copy_from_slice(b"END "); two(&mut out[end + 4..], k); out[end + 6] = b'\n';
    end + 7
}
#[no_mangle] pub extern "C" fn peer_write(words: *const u32, n: usize, regs: *const u8, r: usize, out: *mut u8, room: usize) -> usize {
    let (words, regs, out) = unsafe { (core::slice::from_raw_parts(words, n), core::slice::from_raw_parts(regs, r), core::slice::from_raw_parts_mut(out, room)) };
    if n > 64 || r > 512 || r % 16 != 0 || words.iter().any(|&w| w >= 1 << 25) { return 0; }
    let size = 8 + 4 * n + r;
    if size > room { return 0; }
    for (k, h) in [n, r / 16, 8, 8 + 4 * n].into_iter().enumerate() { out[2 * k..2 * k + 2].copy_from_slice(&(h as u16).to_le_bytes()); }
    for (k, w) in words.iter().enumerate() { out[8 + 4 * k..12 + 4 * k].copy_from_slice(&w.to_le_bytes()); }
    out[8 + 4 * n..size].copy_from_slice(regs);
    size
}
