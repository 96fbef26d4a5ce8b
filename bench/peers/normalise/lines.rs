//! A line as a bit per column, and its plain form.

/// Bit i is set if column i + 1 is a space. `high` has columns 65 to 80.
#[derive(Clone, Copy)]
pub struct Blank {
    pub low: u64,
    pub high: u32,
}

impl Blank {
    pub fn all(self) -> u128 {
        self.low as u128 | (self.high as u128) << 64
    }
}

/// None if a byte is outside 0x20 to 0x7E.
#[cfg(target_arch = "x86_64")]
#[inline(always)]
pub fn classify(line: &[u8; 80]) -> Option<Blank> {
    use std::arch::x86_64::*;
    // SSE2 is a part of x86_64; the five loads lie inside the array.
    unsafe {
        let space = _mm_set1_epi8(0x20);
        let delete = _mm_set1_epi8(0x7F);
        let mut bad = _mm_setzero_si128();
        let mut blank = [0u64; 5];
        for i in 0..5 {
            let v = _mm_loadu_si128(line.as_ptr().add(16 * i).cast());
            // Signed: 0x80 to 0xFF are below 0x20 too.
            bad = _mm_or_si128(
                bad,
                _mm_or_si128(_mm_cmplt_epi8(v, space), _mm_cmpeq_epi8(v, delete)),
            );
            blank[i] = _mm_movemask_epi8(_mm_cmpeq_epi8(v, space)) as u32 as u64;
        }
        if _mm_movemask_epi8(bad) != 0 {
            return None;
        }
        Some(Blank {
            low: blank[0] | blank[1] << 16 | blank[2] << 32 | blank[3] << 48,
            high: blank[4] as u32,
        })
    }
}

#[cfg(not(target_arch = "x86_64"))]
#[inline(always)]
pub fn classify(line: &[u8; 80]) -> Option<Blank> {
    let mut all = 0u128;
    for (i, &b) in line.iter().enumerate() {
        if !(0x20..=0x7E).contains(&b) {
            return None;
        }
        all |= ((b == b' ') as u128) << i;
    }
    Some(Blank {
        low: all as u64,
        high: (all >> 64) as u32,
    })
}

/// Whether the text at offset AT is left-justified.
#[inline(always)]
fn left(blank: u64, at: u32, len: u32) -> bool {
    let mask = (1u64 << len) - 1;
    let field = (blank >> at) & mask;
    field & 1 == 0 || field == mask
}

#[inline(always)]
pub fn left_wide(blank: u128, at: u32, len: u32) -> bool {
    let mask = (1u128 << len) - 1;
    let field = (blank >> at) & mask;
    field & 1 == 0 || field == mask
}

/// Whether the six activity codes at offset AT are packed to the left.
#[inline(always)]
fn packed(blank: u64, at: u32) -> bool {
    let field = (blank >> at) as u32 & 0xFFF;
    let pairs = field & (field >> 1) & 0x555;
    pairs == 0 || pairs >> pairs.trailing_zeros() == 0x555 >> pairs.trailing_zeros()
}

/// HHMM from 0000 to 2359.
#[inline(always)]
fn hhmm(line: &[u8; 80], at: usize) -> bool {
    let x = u32::from_le_bytes([line[at], line[at + 1], line[at + 2], line[at + 3]]) ^ 0x3030_3030;
    let digits = (x | x.wrapping_add(0x7676_7676)) & 0x8080_8080 == 0;
    let hour = (x & 0xFF) * 10 + (x >> 8 & 0xFF);
    digits & (hour < 24) & ((x >> 16 & 0xFF) < 6)
}

#[inline(always)]
pub fn work_time(line: &[u8; 80], blank: u64, at: usize) -> bool {
    (blank >> at) & 0x1F == 0x1F
        || (hhmm(line, at) && (line[at + 4] == b' ' || line[at + 4] == b'H'))
}

#[inline(always)]
pub fn public_time(line: &[u8; 80], blank: u64, at: usize) -> bool {
    (blank >> at) & 0xF == 0xF || hhmm(line, at)
}

const LI_SPARE: u64 = !0 << 60;
const LO_SPARE: u64 = !0 << 43;
const LT_SPARE: u64 = !0 << 37;
const BX_SPARE: u64 = !0 << 23;

#[inline(always)]
fn spare(blank: Blank, low: u64) -> bool {
    blank.low & low == low && blank.high == 0xFFFF
}

#[inline(always)]
pub fn li_plain(blank: Blank) -> bool {
    let b = blank.low;
    spare(blank, LI_SPARE)
        && left(b, 2, 7)
            & left(b, 33, 3)
            & left(b, 36, 3)
            & left(b, 39, 3)
            & left(b, 54, 2)
            & left(b, 56, 2)
            & left(b, 58, 2)
            & packed(b, 42)
}

#[inline(always)]
pub fn lo_plain(blank: Blank) -> bool {
    let b = blank.low;
    spare(blank, LO_SPARE)
        && left(b, 2, 7)
            & left(b, 19, 3)
            & left(b, 22, 3)
            & left(b, 25, 2)
            & left(b, 27, 2)
            & left(b, 41, 2)
        && packed(b, 29)
}

#[inline(always)]
pub fn lt_plain(blank: Blank) -> bool {
    let b = blank.low;
    spare(blank, LT_SPARE) && left(b, 2, 7) & left(b, 19, 3) & left(b, 22, 3) && packed(b, 25)
}

#[inline(always)]
pub fn bx_plain(blank: Blank) -> bool {
    let b = blank.low;
    spare(blank, BX_SPARE) && left(b, 2, 4) & left(b, 6, 5) & left(b, 11, 2) & left(b, 14, 8)
}

/// The texts of BS from column 30 to column 78 that are wider than one column.
pub const BS_TEXTS: &[(u32, u32)] = &[
    (30, 2),
    (32, 4),
    (36, 4),
    (41, 8),
    (50, 3),
    (53, 4),
    (57, 3),
    (60, 6),
    (70, 4),
    (74, 4),
];
pub const CR_TEXTS: &[(u32, u32)] = &[
    (2, 7),
    (10, 2),
    (12, 4),
    (16, 4),
    (21, 8),
    (30, 3),
    (33, 4),
    (37, 3),
    (40, 6),
    (50, 4),
    (54, 4),
    (58, 4),
    (62, 5),
    (67, 8),
];
pub const LO_TEXTS: &[(u32, u32)] = &[(2, 7), (19, 3), (22, 3), (25, 2), (27, 2), (41, 2)];
pub const LI_TEXTS: &[(u32, u32)] = &[(2, 7), (33, 3), (36, 3), (39, 3), (54, 2), (56, 2), (58, 2)];
pub const LT_TEXTS: &[(u32, u32)] = &[(2, 7), (19, 3), (22, 3)];
pub const BX_TEXTS: &[(u32, u32)] = &[(2, 4), (6, 5), (11, 2), (14, 8)];
pub const AA_TEXTS: &[(u32, u32)] = &[(34, 2), (37, 7)];

/// The plain form of a line: texts moved left, activities packed, spare columns blank.
pub fn plain(
    line: &[u8; 80],
    texts: &[(u32, u32)],
    activities: Option<usize>,
    spare_from: usize,
) -> [u8; 80] {
    let mut out = *line;
    for &(at, len) in texts {
        let field = &mut out[at as usize..(at + len) as usize];
        if let Some(from) = field.iter().position(|&b| b != b' ') {
            field.rotate_left(from);
        }
    }
    if let Some(at) = activities {
        let mut codes = [b' '; 12];
        let mut n = 0;
        for code in out[at..at + 12].chunks(2) {
            if code != b"  " {
                codes[n..n + 2].copy_from_slice(code);
                n += 2;
            }
        }
        out[at..at + 12].copy_from_slice(&codes);
    }
    out[spare_from..].fill(b' ');
    out
}
