//! Tables of the CRC, of hexadecimal digits and of short texts; numbers read and written eight bytes at a time.

pub const fn crc_tables() -> [[u16; 256]; 8] {
    let mut t = [[0u16; 256]; 8];
    let mut i = 0;
    while i < 256 {
        let mut c = (i as u16) << 8;
        let mut k = 0;
        while k < 8 {
            c = if c & 0x8000 != 0 { (c << 1) ^ 0x1021 } else { c << 1 };
            k += 1;
        }
        t[0][i] = c;
        i += 1;
    }
    let mut n = 1;
    while n < 8 {
        let mut i = 0;
        while i < 256 {
            let c = t[n - 1][i];
            t[n][i] = (c << 8) ^ t[0][(c >> 8) as usize];
            i += 1;
        }
        n += 1;
    }
    t
}
pub static CRC: [[u16; 256]; 8] = crc_tables();

pub const fn hex_texts() -> [[u8; 2]; 256] {
    let d = b"0123456789ABCDEF";
    let mut t = [[0u8; 2]; 256];
    let mut i = 0;
    while i < 256 {
        t[i] = [d[i >> 4], d[i & 15]];
        i += 1;
    }
    t
}
pub static HEX_TEXT: [[u8; 2]; 256] = hex_texts();

pub const NOT_HEX: u16 = 0x100;

/// The byte of two hex digits, the first digit in the low byte of the index, or NOT_HEX.
pub const fn hex_values() -> [u16; 65536] {
    let d = b"00112233445566778899AaBbCcDdEeFf";
    let mut t = [NOT_HEX; 65536];
    let mut i = 0;
    while i < 1024 {
        let (h, l) = (i / 32, i % 32);
        t[d[h] as usize | (d[l] as usize) << 8] = (h as u16 / 2) << 4 | l as u16 / 2;
        i += 1;
    }
    t
}
pub static HEX_VALUE: [u16; 65536] = hex_values();

/// The bytes of eight hex digits; one of them is NOT_HEX or above where one digit isn't one.
#[inline(always)]
pub fn four_pairs(b: &[u8; 8]) -> [u16; 4] {
    let v = |i| HEX_VALUE[u16::from_le_bytes(b[i..i + 2].try_into().unwrap()) as usize];
    [v(0), v(2), v(4), v(6)]
}

/// `PRIORITY TID ` as eight bytes, the last of them the length; by priority * 32 + transfer-ID.
pub const fn priority_texts() -> [[u8; 8]; 256] {
    let mut t = [[b' '; 8]; 256];
    let mut i = 0;
    while i < 256 {
        let (p, n) = (b'0' + (i / 32) as u8, (i % 32) as u8);
        t[i][0] = p;
        if n < 10 {
            t[i][2] = b'0' + n;
            t[i][7] = 4;
        } else {
            t[i][2] = b'0' + n / 10;
            t[i][3] = b'0' + n % 10;
            t[i][7] = 5;
        }
        i += 1;
    }
    t
}
pub static PRIORITY_TEXT: [[u8; 8]; 256] = priority_texts();

/// Bit n: n is a valid data length of CAN FD; 64 is asked for apart.
pub const FD_LENGTHS: u64 = 0x1FF | 1 << 12 | 1 << 16 | 1 << 20 | 1 << 24 | 1 << 32 | 1 << 48;

pub fn is_data_length(fd: bool, n: usize) -> bool {
    if fd {
        n == 64 || (n < 64 && FD_LENGTHS >> n & 1 == 1)
    } else {
        n <= 8
    }
}

#[inline(always)]
pub fn crc_over(mut crc: u16, mut b: &[u8]) -> u16 {
    while let Some((w, rest)) = b.split_first_chunk::<8>() {
        crc = CRC[7][(w[0] ^ (crc >> 8) as u8) as usize]
            ^ CRC[6][(w[1] ^ crc as u8) as usize]
            ^ CRC[5][w[2] as usize]
            ^ CRC[4][w[3] as usize]
            ^ CRC[3][w[4] as usize]
            ^ CRC[2][w[5] as usize]
            ^ CRC[1][w[6] as usize]
            ^ CRC[0][w[7] as usize];
        b = rest;
    }
    if let Ok(w) = <&[u8; 7]>::try_from(b) {
        return CRC[6][(w[0] ^ (crc >> 8) as u8) as usize]
            ^ CRC[5][(w[1] ^ crc as u8) as usize]
            ^ CRC[4][w[2] as usize]
            ^ CRC[3][w[3] as usize]
            ^ CRC[2][w[4] as usize]
            ^ CRC[1][w[5] as usize]
            ^ CRC[0][w[6] as usize];
    }
    for &x in b {
        crc = crc << 8 ^ CRC[0][((crc >> 8) as u8 ^ x) as usize];
    }
    crc
}

pub const ONES: u64 = 0x0101_0101_0101_0101;

/// A window of fixed size, so that one check of bounds stands for all of it.
#[inline(always)]
pub fn at<const N: usize>(b: &[u8], p: usize) -> &[u8; N] {
    b[p..p + N].try_into().unwrap()
}

/// The first 8 or 16 bytes of a window as a number, the first in the low byte.
#[inline(always)]
pub fn load_eight(b: &[u8]) -> u64 {
    u64::from_le_bytes(b[..8].try_into().unwrap())
}

#[inline(always)]
pub fn load_sixteen(b: &[u8]) -> u128 {
    u128::from_le_bytes(b[..16].try_into().unwrap())
}

/// Eight decimal digits, the first in the low byte.
#[inline(always)]
pub fn eight_digits(w: u64) -> u64 {
    let n = (w & 0x0F * ONES).wrapping_mul(2561) >> 8 & 0x00FF_00FF_00FF_00FF;
    let n = n.wrapping_mul(6_553_601) >> 16 & 0x0000_FFFF_0000_FFFF;
    n.wrapping_mul(42_949_672_960_001) >> 32
}

/// The values of the eight decimal digits of v, below 10^8, the first in the low byte.
#[inline(always)]
pub fn digit_values(v: u64) -> u64 {
    let x = v / 10_000 | (v % 10_000) << 32;
    let y = x * 10_486 >> 20 & 0x0000_007F_0000_007F;
    let x = y | (x - 100 * y) << 16;
    let y = x * 103 >> 10 & 0x000F_000F_000F_000F;
    y | (x - 10 * y) << 8
}

/// The text of v, below 10^7, with a space behind it, and the length with it.
#[inline(always)]
pub fn short_decimal(v: u64) -> (u64, usize) {
    let d = digit_values(v);
    let zeros = ((d | 1 << 56).trailing_zeros() & !7) as usize;
    (((d | 0x30 * ONES) >> zeros) | (0x20 << 56) >> (zeros - 8), 9 - zeros / 8)
}
