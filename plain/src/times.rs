//! The 33-bit clock and the times of PES headers.

use crate::Refusal;

const BITS: u32 = 33;
const TURN: u64 = 1 << BITS;
const HALF: u64 = TURN / 2;

/// Whether a value is a time.
pub(crate) fn is_time(value: u64) -> bool {
    value < TURN
}

/// The forward distance from one time to another.
pub fn distance(from: u64, to: u64) -> u64 {
    to.wrapping_sub(from) % TURN
}

/// Whether one time lies before another: the forward distance from the other to it is 2^32 or more.
fn before(time: u64, other: u64) -> bool {
    distance(other, time) >= HALF
}

/// How far a time lies behind another: their difference modulo 2^33, from -2^32 to 2^32-1.
pub fn lag(time: u64, other: u64) -> i64 {
    let forward = distance(other, time) as i64;
    if forward >= HALF as i64 {
        forward - TURN as i64
    } else {
        forward
    }
}

/// The times of a PES header.
#[derive(Clone, Copy, Debug, PartialEq, Eq)]
pub struct Times {
    /// PTS
    pub pts: u64,
    /// DTS, or PTS without a DTS
    pub decoding: u64,
    /// TREF, or the decoding time without one
    pub matching: u64,
}

/// What a PES header says.
#[derive(Clone, Copy, Debug, PartialEq, Eq)]
pub struct Header {
    /// its times
    pub times: Times,
    /// whether a TREF stood in it, whatever its value
    pub tref_sent: bool,
    /// the offset at which it ends, stuffing included
    pub end: usize,
}

const FIXED: usize = 9;
const START_PREFIX: [u8; 3] = [0, 0, 1];
const PTS_ALONE: u8 = 0b0010;
const PTS_BEFORE_DTS: u8 = 0b0011;
const DTS: u8 = 0b0001;
const TREF: u8 = 0b1111;

/// Takes fields from the front of the header data; 22 where one doesn't fit.
struct Fields<'a> {
    rest: &'a [u8],
}

impl<'a> Fields<'a> {
    #[inline]
    fn take(&mut self, length: usize) -> Result<&'a [u8], Refusal> {
        if length > self.rest.len() {
            return Err(Refusal::of(22));
        }
        let (field, rest) = self.rest.split_at(length);
        self.rest = rest;
        Ok(field)
    }

    #[inline]
    fn take_byte(&mut self) -> Result<u8, Refusal> {
        Ok(self.take(1)?[0])
    }

    #[inline]
    fn skip(&mut self, length: usize, flagged: bool) -> Result<(), Refusal> {
        if flagged {
            self.take(length)?;
        }
        Ok(())
    }
}

/// Reads the times of a PES header, whether a TREF stood in it and where it ends, or the refusal, 20 to 24.
pub fn read_times(bytes: &[u8]) -> Result<Header, Refusal> {
    let data = header_data(bytes).ok_or(Refusal::of(20))?;
    let mut fields = Fields { rest: data };
    let flags = bytes[7];
    if flags & 0x80 == 0 {
        return Err(Refusal::of(21));
    }

    // All that concerns lengths is settled before a marker bit is judged.
    let pts = fields.take(5)?;
    let dts = if flags & 0x40 != 0 {
        Some(fields.take(5)?)
    } else {
        None
    };
    fields.skip(6, flags & 0x20 != 0)?; // ESCR
    fields.skip(3, flags & 0x10 != 0)?; // ES rate
    fields.skip(1, flags & 0x08 != 0)?; // trick mode
    fields.skip(1, flags & 0x04 != 0)?; // copy info
    fields.skip(2, flags & 0x02 != 0)?; // CRC
    let second = if flags & 0x01 != 0 {
        second_extension(&mut fields)?
    } else {
        Second::default()
    };

    let marker = Refusal::of(23);
    if second.length & 0x80 == 0 {
        return Err(marker);
    }
    let prefix = if dts.is_some() {
        PTS_BEFORE_DTS
    } else {
        PTS_ALONE
    };
    if pts[0] >> 4 != prefix {
        return Err(marker);
    }
    let pts = time(pts).ok_or(marker)?;
    let decoding = match dts {
        Some(dts) if dts[0] >> 4 != DTS => return Err(marker),
        Some(dts) => time(dts).ok_or(marker)?,
        None => pts,
    };
    let matching = match second.tref {
        Some(tref) => time(tref).ok_or(marker)?,
        None => decoding,
    };
    if before(pts, decoding) {
        return Err(Refusal::of(24));
    }
    Ok(Header {
        times: Times {
            pts,
            decoding,
            matching,
        },
        tref_sent: second.tref.is_some(),
        end: FIXED + data.len(),
    })
}

/// The header data of a video PES header.
fn header_data(bytes: &[u8]) -> Option<&[u8]> {
    if bytes.len() < FIXED
        || bytes[..3] != START_PREFIX
        || bytes[3] >> 4 != 0xE
        || bytes[6] >> 6 != 0b10
    {
        return None;
    }
    bytes.get(FIXED..FIXED + usize::from(bytes[8]))
}

/// What counts of the second extension: the byte with the marker and the length, and TREF.
struct Second<'a> {
    length: u8,
    tref: Option<&'a [u8]>,
}

impl Default for Second<'_> {
    /// No second extension: nothing that a marker could be wrong in.
    fn default() -> Self {
        Second {
            length: 0x80,
            tref: None,
        }
    }
}

/// Takes the extension flags and what they flag.
fn second_extension<'a>(fields: &mut Fields<'a>) -> Result<Second<'a>, Refusal> {
    let flags = fields.take_byte()?;
    fields.skip(16, flags & 0x80 != 0)?; // private data
    if flags & 0x40 != 0 {
        let pack = fields.take_byte()?;
        fields.take(usize::from(pack))?;
    }
    fields.skip(2, flags & 0x20 != 0)?; // sequence counter
    fields.skip(2, flags & 0x10 != 0)?; // P-STD
    if flags & 0x01 == 0 {
        return Ok(Second::default());
    }
    let length = fields.take_byte()?;
    let mut extension = Fields {
        rest: fields.take(usize::from(length & 0x7F))?,
    };
    let head = extension.take_byte()?;
    let tref = if head & 0x81 == 0x80 {
        Some(extension.take(5)?)
    } else {
        None
    };
    Ok(Second { length, tref })
}

/// The time in five bytes, whatever their first four bits, or nothing where one of the three marker bits is 0.
fn time(field: &[u8]) -> Option<u64> {
    let bits = field
        .iter()
        .fold(0, |bits, &byte| bits << 8 | u64::from(byte));
    let markers = 1 << 32 | 1 << 16 | 1;
    (bits & markers == markers)
        .then_some(bits >> 3 & 0x1_C000_0000 | bits >> 2 & 0x3FFF_8000 | bits >> 1 & 0x7FFF)
}

/// A time as five bytes after the four bits of a prefix.
fn field(prefix: u8, time: u64) -> [u8; 5] {
    [
        prefix << 4 | (time >> 29) as u8 & 0x0E | 1,
        (time >> 22) as u8,
        (time >> 14) as u8 | 1,
        (time >> 7) as u8,
        (time << 1) as u8 | 1,
    ]
}

/// Writes a PES header, with a TREF or without one, and answers its length, or the refusal: 25, then 17, then 24.
pub fn write_times(times: Times, with_tref: bool, out: &mut [u8]) -> Result<usize, Refusal> {
    let Times {
        pts,
        decoding,
        matching,
    } = times;
    if !is_time(pts | decoding | matching) || !with_tref && matching != decoding {
        return Err(Refusal::of(25));
    }
    let sends_dts = decoding != pts;
    let data_length = 5 + if sends_dts { 5 } else { 0 } + if with_tref { 8 } else { 0 };
    let length = FIXED + data_length;
    let out = out.get_mut(..length).ok_or(Refusal::of(17))?;
    if before(pts, decoding) {
        return Err(Refusal::of(24));
    }
    let flags = 0x80 | u8::from(sends_dts) << 6 | u8::from(with_tref);
    out[..FIXED].copy_from_slice(&[0, 0, 1, 0xE0, 0, 0, 0x84, flags, data_length as u8]);
    let prefix = if sends_dts { PTS_BEFORE_DTS } else { PTS_ALONE };
    out[9..14].copy_from_slice(&field(prefix, pts));
    if sends_dts {
        out[14..19].copy_from_slice(&field(DTS, decoding));
    }
    if with_tref {
        // Extension flags with the second extension alone; marker and length 6; TREF flagged by 0.
        out[length - 8..length - 5].copy_from_slice(&[0x0F, 0x86, 0xFE]);
        out[length - 5..].copy_from_slice(&field(TREF, matching));
    }
    Ok(length)
}
