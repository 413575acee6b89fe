//! A sheet's records as they lie in bytes, without judging them.

/// Stands for an absent day or remaining.
pub const ABSENT: i32 = i32::MIN;
pub const FIRST_DAY: i32 = -135_140;
pub const LAST_DAY: i32 = 376_199;

#[derive(Debug, Clone, PartialEq, Eq)]
pub struct Plan {
    pub start: i32,
    pub data: i32,
    pub must_finish: i32,
    pub lag_calendar: u8,
    pub float_kind: u8,
    pub progress: u8,
    pub critical_by: u8,
    pub threshold: i32,
}

impl Default for Plan {
    fn default() -> Self {
        Plan {
            start: 0,
            data: ABSENT,
            must_finish: ABSENT,
            lag_calendar: 0,
            float_kind: 0,
            progress: 0,
            critical_by: 0,
            threshold: 0,
        }
    }
}

/// A W or an E: hours of a weekday or of a day.
#[derive(Debug, Clone, Copy, PartialEq, Eq, Default)]
pub struct Hours {
    pub day: i32,
    pub from: u16,
    pub to: u16,
}

/// A constraint's code with its day.
pub type Mark = (u8, i32);

#[derive(Debug, Clone, PartialEq, Eq)]
pub struct Activity {
    pub id: u32,
    pub kind: u8,
    pub calendar: u8,
    pub parent: u32,
    pub minutes: i32,
    pub actual_start: i32,
    pub actual_finish: i32,
    pub remaining: i32,
    pub expected_finish: i32,
    pub constraints: [Mark; 2],
    pub levelled: i32,
}

impl Default for Activity {
    fn default() -> Self {
        Activity {
            id: 1,
            kind: 0,
            calendar: 0,
            parent: 0,
            minutes: 0,
            actual_start: ABSENT,
            actual_finish: ABSENT,
            remaining: ABSENT,
            expected_finish: ABSENT,
            constraints: [(0, 0); 2],
            levelled: ABSENT,
        }
    }
}

#[derive(Debug, Clone, PartialEq, Eq, Default)]
pub struct Link {
    pub predecessor: u32,
    pub successor: u32,
    pub kind: u8,
    pub basis: u8,
    pub unit: u8,
    pub lag: i32,
}

#[derive(Debug, Clone, PartialEq, Eq)]
pub enum Record {
    P(Plan),
    /// With its day length.
    C(u16),
    W(Hours),
    E(Hours),
    A(Activity),
    L(Link),
    /// Bytes that are no record: all that follow an unknown kind or a cut.
    Raw(Vec<u8>),
}

/// The length of a body by its kind; none for an unknown kind.
pub fn body_length(kind: u8) -> Option<usize> {
    Some(match kind {
        b'P' => 20,
        b'C' => 2,
        b'W' => 5,
        b'E' => 8,
        b'A' => 44,
        b'L' => 15,
        _ => return None,
    })
}

/// Takes little-endian numbers from the front of a body.
struct Fields<'a>(&'a [u8]);

impl Fields<'_> {
    fn take<const N: usize>(&mut self) -> [u8; N] {
        let (head, rest) = self.0.split_first_chunk().expect("the kind fixes the length");
        self.0 = rest;
        *head
    }
    fn u8(&mut self) -> u8 {
        self.take::<1>()[0]
    }
    fn u16(&mut self) -> u16 {
        u16::from_le_bytes(self.take())
    }
    fn u32(&mut self) -> u32 {
        u32::from_le_bytes(self.take())
    }
    fn i32(&mut self) -> i32 {
        i32::from_le_bytes(self.take())
    }
}

impl Record {
    /// Its byte of kind; none for what is no record.
    pub fn kind(&self) -> Option<u8> {
        Some(match self {
            Record::P(_) => b'P',
            Record::C(_) => b'C',
            Record::W(_) => b'W',
            Record::E(_) => b'E',
            Record::A(_) => b'A',
            Record::L(_) => b'L',
            Record::Raw(_) => return None,
        })
    }

    /// The record at the front of `bytes` and its length; none where no whole record stands.
    pub fn first(bytes: &[u8]) -> Option<(Record, usize)> {
        let kind = *bytes.first()?;
        let length = 1 + body_length(kind)?;
        let mut f = Fields(bytes.get(1..length)?);
        let record = match kind {
            b'P' => Record::P(Plan {
                start: f.i32(),
                data: f.i32(),
                must_finish: f.i32(),
                lag_calendar: f.u8(),
                float_kind: f.u8(),
                progress: f.u8(),
                critical_by: f.u8(),
                threshold: f.i32(),
            }),
            b'C' => Record::C(f.u16()),
            b'W' => Record::W(Hours { day: i32::from(f.u8()), from: f.u16(), to: f.u16() }),
            b'E' => Record::E(Hours { day: f.i32(), from: f.u16(), to: f.u16() }),
            b'A' => Record::A(Activity {
                id: f.u32(),
                kind: f.u8(),
                calendar: f.u8(),
                parent: f.u32(),
                minutes: f.i32(),
                actual_start: f.i32(),
                actual_finish: f.i32(),
                remaining: f.i32(),
                expected_finish: f.i32(),
                constraints: [(f.u8(), f.i32()), (f.u8(), f.i32())],
                levelled: f.i32(),
            }),
            _ => Record::L(Link {
                predecessor: f.u32(),
                successor: f.u32(),
                kind: f.u8(),
                basis: f.u8(),
                unit: f.u8(),
                lag: f.i32(),
            }),
        };
        Some((record, length))
    }

    fn append(&self, out: &mut Vec<u8>) {
        let mut put = |parts: &[&[u8]]| parts.iter().for_each(|p| out.extend_from_slice(p));
        match self {
            Record::P(p) => put(&[
                b"P",
                &p.start.to_le_bytes(),
                &p.data.to_le_bytes(),
                &p.must_finish.to_le_bytes(),
                &[p.lag_calendar, p.float_kind, p.progress, p.critical_by],
                &p.threshold.to_le_bytes(),
            ]),
            Record::C(length) => put(&[b"C", &length.to_le_bytes()]),
            Record::W(h) => put(&[b"W", &[h.day as u8], &h.from.to_le_bytes(), &h.to.to_le_bytes()]),
            Record::E(h) => put(&[b"E", &h.day.to_le_bytes(), &h.from.to_le_bytes(), &h.to.to_le_bytes()]),
            Record::A(a) => put(&[
                b"A",
                &a.id.to_le_bytes(),
                &[a.kind, a.calendar],
                &a.parent.to_le_bytes(),
                &a.minutes.to_le_bytes(),
                &a.actual_start.to_le_bytes(),
                &a.actual_finish.to_le_bytes(),
                &a.remaining.to_le_bytes(),
                &a.expected_finish.to_le_bytes(),
                &[a.constraints[0].0],
                &a.constraints[0].1.to_le_bytes(),
                &[a.constraints[1].0],
                &a.constraints[1].1.to_le_bytes(),
                &a.levelled.to_le_bytes(),
            ]),
            Record::L(l) => put(&[
                b"L",
                &l.predecessor.to_le_bytes(),
                &l.successor.to_le_bytes(),
                &[l.kind, l.basis, l.unit],
                &l.lag.to_le_bytes(),
            ]),
            Record::Raw(bytes) => put(&[bytes]),
        }
    }
}

/// Any bytes as records; `encode` gives the same bytes back.
pub fn decode(mut bytes: &[u8]) -> Vec<Record> {
    let mut records = Vec::new();
    while let Some((record, length)) = Record::first(bytes) {
        records.push(record);
        bytes = &bytes[length..];
    }
    if !bytes.is_empty() {
        records.push(Record::Raw(bytes.to_vec()));
    }
    records
}

pub fn encode(records: &[Record]) -> Vec<u8> {
    let mut bytes = Vec::new();
    records.iter().for_each(|r| r.append(&mut bytes));
    bytes
}
