//! Record frames of ISO/IEC 8211, as in `iso_frame`: each leader and each entry of a directory is tested, and the first failing test gives the fault.

#[derive(Clone, Copy, Debug, PartialEq, Eq)]
pub enum FrameFault {
    Short,
    BadLeader,
    BadDirectory,
}

#[derive(Clone, Copy)]
struct Leader {
    length: usize,
    base: usize,
    length_size: usize,
    position_size: usize,
}

/// A record with its fields.
#[derive(Clone, Copy)]
pub struct Frame<'a> {
    bytes: &'a [u8],
    leader: Leader,
    count: usize,
}

fn decimal(digits: &[u8]) -> Option<usize> {
    let mut number = 0;
    for digit in digits {
        if !digit.is_ascii_digit() {
            return None;
        }
        number = number * 10 + usize::from(digit - b'0');
    }
    Some(number)
}

fn read_leader(bytes: &[u8], first: bool) -> Option<Leader> {
    let length = decimal(&bytes[..5])?;
    let base = decimal(&bytes[12..17])?;
    let (length_size, position_size) = (bytes[20], bytes[21]);
    let kind = if first { b'L' } else { b'D' };
    if bytes[6] != kind
        || !(b'1'..=b'9').contains(&length_size)
        || !(b'1'..=b'9').contains(&position_size)
        || bytes[23] != b'4'
        || base < 25
        || length < base
    {
        return None;
    }
    Some(Leader { length, base, length_size: usize::from(length_size - b'0'), position_size: usize::from(position_size - b'0') })
}

impl Leader {
    fn entry_size(&self) -> usize {
        4 + self.length_size + self.position_size
    }
}

/// The length and the position of the field of an entry.
fn read_entry(bytes: &[u8], leader: Leader, place: usize) -> Option<(usize, usize)> {
    let text = 24 + place * leader.entry_size() + 4;
    let length = decimal(&bytes[text..text + leader.length_size])?;
    let text = text + leader.length_size;
    let position = decimal(&bytes[text..text + leader.position_size])?;
    Some((length, position))
}

fn read_directory(bytes: &[u8], leader: Leader) -> Option<usize> {
    let room = leader.base - 25;
    if bytes[leader.base - 1] != 0x1e || room % leader.entry_size() != 0 {
        return None;
    }
    let count = room / leader.entry_size();
    for place in 0..count {
        let (length, position) = read_entry(bytes, leader, place)?;
        if length == 0 || leader.base + position + length > leader.length {
            return None;
        }
    }
    Some(count)
}

/// The record with which bytes begin; `first` says that it is the data descriptive record.
pub fn next_record(bytes: &[u8], first: bool) -> Result<Frame<'_>, FrameFault> {
    if bytes.len() < 24 {
        return Err(FrameFault::Short);
    }
    let leader = read_leader(bytes, first).ok_or(FrameFault::BadLeader)?;
    if bytes.len() < leader.length {
        return Err(FrameFault::Short);
    }
    let bytes = &bytes[..leader.length];
    let count = read_directory(bytes, leader).ok_or(FrameFault::BadDirectory)?;
    Ok(Frame { bytes, leader, count })
}

impl<'a> Frame<'a> {
    pub fn length(&self) -> usize {
        self.leader.length
    }

    pub fn count(&self) -> usize {
        self.count
    }

    /// The tag of a field.
    pub fn tag(&self, place: usize) -> [u8; 4] {
        let at = 24 + place * self.leader.entry_size();
        [self.bytes[at], self.bytes[at + 1], self.bytes[at + 2], self.bytes[at + 3]]
    }

    /// The bytes of a field with its terminator.
    pub fn field(&self, place: usize) -> &'a [u8] {
        let (length, position) = read_entry(self.bytes, self.leader, place).expect("an entry that was tested");
        let from = self.leader.base + position;
        &self.bytes[from..from + length]
    }
}
