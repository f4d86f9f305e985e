//! Identities (SID), taken apart into their values.

pub const HEAD_LENGTH: usize = 8;
pub const LONGEST: usize = 68;
const MOST_NUMBERS: u8 = 15;
const CREATOR_AUTHORITY: u64 = 3;

#[derive(Clone, Debug, PartialEq, Eq)]
pub struct Identity {
    authority: u64,
    numbers: Vec<u32>,
}

#[derive(Clone, Copy, Debug, PartialEq, Eq)]
pub enum Role {
    Ordinary,
    CreatorOwner,
    CreatorGroup,
}

/// How long the SID is that starts with this head; `None` where the first
/// byte isn't 1 or n is above 15.
pub fn length_by_head(head: &[u8; HEAD_LENGTH]) -> Option<usize> {
    match *head {
        [1, n, ..] if n <= MOST_NUMBERS => Some(HEAD_LENGTH + 4 * usize::from(n)),
        _ => None,
    }
}

impl Identity {
    /// `None` unless the bytes are exactly one SID.
    pub fn parse(bytes: &[u8]) -> Option<Identity> {
        let (head, tail) = bytes.split_first_chunk::<HEAD_LENGTH>()?;
        if length_by_head(head)? != bytes.len() {
            return None;
        }
        let authority = head[2..]
            .iter()
            .fold(0, |high, &low| high << 8 | u64::from(low));
        let (numbers, _) = tail.as_chunks::<4>();
        Some(Identity {
            authority,
            numbers: numbers.iter().map(|&n| u32::from_le_bytes(n)).collect(),
        })
    }

    pub fn role(&self) -> Role {
        match (self.authority, self.numbers.as_slice()) {
            (CREATOR_AUTHORITY, [0]) => Role::CreatorOwner,
            (CREATOR_AUTHORITY, [1]) => Role::CreatorGroup,
            _ => Role::Ordinary,
        }
    }

    pub fn bytes(&self) -> Vec<u8> {
        let mut bytes = vec![1, self.numbers.len() as u8];
        bytes.extend_from_slice(&self.authority.to_be_bytes()[2..]);
        for number in &self.numbers {
            bytes.extend_from_slice(&number.to_le_bytes());
        }
        bytes
    }

    /// The SID's bytes, then zeros.
    pub fn buffer(&self) -> [u8; LONGEST] {
        let bytes = self.bytes();
        let mut buffer = [0; LONGEST];
        buffer[..bytes.len()].copy_from_slice(&bytes);
        buffer
    }
}

/// What the identity call returns for these bytes.
pub fn classify(bytes: &[u8]) -> u32 {
    match Identity::parse(bytes).map(|identity| identity.role()) {
        Some(Role::Ordinary) => 0,
        Some(Role::CreatorOwner) => 1,
        Some(Role::CreatorGroup) => 2,
        None => 6,
    }
}

#[cfg(test)]
mod tests {
    use super::*;

    const LOCAL_SYSTEM: [u8; 12] = [1, 1, 0, 0, 0, 0, 0, 5, 0x12, 0, 0, 0];
    const CREATOR_OWNER: [u8; 12] = [1, 1, 0, 0, 0, 0, 0, 3, 0, 0, 0, 0];
    const CREATOR_GROUP: [u8; 12] = [1, 1, 0, 0, 0, 0, 0, 3, 1, 0, 0, 0];

    #[test]
    fn ordinary_and_placeholders() {
        assert_eq!(classify(&LOCAL_SYSTEM), 0);
        assert_eq!(classify(&CREATOR_OWNER), 1);
        assert_eq!(classify(&CREATOR_GROUP), 2);
    }

    #[test]
    fn near_placeholders_are_ordinary() {
        assert_eq!(classify(&[1, 0, 0, 0, 0, 0, 0, 3]), 0);
        assert_eq!(classify(&[1, 1, 0, 0, 0, 0, 0, 3, 2, 0, 0, 0]), 0);
        assert_eq!(
            classify(&[1, 2, 0, 0, 0, 0, 0, 3, 0, 0, 0, 0, 0, 0, 0, 0]),
            0
        );
        assert_eq!(classify(&[1, 1, 3, 0, 0, 0, 0, 0, 0, 0, 0, 0]), 0);
        assert_eq!(classify(&[1, 1, 0, 0, 0, 0, 0, 3, 0, 0, 0, 1]), 0);
    }

    #[test]
    fn not_exactly_one() {
        assert_eq!(classify(&[]), 6);
        assert_eq!(classify(&CREATOR_OWNER[..11]), 6);
        assert_eq!(classify(&[&CREATOR_OWNER[..], &[0]].concat()), 6);
        assert_eq!(classify(&[2, 0, 0, 0, 0, 0, 0, 5]), 6);
        assert_eq!(classify(&[1, 0, 0, 0, 0, 0, 0]), 6);
    }

    #[test]
    fn longest_is_68_bytes() {
        let mut bytes = vec![0; 72];
        bytes[0] = 1;
        bytes[1] = 16;
        assert_eq!(classify(&bytes), 6);
        bytes[1] = 15;
        bytes.truncate(68);
        assert_eq!(classify(&bytes), 0);
    }

    #[test]
    fn buffer_is_padded_with_zeros() {
        let buffer = Identity::parse(&LOCAL_SYSTEM).unwrap().buffer();
        assert_eq!(buffer[..12], LOCAL_SYSTEM);
        assert_eq!(buffer[12..], [0; 56]);
    }
}
