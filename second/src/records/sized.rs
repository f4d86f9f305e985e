//! Records of some bytes and the room lent for what comes of them: the kind,
//! the length of the bytes in 32 bits, the length of `out` in 16, both
//! little-endian, then the bytes.

/// A kind of record, and how long its parts may be.
pub struct Layout {
    pub kind: u8,
    pub most: usize,
    pub most_out: u16,
}

/// The bytes, the length of `out`, and the records behind.
pub type Taken<'a> = (Vec<u8>, u16, &'a [u8]);

impl Layout {
    pub fn encode(&self, bytes: &[u8], out_length: u16, out: &mut Vec<u8>) {
        let within_limits = bytes.len() <= self.most && out_length <= self.most_out;
        assert!(within_limits, "a case is too long");
        out.push(self.kind);
        out.extend((bytes.len() as u32).to_le_bytes());
        out.extend(out_length.to_le_bytes());
        out.extend(bytes);
    }

    /// The first byte is known to be the kind.
    pub fn decode<'a>(&self, file: &'a [u8]) -> Result<Taken<'a>, &'static str> {
        let (head, rest) = file.split_first_chunk::<7>().ok_or("cut head")?;
        let &[_, ref length @ .., out_low, out_high] = head;
        let length = u32::from_le_bytes(*length) as usize;
        let out_length = u16::from_le_bytes([out_low, out_high]);
        if length > self.most {
            return Err("the payload is too long");
        }
        if out_length > self.most_out {
            return Err("out is too long");
        }
        let (bytes, rest) = rest.split_at_checked(length).ok_or("cut payload")?;
        Ok((bytes.to_vec(), out_length, rest))
    }
}
