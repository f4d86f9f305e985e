//! Takes the parts of a record off the front of a file.

/// What is left of the file.
pub struct Reader<'a>(pub &'a [u8]);

impl<'a> Reader<'a> {
    pub fn take<const N: usize>(&mut self) -> Result<[u8; N], &'static str> {
        let (front, behind) = self.0.split_first_chunk().ok_or("cut head")?;
        self.0 = behind;
        Ok(*front)
    }

    /// The first byte is known to be the kind.
    pub fn kind(&mut self) -> Result<(), &'static str> {
        match self.take()? {
            [_, 0, 0, 0] => Ok(()),
            _ => Err("unknown head"),
        }
    }

    pub fn number(&mut self) -> Result<u32, &'static str> {
        self.take().map(u32::from_le_bytes)
    }

    pub fn part(&mut self, length: u32, most: usize) -> Result<Vec<u8>, &'static str> {
        if length as usize > most {
            return Err("a part is too long");
        }
        let split = self.0.split_at_checked(length as usize);
        let (part, behind) = split.ok_or("cut part")?;
        self.0 = behind;
        Ok(part.to_vec())
    }
}
