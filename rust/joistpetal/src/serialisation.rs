use crate::runs::lend;
use crate::{Bdd, Refusal, ffi};
use joistpetal_sys::{MOST_ENTRIES, file_len};
use std::io::{self, Read, Write};

/// The byte form: ten bytes to an entry, u16, u32, u32, least byte first.
impl Bdd {
    /// The bytes of the set. Refused with 2 if it is not ordered; the original writes any.
    pub fn to_bytes(&self) -> Result<Vec<u8>, Refusal> {
        let mut bytes = vec![0; file_len(self.size())];
        ffi::write_as_bytes(self.set(), &mut bytes)?;
        Ok(bytes)
    }

    /// Reads a set from bytes, all of them, as the original does; a tail of less than ten bytes is dropped. The set may be
    /// not ordered. Refused with 9 if it has more than 4,096 entries and with 2 if it has none, and then `data` is as it was.
    pub fn from_bytes(data: &mut &[u8]) -> Result<Bdd, Refusal> {
        let (set, _) = Bdd::from_bytes_and_tail(data)?;
        *data = &[];
        Ok(set)
    }

    /// The same, and how many bytes of a tail were dropped, 0 to 9. The original does not tell.
    pub fn from_bytes_and_tail(data: &[u8]) -> Result<(Bdd, usize), Refusal> {
        lend(|runs| runs.read(data))
    }

    /// Writes the bytes of the set. A refusal comes as an `io::Error` that carries it, see [`Refusal::carried_by`], and
    /// then nothing is written.
    pub fn write_as_bytes<W: Write>(&self, output: &mut W) -> Result<(), io::Error> {
        output.write_all(&self.to_bytes()?)
    }

    /// Reads a set to the end of the input. A refusal comes as an `io::Error` that carries it, see
    /// [`Refusal::carried_by`]. No more is read than shows that there are too many entries: 40,970 bytes.
    pub fn read_as_bytes<R: Read>(input: &mut R) -> Result<Bdd, io::Error> {
        let enough = file_len(MOST_ENTRIES + 1);
        let mut data = Vec::new();
        input.take(enough as u64).read_to_end(&mut data)?;
        Ok(Bdd::from_bytes(&mut data.as_slice())?)
    }
}
