//! Building: a record made turn by turn in a lent buffer.

use crate::{ffi, Facts, Refusal};

/// A builder's state. Turns: begin, ID, one or more alleles, FILTER, INFO fields, FORMAT fields, end. Each turn
/// appends to what the turns before it wrote in the buffer and answers the bytes written so far; the same buffer is
/// lent to each, untouched between turns. A refused turn keeps the state and the buffer.
///
/// Integers are signed numbers with the marks of type 3 (−2147483648 missing, −2147483647 end of vector), floats are
/// their bits, text is bytes. Widths are chosen by the builder.
///
/// Every turn gives 12 where it is out of order and 13 where the buffer is too short; all places are 0.
///
/// ```
/// let mut builder = sikalumdo::Builder::fresh();
/// let facts = sikalumdo::Facts { strings: 1, contigs: 1, people: 0, gt: u32::MAX };
/// let mut buf = [0; 64];
/// builder.begin(&mut buf, &facts, 0, 99, 1, 0x7F80_0001)?;
/// builder.id(&mut buf, b"")?;
/// builder.allele(&mut buf, b"A")?;
/// builder.filter(&mut buf, &[0])?;
/// let length = builder.end(&mut buf)?;
/// assert_eq!(sikalumdo::read(&buf[..length as usize], &facts)?.pos, 99);
/// # Ok::<(), sikalumdo::Refusal>(())
/// ```
#[derive(Debug, Clone, PartialEq, Eq)]
pub struct Builder {
    state: [u32; ffi::STATE],
}

impl Default for Builder {
    fn default() -> Builder {
        Builder::fresh()
    }
}

impl Builder {
    /// A fresh state, which takes begin and no other turn.
    pub fn fresh() -> Builder {
        Builder { state: ffi::fresh() }
    }

    /// Writes the first 32 bytes, with both block lengths and both count fields 0. The facts hold for all turns.
    ///
    /// # Errors
    ///
    /// 12; 5 where a fixed field breaks its rule or no record can hold that many people; 13.
    pub fn begin(
        &mut self,
        buf: &mut [u8],
        facts: &Facts,
        chrom: i32,
        pos: i32,
        rlen: i32,
        qual_bits: u32,
    ) -> Result<u32, Refusal> {
        ffi::begin(&mut self.state, buf, facts, [chrom, pos, rlen], qual_bits)
    }

    /// Appends the ID; an empty text says that it is missing.
    ///
    /// # Errors
    ///
    /// 12, 9, 2, 13.
    pub fn id(&mut self, buf: &mut [u8], text: &[u8]) -> Result<u32, Refusal> {
        ffi::id(&mut self.state, buf, text)
    }

    /// Appends an allele, REF first.
    ///
    /// # Errors
    ///
    /// 12; 5 where there are 65,535; 7 where it is empty; 9, 2, 13.
    pub fn allele(&mut self, buf: &mut [u8], text: &[u8]) -> Result<u32, Refusal> {
        ffi::allele(&mut self.state, buf, text)
    }

    /// Appends FILTER; an empty list says that no filter was applied.
    ///
    /// # Errors
    ///
    /// 12; by element 8 then 11; 2, 13.
    pub fn filter(&mut self, buf: &mut [u8], offsets: &[i32]) -> Result<u32, Refusal> {
        ffi::filter(&mut self.state, buf, offsets)
    }

    /// Appends an INFO field of integers.
    ///
    /// # Errors
    ///
    /// 12; 5 where there are 65,535; 8, 9, 2, 13.
    pub fn info_integers(&mut self, buf: &mut [u8], key: i32, values: &[i32]) -> Result<u32, Refusal> {
        ffi::info_integers(&mut self.state, buf, key, values)
    }

    /// Appends an INFO field of floats.
    ///
    /// # Errors
    ///
    /// 12; 5 where there are 65,535; 8, 9, 2, 13.
    pub fn info_floats(&mut self, buf: &mut [u8], key: i32, bits: &[u32]) -> Result<u32, Refusal> {
        ffi::info_floats(&mut self.state, buf, key, bits)
    }

    /// Appends an INFO field of text.
    ///
    /// # Errors
    ///
    /// 12; 5 where there are 65,535; 8, 9, 2, 13.
    pub fn info_text(&mut self, buf: &mut [u8], key: i32, text: &[u8]) -> Result<u32, Refusal> {
        ffi::info_text(&mut self.state, buf, key, text)
    }

    /// Appends a FORMAT field of integers, `len` for each person, each person's vector in turn. GT is given so.
    ///
    /// # Errors
    ///
    /// 12; 5 where there are 255 or no people; 8, 11; 7 where the list isn't people × length; 9 and 10 by element; 2,
    /// 13.
    pub fn format_integers(&mut self, buf: &mut [u8], key: i32, len: u32, values: &[i32]) -> Result<u32, Refusal> {
        ffi::format_integers(&mut self.state, buf, key, len, values)
    }

    /// Appends a FORMAT field of floats, `len` for each person, each person's vector in turn.
    ///
    /// # Errors
    ///
    /// 12; 5 where there are 255 or no people; 8, 11; 6 for GT's key; 7 where the list isn't people × length; 9, 2,
    /// 13.
    pub fn format_floats(&mut self, buf: &mut [u8], key: i32, len: u32, bits: &[u32]) -> Result<u32, Refusal> {
        ffi::format_floats(&mut self.state, buf, key, len, bits)
    }

    /// Appends a FORMAT field of text, `len` bytes for each person, each person's in turn.
    ///
    /// # Errors
    ///
    /// 12; 5 where there are 255 or no people; 8, 11; 6 for GT's key; 7 where the list isn't people × length; 9, 2,
    /// 13.
    pub fn format_text(&mut self, buf: &mut [u8], key: i32, len: u32, text: &[u8]) -> Result<u32, Refusal> {
        ffi::format_text(&mut self.state, buf, key, len, text)
    }

    /// Fills in the two block lengths and the two count fields, and answers the record's length. No turn is taken
    /// afterwards.
    ///
    /// # Errors
    ///
    /// 12, 13.
    pub fn end(&mut self, buf: &mut [u8]) -> Result<u32, Refusal> {
        ffi::end(&mut self.state, buf)
    }
}
