//! Texts that come in pieces.
use crate::explanation::{self, Explanation};
use crate::fault::{Error, Fault};
use crate::foreign::{self, Handle, Summary};
use crate::verdict::{self, Audit};
use crate::{MOST_ENTRIES, USUAL_ENTRIES};

/// Reads a text in pieces, for a run that is judged while it is recorded.
///
/// ```
/// let mut reader = nixu::Reader::new()?;
/// for piece in ["[\"trace\",1,2]\n[\"se", "nd\",0,1,0]\n", "[\"end\",1]\n"] {
///     reader.feed(piece.as_bytes())?;
/// }
/// assert_eq!(reader.finish(1)?.entries, 1);
/// # Ok::<(), nixu::Error>(())
/// ```
#[derive(Debug)]
pub struct Reader(Handle);

impl Reader {
    /// A reader that has read nothing, of a trace of up to [`USUAL_ENTRIES`] entries.
    ///
    /// # Errors
    /// [`Error::NoMemory`].
    pub fn new() -> Result<Reader, Error> {
        Reader::within(USUAL_ENTRIES)
    }

    /// The same of a trace of up to so many entries, 1 to [`MOST_ENTRIES`]: they list up to 16 determinants for each in all, and
    /// the text has up to 512 bytes for each.
    ///
    /// # Errors
    /// [`Error::Entries`] and [`Error::NoMemory`].
    pub fn within(entries: u32) -> Result<Reader, Error> {
        if !(1..=MOST_ENTRIES).contains(&entries) {
            return Err(Error::Entries);
        }
        let mut reader = Reader(Handle::closed());
        match foreign::reader_open(&mut reader.0, entries) {
            foreign::OK => Ok(reader),
            status => Err(Error::of_status(status)),
        }
    }

    /// Reads one more piece, of any length.
    ///
    /// # Errors
    /// [`Error::Fault`] with the first fault of the text, as soon as a line has one; and [`Error::NoMemory`]. After an error the
    /// reader is closed, and each further call tells [`Error::Closed`].
    pub fn feed(&mut self, piece: &[u8]) -> Result<(), Error> {
        let mut told = Summary::default();
        match foreign::reader_feed(&mut self.0, piece, &mut told) {
            foreign::OK => Ok(()),
            foreign::FAULT => Err(Fault::told(&told)),
            status => Err(Error::of_status(status)),
        }
    }

    /// The verdict on the entries that the complete lines so far have, and why it is so.
    ///
    /// # Errors
    /// [`Error::NoHeader`] where the header line is not complete yet, [`Error::NoMemory`], and [`Error::Closed`] after an earlier
    /// error.
    pub fn explanation(&mut self, faults: u16) -> Result<Explanation, Error> {
        let reader = &mut self.0;
        explanation::ask(|told, facts, needed| foreign::reader_facts(reader, faults, told, facts, needed))
    }

    /// The verdict on the trace that the pieces spell, with up to `faults` processes down at once.
    ///
    /// # Errors
    /// [`Error::Fault`] where they spell none, [`Error::NoMemory`], and [`Error::Closed`] after an earlier error.
    pub fn finish(mut self, faults: u16) -> Result<Audit, Error> {
        let mut told = [Summary::default()];
        let status = foreign::reader_finish(&mut self.0, &[faults], &mut told);
        verdict::told(status, &told[0])
    }

    /// The verdicts for several numbers of faults, in their order.
    ///
    /// # Errors
    /// As for [`Reader::finish`], but where no number is asked for a fault is not told.
    pub fn finish_each(mut self, faults: &[u16]) -> Result<Vec<Audit>, Error> {
        let mut told = vec![Summary::default(); faults.len()];
        match foreign::reader_finish(&mut self.0, faults, &mut told) {
            status @ (foreign::OK | foreign::FAULT) => told.iter().map(|told| verdict::told(status, told)).collect(),
            status => Err(Error::of_status(status)),
        }
    }
}

impl Drop for Reader {
    fn drop(&mut self) {
        foreign::reader_close(&mut self.0);
    }
}
