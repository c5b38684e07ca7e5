//! The model as a library whose calls may have a slip: what the drivers' tests run them on.
use crate::ground::Site;
use crate::model::{self, Call, Lent, Record, Refusal, Reopened, Reply};
use crate::session::Calls;

/// A fresh session, of settings and a place, from what it was lent.
pub type Fresh<'a> = &'a dyn Fn(&Site, &[u16], &[u8]) -> Result<Lent, u32>;

/// What a call leaves and replies, from what it was lent.
pub type Press<'a> = &'a dyn Fn(&Lent, &Call) -> (Lent, Reply);

/// Reopening, of a journal, its held bytes and a number of cells.
pub type Open<'a> = &'a dyn Fn(&[u8], usize, usize) -> Result<Reopened, Refusal>;

pub struct Library<'a> {
    pub fresh: Fresh<'a>,
    pub press: Press<'a>,
    pub open: Open<'a>,
}

/// The model itself.
pub const MODEL: Library = Library {
    fresh: &model::fresh,
    press: &model::replied,
    open: &model::reopen,
};

impl Calls for Library<'_> {
    fn fresh(&self, site: &Site, cells: &mut [u16], journal: &mut [u8]) -> Result<Record, u32> {
        let lent = (self.fresh)(site, cells, journal)?;
        cells.copy_from_slice(&lent.cells);
        journal.copy_from_slice(&lent.journal);
        Ok(lent.record)
    }

    fn call(&self, lent: &mut Lent, call: &Call) -> Reply {
        let (next, reply) = (self.press)(lent, call);
        *lent = next;
        reply
    }

    fn reopen(
        &self,
        journal: &[u8],
        held: usize,
        cells: &mut [u16],
    ) -> Result<(Record, usize, usize), Refusal> {
        let opened = (self.open)(journal, held, cells.len())?;
        cells.copy_from_slice(&opened.cells);
        Ok((opened.record, opened.lines, opened.trailing))
    }

    fn committed(&self, journal: &[u8], held: usize) -> usize {
        model::committed(journal, held).len()
    }
}
