//! Both receivers, each with buffers of its own, and the proved one a second time, with a flash that a driver writes.

use reference::{Settings, Transfer};

use crate::nor::Driven;
use crate::{proved_settings, proved_transfer, Buffers};

/// Both receivers, one settings and one transfer.
pub struct Pair {
    pub settings: Settings,
    pub proved: proved::Settings,
    pub transfer: Transfer,
    pub ours: Buffers,
    pub theirs: Buffers,
    pub driven: Driven,
}

impl Pair {
    pub fn new(settings: Settings, transfer: Transfer, buffers: Buffers) -> Pair {
        Pair {
            proved: proved_settings(&settings),
            settings,
            transfer,
            ours: buffers.clone(),
            theirs: buffers.clone(),
            driven: Driven::new(buffers),
        }
    }

    /// The same transfer, with other buffers.
    pub fn lend(&mut self, buffers: Buffers) {
        *self = Pair::new(self.settings, self.transfer, buffers);
    }

    /// Both look at the arrival and take it; says what all four answered. A look leaves every buffer as it was: ours are the reference's
    /// before it, by the last take, and after it. Accepted and performed on a NOR flash, it ends as the take does.
    pub fn take(&mut self, arrival: &[u8]) -> u8 {
        self.told(arrival).0
    }

    /// The same, with "discarded".
    pub fn told(&mut self, arrival: &[u8]) -> (u8, bool) {
        let mut t = proved_transfer(self.transfer);
        let looked = proved::look(&self.proved, t, arrival, &self.ours.lend());
        let wanted = self
            .theirs
            .plain_look(&self.settings, self.transfer, arrival);
        assert_eq!((looked.answer.number(), looked.discarded), wanted, "look");
        assert!(self.ours == self.theirs, "buffers after the look");

        let wanted = self
            .theirs
            .plain_take(&self.settings, self.transfer, arrival);
        let got = proved::take(&self.proved, &mut t, arrival, &mut self.ours.lend());
        assert_eq!(got.answer.number(), wanted.answer, "answer");
        assert_eq!(got.discarded, wanted.discarded, "discarded");
        assert_eq!(got, looked, "the look said it");
        assert_eq!(t, proved_transfer(wanted.transfer), "transfer");
        assert!(self.ours == self.theirs, "buffers");

        let mut after = proved_transfer(self.transfer);
        let accepted = self.driven.take(&self.proved, &mut after, arrival);
        assert_eq!(accepted, got, "accepted as taken");
        assert_eq!(after, t, "transfer of the accepted");
        assert!(self.driven.holds(&self.ours), "buffers of the accepted");
        self.transfer = wanted.transfer;
        (wanted.answer, wanted.discarded)
    }
}
